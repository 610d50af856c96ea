//! Document 02's K8 by hand: two-word sums and differences, with their carry and borrow in N. "ADD, ADDC: N is the carry out. SUB, SUBC, CMP:
//! N is the borrow." "ADDC and SUBC take old N as carry or borrow. Z: W-bit result zero." Bit 26 at 1 leaves both flags.

use crate::calls::Calls;
use crate::document_contexts::{Cases, Setup, Wanted};
use crate::document_targets::same;

/// A word and its text.
type Word = (u32, &'static str);

const ADD: Word = (0x4000_0002, "ADD %00,%02,S");
const ADD_KEEPS: Word = (0x4400_0002, "ADD %00,%02");
const ADDC: Word = (0x4801_0003, "ADDC %01,%03,S");
const ADDC_KEEPS: Word = (0x4c01_0003, "ADDC %01,%03");
const SUB: Word = (0x3000_0002, "SUB %00,%02,S");
const SUB_KEEPS: Word = (0x3400_0002, "SUB %00,%02");
const SUBC: Word = (0x5001_0003, "SUBC %01,%03,S");
const SUBC_KEEPS: Word = (0x5401_0003, "SUBC %01,%03");

const ADD_1: Word = (0x4280_0001, "ADD %00,#0001,S");
const ADD_SIGNED: Word = (0x4280_fff2, "ADD %00,#fff2,S");
const ADD_UNSIGNED: Word = (0x4300_fff2, "ADD %00,>fff2,S");
const ADD_SHIFTED: Word = (0x4380_fff2, "ADD %00,<fff2,S");
const ADDC_ONES: Word = (0x4a81_ffff, "ADDC %01,#ffff,S");
const ADDC_SIGNED: Word = (0x4a81_8765, "ADDC %01,#8765,S");
const ADDC_UNSIGNED: Word = (0x4b01_8765, "ADDC %01,>8765,S");
const ADDC_SHIFTED: Word = (0x4b81_8765, "ADDC %01,<8765,S");
const SUB_1: Word = (0x3280_0001, "SUB %00,#0001,S");
const SUB_SIGNED: Word = (0x3280_fff2, "SUB %00,#fff2,S");
const SUB_UNSIGNED: Word = (0x3300_fff2, "SUB %00,>fff2,S");
const SUB_SHIFTED: Word = (0x3380_fff2, "SUB %00,<fff2,S");
const SUBC_ONES: Word = (0x5281_ffff, "SUBC %01,#ffff,S");
const SUBC_SIGNED: Word = (0x5281_8765, "SUBC %01,#8765,S");
const SUBC_UNSIGNED: Word = (0x5301_8765, "SUBC %01,>8765,S");
const SUBC_SHIFTED: Word = (0x5381_8765, "SUBC %01,<8765,S");

const DOUBLE: Word = (0x4000_0000, "ADD %00,%00,S");
const DOUBLE_C: Word = (0x4801_0001, "ADDC %01,%01,S");
const CLEAR: Word = (0x3000_0000, "SUB %00,%00,S");
const CLEAR_C: Word = (0x5001_0001, "SUBC %01,%01,S");
const ADDC_2: Word = (0x4801_0002, "ADDC %01,%02,S");
const SUBC_2: Word = (0x5001_0002, "SUBC %01,%02,S");
const ADD_HIGH: Word = (0x4000_0001, "ADD %00,%01,S");
const MOV: Word = (0xa284_0001, "MOV %04,#0001");
const CMP: Word = (0x2002_0002, "CMP %02,%02,S");

/// What is worked out, the words, the first registers before them, and what each leaves: the word in 22-16's register, N and Z.
type Row = (&'static str, &'static [Word], &'static [u32], &'static [(u32, u32, u32)]);

const ONES: u32 = 0xffff_ffff;

const W_8: &[Row] = &[
    ("1234 + 2345 = 3579", &[ADD, ADDC], &[0x34, 0x12, 0x45, 0x23], &[(0x79, 0, 0), (0x35, 0, 0)]),
    ("12f0 + 2320 = 3610", &[ADD, ADDC], &[0xf0, 0x12, 0x20, 0x23], &[(0x10, 1, 0), (0x36, 0, 0)]),
    ("f012 + 2034 = 1 1046", &[ADD, ADDC], &[0x12, 0xf0, 0x34, 0x20], &[(0x46, 0, 0), (0x10, 1, 0)]),
    ("f080 + 1090 = 1 0110", &[ADD, ADDC], &[0x80, 0xf0, 0x90, 0x10], &[(0x10, 1, 0), (0x01, 1, 0)]),
    ("ffff + 0001 = 1 0000", &[ADD, ADDC], &[0xff, 0xff, 0x01, 0x00], &[(0x00, 1, 1), (0x00, 1, 1)]),
    ("01ff + ff01 = 1 0100", &[ADD, ADDC], &[0xff, 0x01, 0x01, 0xff], &[(0x00, 1, 1), (0x01, 1, 0)]),
    ("ffff + ffff = 1 fffe", &[ADD, ADDC], &[0xff, 0xff, 0xff, 0xff], &[(0xfe, 1, 0), (0xff, 1, 0)]),
    // Z is the second word's: 0 or 1 whatever the low word is.
    ("00ff + 0001 = 0100", &[ADD, ADDC], &[0xff, 0x00, 0x01, 0x00], &[(0x00, 1, 1), (0x01, 0, 0)]),
    ("0000 + 0001 = 0001", &[ADD, ADDC], &[0x00, 0x00, 0x01, 0x00], &[(0x01, 0, 0), (0x00, 0, 1)]),
    ("8000 + 8001 = 1 0001", &[ADD, ADDC], &[0x00, 0x80, 0x01, 0x80], &[(0x01, 0, 0), (0x00, 1, 1)]),
    // The second leaves the flags: N and Z are the first's, also where 0100 is not zero.
    ("12f0 + 2320 = 3610", &[ADD, ADDC_KEEPS], &[0xf0, 0x12, 0x20, 0x23], &[(0x10, 1, 0), (0x36, 1, 0)]),
    ("f012 + 2034 = 1 1046", &[ADD, ADDC_KEEPS], &[0x12, 0xf0, 0x34, 0x20], &[(0x46, 0, 0), (0x10, 0, 0)]),
    ("00ff + 0001 = 0100", &[ADD, ADDC_KEEPS], &[0xff, 0x00, 0x01, 0x00], &[(0x00, 1, 1), (0x01, 1, 1)]),
    ("3579 - 1234 = 2345", &[SUB, SUBC], &[0x79, 0x35, 0x34, 0x12], &[(0x45, 0, 0), (0x23, 0, 0)]),
    ("f079 - 1034 = e045", &[SUB, SUBC], &[0x79, 0xf0, 0x34, 0x10], &[(0x45, 0, 0), (0xe0, 0, 0)]),
    ("3610 - 12f0 = 2320", &[SUB, SUBC], &[0x10, 0x36, 0xf0, 0x12], &[(0x20, 1, 0), (0x23, 0, 0)]),
    ("1046 - 2012 = f034, borrow", &[SUB, SUBC], &[0x46, 0x10, 0x12, 0x20], &[(0x34, 0, 0), (0xf0, 1, 0)]),
    ("0000 - 0001 = ffff, borrow", &[SUB, SUBC], &[0x00, 0x00, 0x01, 0x00], &[(0xff, 1, 0), (0xff, 1, 0)]),
    ("5500 - 5501 = ffff, borrow", &[SUB, SUBC], &[0x00, 0x55, 0x01, 0x55], &[(0xff, 1, 0), (0xff, 1, 0)]),
    ("0000 - ff01 = 00ff, borrow", &[SUB, SUBC], &[0x00, 0x00, 0x01, 0xff], &[(0xff, 1, 0), (0x00, 1, 1)]),
    ("1234 - 1234 = 0000", &[SUB, SUBC], &[0x34, 0x12, 0x34, 0x12], &[(0x00, 0, 1), (0x00, 0, 1)]),
    ("0100 - 00ff = 0001", &[SUB, SUBC], &[0x00, 0x01, 0xff, 0x00], &[(0x01, 1, 0), (0x00, 0, 1)]),
    ("0380 - 0280 = 0100", &[SUB, SUBC], &[0x80, 0x03, 0x80, 0x02], &[(0x00, 0, 1), (0x01, 0, 0)]),
    ("3610 - 12f0 = 2320", &[SUB, SUBC_KEEPS], &[0x10, 0x36, 0xf0, 0x12], &[(0x20, 1, 0), (0x23, 1, 0)]),
    ("1046 - 2012 = f034, borrow", &[SUB, SUBC_KEEPS], &[0x46, 0x10, 0x12, 0x20], &[(0x34, 0, 0), (0xf0, 0, 0)]),
    ("0380 - 0280 = 0100", &[SUB, SUBC_KEEPS], &[0x80, 0x03, 0x80, 0x02], &[(0x00, 0, 1), (0x01, 0, 1)]),
    // Immediates are their low 8 bits.
    ("10ff + 6501 = 7600", &[ADD_1, ADDC_SIGNED], &[0xff, 0x10], &[(0x00, 1, 1), (0x76, 0, 0)]),
    ("10ff + 6501 = 7600", &[ADD_1, ADDC_UNSIGNED], &[0xff, 0x10], &[(0x00, 1, 1), (0x76, 0, 0)]),
    ("10ff + 6501 = 7600", &[ADD_1, ADDC_SHIFTED], &[0xff, 0x10], &[(0x00, 1, 1), (0x76, 0, 0)]),
    ("10ff + ff01 = 1 1000", &[ADD_1, ADDC_ONES], &[0xff, 0x10], &[(0x00, 1, 1), (0x10, 1, 0)]),
    ("0510 + 00f2 = 0602", &[ADD_SIGNED, ADDC], &[0x10, 0x05, 0x00, 0x00], &[(0x02, 1, 0), (0x06, 0, 0)]),
    ("0510 + 00f2 = 0602", &[ADD_UNSIGNED, ADDC], &[0x10, 0x05, 0x00, 0x00], &[(0x02, 1, 0), (0x06, 0, 0)]),
    ("0510 + 00f2 = 0602", &[ADD_SHIFTED, ADDC], &[0x10, 0x05, 0x00, 0x00], &[(0x02, 1, 0), (0x06, 0, 0)]),
    ("1000 - 6501 = aaff, borrow", &[SUB_1, SUBC_SIGNED], &[0x00, 0x10], &[(0xff, 1, 0), (0xaa, 1, 0)]),
    ("1000 - 6501 = aaff, borrow", &[SUB_1, SUBC_UNSIGNED], &[0x00, 0x10], &[(0xff, 1, 0), (0xaa, 1, 0)]),
    ("1000 - 6501 = aaff, borrow", &[SUB_1, SUBC_SHIFTED], &[0x00, 0x10], &[(0xff, 1, 0), (0xaa, 1, 0)]),
    ("1000 - ff01 = 10ff, borrow", &[SUB_1, SUBC_ONES], &[0x00, 0x10], &[(0xff, 1, 0), (0x10, 1, 0)]),
    ("0510 - 00f2 = 041e", &[SUB_SIGNED, SUBC], &[0x10, 0x05, 0x00, 0x00], &[(0x1e, 1, 0), (0x04, 0, 0)]),
    ("0510 - 00f2 = 041e", &[SUB_UNSIGNED, SUBC], &[0x10, 0x05, 0x00, 0x00], &[(0x1e, 1, 0), (0x04, 0, 0)]),
    ("0510 - 00f2 = 041e", &[SUB_SHIFTED, SUBC], &[0x10, 0x05, 0x00, 0x00], &[(0x1e, 1, 0), (0x04, 0, 0)]),
    // Registers that coincide and leave the claim as it is.
    ("80c0 twice = 1 0180", &[DOUBLE, DOUBLE_C], &[0xc0, 0x80], &[(0x80, 1, 0), (0x01, 1, 0)]),
    ("80c0 less itself = 0000", &[CLEAR, CLEAR_C], &[0xc0, 0x80], &[(0x00, 0, 1), (0x00, 0, 1)]),
    ("00f0 + ffff = 1 00ef", &[ADD, ADDC_2], &[0xf0, 0x00, 0xff], &[(0xef, 1, 0), (0x00, 1, 1)]),
    ("ff00 - ffff = ff01, borrow", &[SUB, SUBC_2], &[0x00, 0xff, 0xff], &[(0x01, 1, 0), (0xff, 1, 0)]),
    ("9080 + 7090 = 1 0110", &[ADD_HIGH, ADDC], &[0x80, 0x90, 0x55, 0x70], &[(0x10, 1, 0), (0x01, 1, 0)]),
    // Nothing is claimed of these: the result is added to again, or read; another direction, or another word between.
    ("f0 + 20, + 05", &[ADD, (0x4800_0003, "ADDC %00,%03,S")], &[0xf0, 0x12, 0x20, 0x05], &[(0x10, 1, 0), (0x16, 0, 0)]),
    ("f0 + 20, added to 12", &[ADD, (0x4801_0000, "ADDC %01,%00,S")], &[0xf0, 0x12, 0x20], &[(0x10, 1, 0), (0x23, 0, 0)]),
    ("10 - 20, 12 + 23", &[SUB, ADDC], &[0x10, 0x12, 0x20, 0x23], &[(0xf0, 1, 0), (0x36, 0, 0)]),
    ("f0 + 20, 36 - 12", &[ADD, SUBC], &[0xf0, 0x36, 0x20, 0x12], &[(0x10, 1, 0), (0x23, 0, 0)]),
    ("MOV between", &[ADD, MOV, ADDC], &[0xf0, 0x12, 0x20, 0x23], &[(0x10, 1, 0), (0x01, 1, 0), (0x36, 0, 0)]),
    ("CMP between", &[ADD, CMP, ADDC], &[0xf0, 0x12, 0x20, 0x23], &[(0x10, 1, 0), (0x20, 0, 1), (0x35, 0, 0)]),
];

const W_16: &[Row] = &[
    ("12345678 + 11111111 = 23456789", &[ADD, ADDC], &[0x5678, 0x1234, 0x1111, 0x1111], &[(0x6789, 0, 0), (0x2345, 0, 0)]),
    ("1234ffff + 00000002 = 12350001", &[ADD, ADDC], &[0xffff, 0x1234, 2, 0], &[(1, 1, 0), (0x1235, 0, 0)]),
    ("80001111 + 80002222 = 1 00003333", &[ADD, ADDC], &[0x1111, 0x8000, 0x2222, 0x8000], &[(0x3333, 0, 0), (0, 1, 1)]),
    ("ffffffff + 00000001 = 1 00000000", &[ADD, ADDC], &[0xffff, 0xffff, 1, 0], &[(0, 1, 1), (0, 1, 1)]),
    ("ffffffff + ffffffff = 1 fffffffe", &[ADD, ADDC], &[0xffff; 4], &[(0xfffe, 1, 0), (0xffff, 1, 0)]),
    ("0000ffff + 00000001 = 00010000", &[ADD, ADDC], &[0xffff, 0, 1, 0], &[(0, 1, 1), (1, 0, 0)]),
    ("1234ffff + 00000002 = 12350001", &[ADD, ADDC_KEEPS], &[0xffff, 0x1234, 2, 0], &[(1, 1, 0), (0x1235, 1, 0)]),
    ("80001111 + 80002222", &[ADD, ADDC_KEEPS], &[0x1111, 0x8000, 0x2222, 0x8000], &[(0x3333, 0, 0), (0, 0, 0)]),
    ("23456789 - 12345678 = 11111111", &[SUB, SUBC], &[0x6789, 0x2345, 0x5678, 0x1234], &[(0x1111, 0, 0), (0x1111, 0, 0)]),
    ("12350001 - 00000002 = 1234ffff", &[SUB, SUBC], &[1, 0x1235, 2, 0], &[(0xffff, 1, 0), (0x1234, 0, 0)]),
    ("00003333 - 80001111 = 80002222", &[SUB, SUBC], &[0x3333, 0, 0x1111, 0x8000], &[(0x2222, 0, 0), (0x8000, 1, 0)]),
    ("00000000 - ffffffff = 00000001", &[SUB, SUBC], &[0, 0, 0xffff, 0xffff], &[(1, 1, 0), (0, 1, 1)]),
    ("00010000 - 00000001 = 0000ffff", &[SUB, SUBC], &[0, 1, 1, 0], &[(0xffff, 1, 0), (0, 0, 1)]),
    ("12350001 - 00000002 = 1234ffff", &[SUB, SUBC_KEEPS], &[1, 0x1235, 2, 0], &[(0xffff, 1, 0), (0x1234, 1, 0)]),
    ("00003333 - 80001111", &[SUB, SUBC_KEEPS], &[0x3333, 0, 0x1111, 0x8000], &[(0x2222, 0, 0), (0x8000, 0, 0)]),
    // Immediates are their 16 bits, and < is not shifted.
    ("1000ffff + 87650001", &[ADD_1, ADDC_SIGNED], &[0xffff, 0x1000], &[(0, 1, 1), (0x9766, 0, 0)]),
    ("1000ffff + 87650001", &[ADD_1, ADDC_UNSIGNED], &[0xffff, 0x1000], &[(0, 1, 1), (0x9766, 0, 0)]),
    ("1000ffff + 87650001", &[ADD_1, ADDC_SHIFTED], &[0xffff, 0x1000], &[(0, 1, 1), (0x9766, 0, 0)]),
    ("1000ffff + ffff0001", &[ADD_1, ADDC_ONES], &[0xffff, 0x1000], &[(0, 1, 1), (0x1000, 1, 0)]),
    ("00050010 + 0000fff2", &[ADD_SIGNED, ADDC], &[0x10, 5, 0, 0], &[(2, 1, 0), (6, 0, 0)]),
    ("00050010 + 0000fff2", &[ADD_UNSIGNED, ADDC], &[0x10, 5, 0, 0], &[(2, 1, 0), (6, 0, 0)]),
    ("00050010 + 0000fff2", &[ADD_SHIFTED, ADDC], &[0x10, 5, 0, 0], &[(2, 1, 0), (6, 0, 0)]),
    ("10000000 - 87650001", &[SUB_1, SUBC_SIGNED], &[0, 0x1000], &[(0xffff, 1, 0), (0x889a, 1, 0)]),
    ("10000000 - 87650001", &[SUB_1, SUBC_UNSIGNED], &[0, 0x1000], &[(0xffff, 1, 0), (0x889a, 1, 0)]),
    ("10000000 - 87650001", &[SUB_1, SUBC_SHIFTED], &[0, 0x1000], &[(0xffff, 1, 0), (0x889a, 1, 0)]),
    ("10000000 - ffff0001", &[SUB_1, SUBC_ONES], &[0, 0x1000], &[(0xffff, 1, 0), (0x1000, 1, 0)]),
    ("00050010 - 0000fff2", &[SUB_SIGNED, SUBC], &[0x10, 5, 0, 0], &[(0x1e, 1, 0), (4, 0, 0)]),
    ("c0008000 twice", &[DOUBLE, DOUBLE_C], &[0x8000, 0xc000], &[(0, 1, 1), (0x8001, 1, 0)]),
];

const W_32: &[Row] = &[
    (
        "0123456789abcdef + 0011223344556677 = 0134679ace013466",
        &[ADD, ADDC],
        &[0x89ab_cdef, 0x0123_4567, 0x4455_6677, 0x0011_2233],
        &[(0xce01_3466, 0, 0), (0x0134_679a, 0, 0)],
    ),
    ("00000000ffffffff + 1", &[ADD, ADDC], &[ONES, 0, 1, 0], &[(0, 1, 1), (1, 0, 0)]),
    ("fffffffe00000005 + 0000000300000006", &[ADD, ADDC], &[5, 0xffff_fffe, 6, 3], &[(0xb, 0, 0), (1, 1, 0)]),
    ("ffffffffffffffff + 1", &[ADD, ADDC], &[ONES, ONES, 1, 0], &[(0, 1, 1), (0, 1, 1)]),
    ("00000000ffffffff + ffffffff00000001", &[ADD, ADDC], &[ONES, 0, 1, ONES], &[(0, 1, 1), (0, 1, 1)]),
    ("ffffffffffffffff twice", &[ADD, ADDC], &[ONES; 4], &[(0xffff_fffe, 1, 0), (ONES, 1, 0)]),
    ("00000000ffffffff + 1", &[ADD, ADDC_KEEPS], &[ONES, 0, 1, 0], &[(0, 1, 1), (1, 1, 1)]),
    ("fffffffe00000005 + 0000000300000006", &[ADD, ADDC_KEEPS], &[5, 0xffff_fffe, 6, 3], &[(0xb, 0, 0), (1, 0, 0)]),
    (
        "0134679ace013466 - 0011223344556677 = 0123456789abcdef",
        &[SUB, SUBC],
        &[0xce01_3466, 0x0134_679a, 0x4455_6677, 0x0011_2233],
        &[(0x89ab_cdef, 0, 0), (0x0123_4567, 0, 0)],
    ),
    ("0000000100000000 - 1", &[SUB, SUBC], &[0, 1, 1, 0], &[(ONES, 1, 0), (0, 0, 1)]),
    ("0000000100000009 - 0000000200000004", &[SUB, SUBC], &[9, 1, 4, 2], &[(5, 0, 0), (ONES, 1, 0)]),
    ("0 - 1", &[SUB, SUBC], &[0, 0, 1, 0], &[(ONES, 1, 0), (ONES, 1, 0)]),
    ("0 - ffffffff00000001", &[SUB, SUBC], &[0, 0, 1, ONES], &[(ONES, 1, 0), (0, 1, 1)]),
    ("8000000000000000 - 1", &[SUB, SUBC], &[0, 0x8000_0000, 1, 0], &[(ONES, 1, 0), (0x7fff_ffff, 0, 0)]),
    ("7fffffff00000000 - ffffffff00000000", &[SUB, SUBC], &[0, 0x7fff_ffff, 0, ONES], &[(0, 0, 1), (0x8000_0000, 1, 0)]),
    ("0000000100000000 - 1", &[SUB, SUBC_KEEPS], &[0, 1, 1, 0], &[(ONES, 1, 0), (0, 1, 0)]),
    ("0000000100000009 - 0000000200000004", &[SUB, SUBC_KEEPS], &[9, 1, 4, 2], &[(5, 0, 0), (ONES, 0, 0)]),
    // Immediates with their sign, without it, and times 65,536.
    ("1000, ffffffff + ffff8765, 1", &[ADD_1, ADDC_SIGNED], &[ONES, 0x1000], &[(0, 1, 1), (0xffff_9766, 0, 0)]),
    ("1000, ffffffff + 8765, 1", &[ADD_1, ADDC_UNSIGNED], &[ONES, 0x1000], &[(0, 1, 1), (0x9766, 0, 0)]),
    ("1000, ffffffff + 87650000, 1", &[ADD_1, ADDC_SHIFTED], &[ONES, 0x1000], &[(0, 1, 1), (0x8765_1001, 0, 0)]),
    ("80000000, ffffffff + ffff8765, 1", &[ADD_1, ADDC_SIGNED], &[ONES, 0x8000_0000], &[(0, 1, 1), (0x7fff_8766, 1, 0)]),
    ("1000, ffffffff + ffffffff, 1", &[ADD_1, ADDC_ONES], &[ONES, 0x1000], &[(0, 1, 1), (0x1000, 1, 0)]),
    ("5, 10 + fffffff2", &[ADD_SIGNED, ADDC], &[0x10, 5, 0, 0], &[(2, 1, 0), (6, 0, 0)]),
    ("5, 10 + fff2", &[ADD_UNSIGNED, ADDC], &[0x10, 5, 0, 0], &[(0x1_0002, 0, 0), (5, 0, 0)]),
    ("5, 100000 + fff20000", &[ADD_SHIFTED, ADDC], &[0x0010_0000, 5, 0, 0], &[(0x0002_0000, 1, 0), (6, 0, 0)]),
    ("1000, 0 - ffff8765, 1", &[SUB_1, SUBC_SIGNED], &[0, 0x1000], &[(ONES, 1, 0), (0x889a, 1, 0)]),
    ("1000, 0 - 8765, 1", &[SUB_1, SUBC_UNSIGNED], &[0, 0x1000], &[(ONES, 1, 0), (0xffff_889a, 1, 0)]),
    ("1000, 0 - 87650000, 1", &[SUB_1, SUBC_SHIFTED], &[0, 0x1000], &[(ONES, 1, 0), (0x789b_0fff, 1, 0)]),
    ("1000, 0 - ffffffff, 1", &[SUB_1, SUBC_ONES], &[0, 0x1000], &[(ONES, 1, 0), (0x1000, 1, 0)]),
    ("5, 10 - fffffff2", &[SUB_SIGNED, SUBC], &[0x10, 5, 0, 0], &[(0x1e, 1, 0), (4, 0, 0)]),
    ("5, 10 - fff2", &[SUB_UNSIGNED, SUBC], &[0x10, 5, 0, 0], &[(0xffff_001e, 1, 0), (4, 0, 0)]),
    ("5, 10 - fff20000", &[SUB_SHIFTED, SUBC], &[0x10, 5, 0, 0], &[(0x000e_0010, 1, 0), (4, 0, 0)]),
    ("c000000080000000 twice", &[DOUBLE, DOUBLE_C], &[0x8000_0000, 0xc000_0000], &[(0, 1, 1), (0x8000_0001, 1, 0)]),
];

const SUM_OF_4: &[Word] = &[
    (0x4000_0004, "ADD %00,%04,S"),
    (0x4801_0005, "ADDC %01,%05,S"),
    (0x4802_0006, "ADDC %02,%06,S"),
    (0x4803_0007, "ADDC %03,%07,S"),
];
const DIFFERENCE_OF_4: &[Word] = &[
    (0x3000_0004, "SUB %00,%04,S"),
    (0x5001_0005, "SUBC %01,%05,S"),
    (0x5002_0006, "SUBC %02,%06,S"),
    (0x5003_0007, "SUBC %03,%07,S"),
];

/// Numbers of four words, by their width.
const CHAINS: &[(u32, Row)] = &[
    (8, ("ffffffff + 1", SUM_OF_4, &[0xff, 0xff, 0xff, 0xff, 1, 0, 0, 0], &[(0, 1, 1); 4])),
    (8, ("00ff00ff + 00010001", SUM_OF_4, &[0xff, 0, 0xff, 0, 1, 0, 1, 0], &[(0, 1, 1), (1, 0, 0), (0, 1, 1), (1, 0, 0)])),
    (8, ("00000000 - 1", DIFFERENCE_OF_4, &[0, 0, 0, 0, 1, 0, 0, 0], &[(0xff, 1, 0); 4])),
    (
        16,
        (
            "1 at bit 48 - 1",
            DIFFERENCE_OF_4,
            &[0, 0, 0, 1, 1, 0, 0, 0],
            &[(0xffff, 1, 0), (0xffff, 1, 0), (0xffff, 1, 0), (0, 0, 1)],
        ),
    ),
    (16, ("all ones + 1", SUM_OF_4, &[0xffff, 0xffff, 0xffff, 0xffff, 1, 0, 0, 0], &[(0, 1, 1); 4])),
    (32, ("all ones + 1", SUM_OF_4, &[ONES, ONES, ONES, ONES, 1, 0, 0, 0], &[(0, 1, 1); 4])),
    (32, ("all ones twice", SUM_OF_4, &[ONES; 8], &[(0xffff_fffe, 1, 0), (ONES, 1, 0), (ONES, 1, 0), (ONES, 1, 0)])),
    (32, ("0 - 1", DIFFERENCE_OF_4, &[0, 0, 0, 0, 1, 0, 0, 0], &[(ONES, 1, 0); 4])),
];

/// A first word that leaves the flags, from an N and Z 1: the second takes the old N.
const FIRST_KEEPS: [(u32, Row); 4] = [
    (0, ("12f0 + 2320 without a carry", &[ADD_KEEPS, ADDC], &[0xf0, 0x12, 0x20, 0x23], &[(0x10, 0, 1), (0x35, 0, 0)])),
    (1, ("12f0 + 2320 with the old N", &[ADD_KEEPS, ADDC], &[0xf0, 0x12, 0x20, 0x23], &[(0x10, 1, 1), (0x36, 0, 0)])),
    (0, ("3610 - 12f0 without a borrow", &[SUB_KEEPS, SUBC], &[0x10, 0x36, 0xf0, 0x12], &[(0x20, 0, 1), (0x24, 0, 0)])),
    (1, ("3610 - 12f0 with the old N", &[SUB_KEEPS, SUBC], &[0x10, 0x36, 0xf0, 0x12], &[(0x20, 1, 1), (0x23, 0, 0)])),
];

const N: usize = 4;
const Z: usize = 5;
/// The registers of each bank, and what those hold that a row does not give.
const REG_SIZE: usize = 8;
const OTHER: u32 = 0x5a;

/// A row at a width and a level of the ALU, from N and Z: its words print as said, and leave what is said, step by step and by a run.
fn go(cases: &mut Cases, width: u32, level: u32, row: &Row, n: u32, z: u32) -> Result<(), String> {
    let (what, words, cells, left) = *row;
    let (im_size, reg_size) = (words.len() as u32, REG_SIZE as u32);
    let config = [im_size, width, reg_size, reg_size, 2, 0, 0, level, 0, 0, 0, 0, 0, 0, 0, 0, 0, 32, 0];
    let (mut registers, mut machine) = (cells.to_vec(), vec![0; 100]);
    registers.resize(REG_SIZE, OTHER);
    (machine[N], machine[Z]) = (n, z);
    let mut steps: Vec<Wanted> = Vec::new();
    for ((word, text), (value, n, z)) in words.iter().zip(left) {
        let (mut page, mut answers) = ([b'.'; 40], [0]);
        let number = cases.calls.text(&config, *word, &mut page, 0, &mut answers);
        let printed = page.split(|byte| *byte == b'.').next().unwrap_or_default();
        same(&format!("{word:08x}"), (number, String::from_utf8_lossy(printed).as_ref()), (0, *text))?;
        let (cell, pc) = (*word as usize >> 16 & 0x7f, steps.len() as u32 + 1);
        steps.push((text, [pc, 0, *n, *z, 0], Some((cell, *value))));
    }
    let start = Setup { config, image: words.iter().map(|(word, _)| *word).collect(), machine, registers };
    cases.go(&format!("W = {width}, {what}"), &start, &steps).map(|_| ())
}

/// Answers how many cases there are: each row whose first word updates the flags is gone through from every N and Z.
pub fn run(calls: &dyn Calls) -> Result<u32, String> {
    let mut cases = Cases { calls, count: 0 };
    let pairs = [(8, W_8), (16, W_16), (32, W_32)].into_iter().flat_map(|(width, rows)| rows.iter().map(move |row| (width, row)));
    for (width, row) in pairs.chain(CHAINS.iter().map(|(width, row)| (*width, row))) {
        for level in 0..=if width == 8 { 0 } else { 2 } {
            for (n, z) in [(0, 0), (0, 1), (1, 0), (1, 1)] {
                go(&mut cases, width, level, row, n, z)?;
            }
        }
    }
    for (n, row) in &FIRST_KEEPS {
        go(&mut cases, 8, 0, row, *n, 1)?;
    }
    Ok(cases.count)
}
