//! The configurations and programs that are timed and counted.

/// W = 32, level 2, 16 registers in four banks, every option on.
pub fn config(im_size: u32, dm_size: u32) -> [u32; 19] {
    [im_size, 32, 16, 64, 16, dm_size, 0, 2, 1, 1, 1, 1, 100, 0x1234, 0, 0, 0, 32, 0]
}

/// The same at W = 16, with one bank.
pub fn narrow_config(im_size: u32, dm_size: u32) -> [u32; 19] {
    let mut config = config(im_size, dm_size);
    config[1] = 16;
    config[3] = 16;
    config
}

/// The two sizes of image at which runs are timed and counted.
pub const SHORT_IMAGE: u32 = 128;
pub const LONG_IMAGE: u32 = 32_768;
/// Sizes that are no power of two: direct targets are compared with them, and no mask tells (K2).
pub const ODD_IMAGE: u32 = 100;
pub const CHAIN: u32 = 1_500;

/// An image of `size` words with these stretches of code, zeros elsewhere.
pub fn image(size: u32, stretches: &[(u32, &[u32])]) -> Vec<u32> {
    let mut image = vec![0; size as usize];
    for (at, code) in stretches {
        image[*at as usize..*at as usize + code.len()].copy_from_slice(code);
    }
    image
}

pub const NAMES: [&str; 4] = ["arithmetic", "calls", "mover", "ports"];

/// The four programs by their names; none stops within a million steps.
pub fn program(name: &str, dm_size: u32) -> Vec<u32> {
    let arithmetic = vec![
        0xa281_0001, // 00 MOV %01,#0001
        0xa382_9e37, // 01 MOV %02,<9e37
        0x4003_0002, // 02 ADD %03,%02,S
        0x1804_0003, // 03 XOR %04,%03,S
        0x3805_0004, // 04 SUBS %05,%04,S
        0x7406_0005, // 05 MUL %06,%05
        0x8106_0003, // 06 SHR %06,#0003,S
        0x0f06_0fff, // 07 AND %06,>0fff
        0x4807_0006, // 08 ADDC %07,%06,S
        0x9202_0002, // 09 ROTL %02,%02,S
        0x2007_0003, // 0a CMP %07,%03,S
        0xc200_000e, // 0b JMP 00000e,LT
        0x1408_0007, // 0c OR %08,%07
        0xc000_0002, // 0d JMP 000002
        0x3008_0003, // 0e SUB %08,%03,S
        0xc000_0002, // 0f JMP 000002
    ];
    let calls = vec![
        0xa281_0001, // 00 MOV %01,#0001
        0xf080_0005, // 01 JSR 000005
        0xf101_000a, // 02 JSRWP 000a,010
        0xf080_0005, // 03 JSR 000005
        0xc000_0001, // 04 JMP 000001
        0x4281_0001, // 05 ADD %01,#0001,S
        0xf080_0008, // 06 JSR 000008
        0xf000_0000, // 07 RET
        0x1802_0001, // 08 XOR %02,%01,S
        0xf000_0000, // 09 RET
        0x4683_0001, // 0a ADD %03,#0001
        0xf001_0000, // 0b RETWP
    ];
    let mover = vec![
        0xa307_0000 | (dm_size - 1), // 00 MOV %07,> DM_SIZE-1
        0xa286_0000,                 // 01 MOV %06,#0000
        0x9c0d_1401,                 // 02 LDYX %0d,%01
        0x9806_1800,                 // 03 MOVX @%06,@%X+,S
        0x4686_0001,                 // 04 ADD %06,#0001
        0x0c06_0007,                 // 05 AND %06,%07
        0xc100_0003,                 // 06 JMP 000003,NZ
        0xa10e_0006,                 // 07 MOV %0e,@%06
        0xa806_000e,                 // 08 MOV @%06,%0e
        0xac0e_0001,                 // 09 MOV &0001,%0e
        0x9c0c_1408,                 // 0a LDYX %0c,%08
        0x9800_1c06,                 // 0b MOVX @%X+,@%06,S
        0x4686_0001,                 // 0c ADD %06,#0001
        0x0c06_0007,                 // 0d AND %06,%07
        0xc100_000b,                 // 0e JMP 00000b,NZ
        0xc000_0002,                 // 0f JMP 000002
    ];
    let ports = vec![
        0xa281_0010, // 00 MOV %01,#0010
        0xa282_0020, // 01 MOV %02,#0020
        0xb801_0003, // 02 MOVIO @%01,%03
        0x4683_0001, // 03 ADD %03,#0001
        0xb104_0002, // 04 MOVIO %04,@%02
        0xbb01_1234, // 05 MOVIO @%01,>1234
        0xb105_0001, // 06 MOVIO %05,@%01
        0xb106_8002, // 07 IORMW %06,@%02
        0xc600_0002, // 08 JMP 000002,BIO
        0xc000_0002, // 09 JMP 000002
    ];
    match name {
        "arithmetic" => arithmetic,
        "calls" => calls,
        "mover" => mover,
        "ports" => ports,
        _ => panic!("{name} is no program"),
    }
}

fn jump(target: u32) -> u32 {
    0xc000_0000 | target
}

/// BLDS of the four bytes of a word, two of each sign, with the flags updated and left (K3).
pub fn signed_bytes() -> Vec<u32> {
    vec![
        0xa381_80ff, // 00 MOV %01,<80ff
        0x1701_7f01, // 01 OR %01,>7f01
        0x9802_0601, // 02 BLDS0 %02,%01,S
        0x9c83_0601, // 03 BLDS1 %03,%01
        0x9904_0601, // 04 BLDS2 %04,%01,S
        0x9d85_0601, // 05 BLDS3 %05,%01
        jump(2),     // 06 JMP 000002
    ]
}

/// A JMP at each address to the next, so that each step decodes a word.
pub fn chain() -> Vec<u32> {
    (0..CHAIN).map(|address| jump((address + 1) % CHAIN)).collect()
}

/// Programs in an image of 32,768 words that are not where a small image has them.
pub fn spread_programs() -> Vec<(&'static str, Vec<u32>)> {
    let work = [
        0x4003_0002, // ADD %03,%02,S
        0x1804_0003, // XOR %04,%03,S
        0x3005_0004, // SUB %05,%04,S
    ];
    let with_jump = |target: u32| [&work[..], &[jump(target)]].concat();
    let ends = |high: u32| image(LONG_IMAGE, &[(0, &[jump(16)]), (16, &with_jump(high)), (high, &with_jump(16))]);
    vec![
        ("far ends, alike mod 4,096", ends(28_688)),
        ("far ends, not alike", ends(30_000)),
        ("four words at 5,000", image(LONG_IMAGE, &[(0, &[jump(5_000)]), (5_000, &with_jump(5_000))])),
    ]
}
