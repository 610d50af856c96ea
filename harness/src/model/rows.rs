//! "Words": the rows, one entry each, in the order of the library's row numbers.

use std::sync::OnceLock;

/// What must be switched on for a row (6).
#[derive(Clone, Copy, Debug, PartialEq, Eq)]
pub enum Need {
    Nothing,
    Mult,
    Level1,
    Level2,
    Memory,
    Level2Memory,
    Port,
    PortRmw,
    Banks,
    Special,
    /// "What is called unsupported below answers 6."
    Unsupported,
}

/// What a field of a word holds, and so its limit (7).
#[derive(Clone, Copy, Debug, PartialEq, Eq)]
pub enum Field {
    /// Bit 26.
    Flag,
    /// A register in 22-16.
    Destination,
    /// WP/16 in 22-16.
    Unit,
    /// A register in 6-0.
    Source,
    /// The byte number in 24-23.
    Byte,
    /// 16 bits in 15-0.
    Immediate,
    /// A shift count in 15-0.
    Count,
    /// A data address in 15-0.
    Address,
    /// A direct target in 22-0.
    Target,
    /// JSRWP's address in 15-0.
    Entry,
}

#[derive(Clone, Copy, Debug, PartialEq, Eq)]
pub enum Base {
    Tst,
    And,
    Or,
    Xor,
    Cmp,
    Cmps,
    Sub,
    Subs,
    Add,
    Addc,
    Subc,
    Mul,
}

#[derive(Clone, Copy, Debug, PartialEq, Eq)]
pub enum Shift {
    Right,
    RightSigned,
    Left,
}

#[derive(Clone, Copy, Debug, PartialEq, Eq)]
pub enum Unary {
    RotateRight,
    RotateLeft,
    Left16,
    Absolute,
    LeadingZeros,
}

/// Where the second operand comes from.
#[derive(Clone, Copy, Debug, PartialEq, Eq)]
pub enum Operand {
    Register,
    Signed,
    Unsigned,
    Shifted,
    /// A shift count.
    Count,
}

#[derive(Clone, Copy, Debug, PartialEq, Eq)]
pub enum Condition {
    Always,
    Z,
    Nz,
    Gt,
    Lt,
    Ge,
    Le,
    Bio,
}

#[derive(Clone, Copy, Debug, PartialEq, Eq)]
pub enum Kind {
    Base(Base, Operand),
    Shift(Shift, Operand),
    Unary(Unary),
    ByteStore,
    ByteLoad,
    ByteLoadSigned,
    LoadIndexes,
    MovxTo,
    MovxFrom,
    Mov(Operand),
    MovFromRegister,
    MovFromAddress,
    MovToRegister,
    MovToAddress,
    PortRead,
    PortReadModifyWrite,
    PortWrite(Operand),
    Jump(Condition),
    JumpRegister(Condition),
    Call,
    CallRegister,
    Return,
    ReturnLoad,
    CallBank,
    ReturnBank,
    SpecialOff,
    SpecialOn,
    Unsupported,
}

pub struct Row {
    /// The bits that choose the row, and which they are.
    pub bits: u32,
    pub mask: u32,
    pub fields: &'static [Field],
    pub need: Need,
    pub kind: Kind,
    /// The text: d and s a register, v four digits, t six, o three of 16 times the unit, n the byte number, all else as it stands.
    pub text: String,
}

impl Row {
    pub fn uses(&self, field: Field) -> bool {
        self.fields.contains(&field)
    }
}

/// The place of a field in the word.
pub fn place(field: Field) -> (u32, u32) {
    match field {
        Field::Flag => (26, 1),
        Field::Destination | Field::Unit => (16, 7),
        Field::Source => (0, 7),
        Field::Byte => (23, 2),
        Field::Immediate | Field::Count | Field::Address | Field::Entry => (0, 16),
        Field::Target => (0, 23),
    }
}

const TWO: &[Field] = &[Field::Destination, Field::Source];
const IMMEDIATE: &[Field] = &[Field::Destination, Field::Immediate];
const ADDRESS: &[Field] = &[Field::Destination, Field::Address];
const TARGET: &[Field] = &[Field::Target];
const REGISTER: &[Field] = &[Field::Destination];
const ALU_TWO: &[Field] = &[Field::Flag, Field::Destination, Field::Source];
const ALU_IMMEDIATE: &[Field] = &[Field::Flag, Field::Destination, Field::Immediate];
const ALU_COUNT: &[Field] = &[Field::Flag, Field::Destination, Field::Count];
const ALU_BYTE: &[Field] = &[Field::Flag, Field::Byte, Field::Destination, Field::Source];
const ALU_DESTINATION: &[Field] = &[Field::Flag, Field::Destination];
const ALU_SOURCE: &[Field] = &[Field::Flag, Field::Source];

const IMMEDIATES: [(Operand, &str, u32); 3] =
    [(Operand::Signed, "#", 0b101), (Operand::Unsigned, ">", 0b110), (Operand::Shifted, "<", 0b111)];

/// All rows; the index is the library's number of the row.
pub fn rows() -> &'static [Row] {
    static ROWS: OnceLock<Vec<Row>> = OnceLock::new();
    ROWS.get_or_init(build)
}

struct Table(Vec<Row>);

impl Table {
    /// `width` top bits of the word are `top`.
    fn add(&mut self, width: u32, top: u32, need: Need, fields: &'static [Field], kind: Kind, text: &str) {
        let low = 32 - width;
        self.0.push(Row { bits: top << low, mask: u32::MAX << low, fields, need, kind, text: text.to_string() });
    }

    /// An ALU word: bits 31-27 and 25-23 are given, 26 is the flag.
    fn alu(&mut self, code: u32, mode: u32, need: Need, fields: &'static [Field], kind: Kind, text: &str) {
        self.add(9, code << 4 | mode, need, fields, kind, text);
        self.last().mask &= !(1 << 26);
    }

    fn last(&mut self) -> &mut Row {
        self.0.last_mut().expect("a row was added")
    }

    fn base(&mut self, code: u32, name: &str, op: Base, need: Need) {
        let kind = |operand| Kind::Base(op, operand);
        self.alu(code, 0b000, need, ALU_TWO, kind(Operand::Register), &format!("{name} d,s"));
        for (operand, mark, mode) in IMMEDIATES {
            self.alu(code, mode, need, ALU_IMMEDIATE, kind(operand), &format!("{name} d,{mark}v"));
        }
        self.alu(code, 0b100, Need::Unsupported, &[], Kind::Unsupported, name);
    }

    /// A level 2 word: 15-8 is given as well.
    fn level2(&mut self, code: u32, bytes: bool, need: Need, fields: &'static [Field], kind: Kind, text: &str) {
        self.alu(0b10011, 0b000, need, fields, kind, text);
        let row = self.last();
        row.bits |= code << 8;
        row.mask |= 0xff << 8;
        if bytes {
            row.mask &= !(0b11 << 23);
        }
    }

    fn jumps(&mut self, register: bool) {
        use Condition::*;
        let named = [
            (Some(Always), ""),
            (Some(Z), ",Z"),
            (Some(Nz), ",NZ"),
            (Some(Gt), ",GT"),
            (Some(Lt), ",LT"),
            (Some(Ge), ",GE"),
            (Some(Le), ",LE"),
            (None, ",NIRQ"),
            (None, ",B0"),
            (None, ",B1"),
            (None, ",NB0"),
            (None, ",NB1"),
            (Some(Bio), ",BIO"),
        ];
        for (code, (condition, name)) in named.into_iter().enumerate() {
            let top = 0b1100 << 5 | (register as u32) << 4 | code as u32;
            let need = match condition {
                None => Need::Unsupported,
                Some(Bio) => Need::Port,
                _ => Need::Nothing,
            };
            let kind = match condition {
                None => Kind::Unsupported,
                Some(c) if register => Kind::JumpRegister(c),
                Some(c) => Kind::Jump(c),
            };
            let operand = if register { "@d" } else { "t" };
            self.add(9, top, need, if register { REGISTER } else { TARGET }, kind, &format!("JMP {operand}{name}"));
        }
    }

    /// 1111 00000 with 22-16 given.
    fn control(&mut self, code: u32, need: Need, kind: Kind, text: &str) {
        self.add(16, 0b1111_00000 << 7 | code, need, &[], kind, text);
    }
}

fn build() -> Vec<Row> {
    let mut t = Table(Vec::new());
    let none = Need::Nothing;
    for (code, name, op) in [
        (0b00000, "TST", Base::Tst),
        (0b00001, "AND", Base::And),
        (0b00010, "OR", Base::Or),
        (0b00011, "XOR", Base::Xor),
        (0b00100, "CMP", Base::Cmp),
        (0b00101, "CMPS", Base::Cmps),
        (0b00110, "SUB", Base::Sub),
        (0b00111, "SUBS", Base::Subs),
        (0b01000, "ADD", Base::Add),
        (0b01001, "ADDC", Base::Addc),
        (0b01010, "SUBC", Base::Subc),
    ] {
        t.base(code, name, op, none);
    }
    t.base(0b01110, "MUL", Base::Mul, Need::Mult);

    let shifts =
        [(Shift::Right, "SHR", 0b000, 0b010), (Shift::RightSigned, "SHRA", 0b001, 0b011), (Shift::Left, "SHL", 0b100, 0b110)];
    for (shift, name, mode, _) in shifts {
        t.alu(0b10000, mode, Need::Level1, ALU_TWO, Kind::Shift(shift, Operand::Register), &format!("{name} d,s"));
    }
    for (shift, name, _, mode) in shifts {
        t.alu(0b10000, mode, none, ALU_COUNT, Kind::Shift(shift, Operand::Count), &format!("{name} d,#v"));
    }
    for (mode, name, op) in [
        (0b000, "ROTR", Unary::RotateRight),
        (0b100, "ROTL", Unary::RotateLeft),
        (0b110, "SHL16", Unary::Left16),
        (0b001, "ABS", Unary::Absolute),
        (0b011, "CLZ", Unary::LeadingZeros),
    ] {
        t.alu(0b10010, mode, Need::Level1, ALU_TWO, Kind::Unary(op), &format!("{name} d,s"));
    }
    t.level2(0x01, true, Need::Level2, ALU_BYTE, Kind::ByteStore, "BSTn d,s");
    t.level2(0x02, true, Need::Level2, ALU_BYTE, Kind::ByteLoad, "BLDn d,s");
    t.level2(0x06, true, Need::Level2, ALU_BYTE, Kind::ByteLoadSigned, "BLDSn d,s");
    t.level2(0x14, false, Need::Level2, ALU_TWO, Kind::LoadIndexes, "LDYX d,s");
    t.level2(0x18, false, Need::Level2Memory, ALU_DESTINATION, Kind::MovxTo, "MOVX @d,@%X+");
    t.level2(0x1c, false, Need::Level2Memory, ALU_SOURCE, Kind::MovxFrom, "MOVX @%X+,@s");

    let mov = |destination: u32, source: u32| 0b1010 << 5 | destination << 3 | source;
    t.add(9, mov(0b00, 0b000), none, TWO, Kind::Mov(Operand::Register), "MOV d,s");
    for (operand, mark, mode) in IMMEDIATES {
        t.add(9, mov(0b00, mode), none, IMMEDIATE, Kind::Mov(operand), &format!("MOV d,{mark}v"));
    }
    t.add(9, mov(0b00, 0b010), Need::Memory, TWO, Kind::MovFromRegister, "MOV d,@s");
    t.add(9, mov(0b00, 0b011), Need::Memory, ADDRESS, Kind::MovFromAddress, "MOV d,&v");
    t.add(9, mov(0b10, 0b000), Need::Memory, TWO, Kind::MovToRegister, "MOV @d,s");
    t.add(9, mov(0b11, 0b000), Need::Memory, ADDRESS, Kind::MovToAddress, "MOV &v,d");

    let movio = |destination: u32, source: u32| 0b1011 << 5 | destination << 3 | source;
    for (bit15, need, kind, name) in
        [(0, Need::Port, Kind::PortRead, "MOVIO"), (1 << 15, Need::PortRmw, Kind::PortReadModifyWrite, "IORMW")]
    {
        t.add(9, movio(0b00, 0b010), need, TWO, kind, &format!("{name} d,@s"));
        t.last().bits |= bit15;
        t.last().mask |= 1 << 15;
    }
    t.add(9, movio(0b10, 0b000), Need::Port, TWO, Kind::PortWrite(Operand::Register), "MOVIO @d,s");
    for (operand, mark, mode) in IMMEDIATES {
        t.add(9, movio(0b10, mode), Need::Port, IMMEDIATE, Kind::PortWrite(operand), &format!("MOVIO @d,{mark}v"));
    }

    t.jumps(false);
    t.jumps(true);
    t.add(4, 0b1110, Need::Unsupported, &[], Kind::Unsupported, "COP");
    t.add(9, 0b1111_00001, none, TARGET, Kind::Call, "JSR t");
    t.add(9, 0b1111_10001, none, REGISTER, Kind::CallRegister, "JSR @d");
    t.add(9, 0b1111_00101, none, IMMEDIATE, Kind::ReturnLoad, "RLD d,#v");
    t.add(9, 0b1111_00010, Need::Banks, &[Field::Unit, Field::Entry], Kind::CallBank, "JSRWP v,o");
    t.add(10, 0b1111_00100_0, Need::Unsupported, &[], Kind::Unsupported, "IRQ_ON");
    t.add(10, 0b1111_00100_1, Need::Unsupported, &[], Kind::Unsupported, "IRQ_OFF");
    t.control(0, none, Kind::Return, "RET");
    t.control(1, Need::Banks, Kind::ReturnBank, "RETWP");
    t.control(2, Need::Unsupported, Kind::Unsupported, "RETI");
    t.control(4, Need::Special, Kind::SpecialOff, "SPR_OFF");
    t.control(5, Need::Special, Kind::SpecialOn, "SPR_ON");
    t.control(6, Need::Unsupported, Kind::Unsupported, "IRQM_RLD");
    t.control(7, Need::Unsupported, Kind::Unsupported, "IRQM_SS");
    t.0
}
