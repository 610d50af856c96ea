//! Source texts: good ones, ones damaged in a place or two, and those at the edges of K1's rules.

use super::words;
use crate::model::config::Config;
use crate::model::rows::{rows, Field, Need};
use crate::model::text::text as printed;
use crate::model::words::read;
use crate::random::Random;

/// Lines that each try one rule, parted by |: most are refused under every configuration, some by
/// their options or limits only.
const ODD_LINES: [&str; 5] = [
    // Targets and labels.
    "JMP 800000|JMP ffffff,Z|JSR 800000|JMP 7fffff|JSR 7fffff|JMP abcdef|JSR abcdef|JMP face|\
     JSR face|JMP facg|JMP abcdeg|JMP abcdefg|JMP abcdefghijkl|JMP abcdefghijklm|JMP Loop|\
     JMP loop1|JMP loop:|JMP loop |JMP nowhere|JSR nowhere|JMP nowhere,Z|JMP nowhere,BIO|\
     JMP nowhere,|JSR nowhere,Z|JMP 000000,|JMP 000000,ZZ|JMP 00000|JMP 0000000|JMP 00000A|\
     JSR 000000,Z|JMP|JMP |JMP @|JMP @%0|JMP @%000|JMP @%00,Z|JMP @%80|JMP @loop|JMP %00|\
     JSR @%00|JSR @%00,Z|JSR @%80|JMP 000000,BIO|JMP @%00,BIO",
    // Unsupported.
    "JMP 000000,NIRQ|JMP nowhere,NIRQ|JMP loop,B0|JMP @%00,B1|JMP 000000,NB0|JMP @%00,NB1|\
     COP0 %04,#0012,1|COP8 %04,#0012,1|COP|RETI|IRQ_ON 1|IRQ_OFF f|IRQ_ON|IRQM_SS|IRQM_RLD|\
     ADD %00,%01,#05|ADD %00,#f2",
    // JSRWP: address and offset.
    "JSRWP loop,020|JSRWP 0040,020|JSRWP 0040,021|JSRWP 0040,02f|JSRWP 0040,3f0|JSRWP 0040,400|\
     JSRWP 0040,401|JSRWP 0040,ff0|JSRWP 000040,020|JSRWP 0040,0020|JSRWP 0040|RETWP",
    // Byte numbers, registers, counts, addresses.
    "BST0 %00,%01|BST1 %00,%01,S|BST2 %00,%01|BLD3 %01,%02,S|BLDS3 %00,%01|BST4 %00,%01|\
     BLD7 %00,%01,S|BLDS9 %00,%01|BSTa %00,%01|BST %00,%01|BST00 %00,%01|BST4 %80,%01|\
     MOV %80,%01|MOV %ff,#0000|MOV %01,%80|ADD %10,%01,S|ADD %01,%ff,S|SHR %00,#0010|\
     SHR %00,#0000|SHL %00,#000f,S|SHRA %00,#ffff|SHL %00,>0001|MOV &ffff,%00|MOV %00,&ffff|\
     MOV &0000,%80|MOV @%00,#0001|MOV @%00,@%01|MOV %0a,#loop|MOVX @%X+,@%X+|MOVX @%00,@%01|\
     MOVX @%80,@%X+|MOVIO %00,%01|MOVIO @%00,&0001|IORMW @%00,%01|RLD %00,>0001",
    // Spaces, case, commas, marks.
    "RET | RET|RET\r|\r| |\0|\0RET|\0\0OR %00,%01|ret|RET,S|RET %00|MOV %00,%01,S|ADD %00,%01,s|ADD %00,%01,S,S|\
     ADD %00,%01,|ADD %0A,%01|ADD %0,%01|ADD %00, %01|ADD  %00,%01|SPR_OFFF|?5|\
     000000 f0000000 RET",
];

/// Starts of lines that are not a label and one space, and mostly no label at all.
const ODD_STARTS: [&str; 16] = [
    "face: ",
    "face:",
    "loop:",
    "loop:  ",
    "loop: :",
    "loop : ",
    " loop: ",
    "Loop: ",
    "loop1: ",
    "loop:\t",
    "loop: loop: ",
    ": ",
    "::",
    "abcdefghijklm: ",
    "abcdefghijkl:",
    "ff: ",
];

fn odd_line(r: &mut Random) -> String {
    let lines: Vec<&str> = ODD_LINES.iter().flat_map(|group| group.split('|')).collect();
    r.pick(&lines).to_string()
}

/// A label: small letters, one at least beyond f.
pub fn label(r: &mut Random) -> String {
    let length = r.pick(&[1, 1, 2, 3, 4, 5, 6, 6, 7, 9, 11, 12, 12]);
    let mut letters: Vec<u8> = (0..length).map(|_| b'a' + r.pick(&[0, 1, 2, 3, 4, 5, 6, 13, 24, 25])).collect();
    let place = r.below(length) as usize;
    letters[place] = b'g' + r.below(20) as u8;
    String::from_utf8(letters).expect("small letters")
}

/// The text of a word that can be read.
pub fn readable(r: &mut Random, c: &Config) -> String {
    let word = words::readable(r, c);
    read(c, word).map_or_else(|_| "RET".to_string(), |instruction| printed(&instruction))
}

/// A text in the form of some row, its option on or off; half of the time a part may be beyond its
/// limit.
fn in_form(r: &mut Random, c: &Config) -> String {
    let row = loop {
        let row = words::row(r);
        if rows()[row].need != Need::Unsupported {
            break row;
        }
    };
    let mut instruction = words::parts_of(r, c, row);
    if r.chance(50) {
        for &field in rows()[row].fields {
            let near = |r: &mut Random, limit: u32| limit.saturating_sub(1) + r.below(3);
            match field {
                Field::Destination if r.chance(30) => instruction.destination = near(r, c.reg_size),
                Field::Source if r.chance(30) => instruction.source = near(r, c.reg_size),
                Field::Unit => instruction.destination = r.pick(&[0, 62, 63, 64, 65, 127, 128, 255]),
                Field::Byte => instruction.byte = r.below(4),
                Field::Count => instruction.value = r.pick(&[0, 1, 2, 14, 15, 16, 17, 0x8001, 0xffff]),
                Field::Address => instruction.value = near(r, c.dm_size) & 0xffff,
                Field::Target => instruction.value = r.pick(&[0x7f_ffff, 0x80_0000, 0xff_ffff, c.im_size, c.im_size - 1]),
                Field::Entry => instruction.value = r.pick(&[0xffff, c.im_size, c.im_size - 1]) & 0xffff,
                _ => {}
            }
        }
    }
    printed(&instruction)
}

/// A jump or a call to one of these labels.
fn to_label(r: &mut Random, labels: &[String]) -> String {
    let label = &labels[r.below(labels.len() as u32) as usize];
    match r.below(5) {
        0 | 1 => format!("JSR {label}"),
        2 | 3 => format!("JMP {label}"),
        _ => format!("JMP {label},{}", r.pick(&["Z", "NZ", "GT", "LT", "GE", "LE", "LE", "BIO"])),
    }
}

fn instruction(r: &mut Random, c: &Config, labels: &[String]) -> String {
    match r.below(100) {
        0..=24 if !labels.is_empty() => to_label(r, labels),
        98 => in_form(r, c),
        _ => readable(r, c),
    }
}

/// Lines that are mostly good: labels mostly defined once each, and used.
fn good_lines(r: &mut Random, c: &Config, count: usize) -> Vec<String> {
    let labels: Vec<String> = (0..r.below(6)).map(|_| label(r)).collect();
    let mut lines: Vec<String> =
        (0..count).map(|_| if r.chance(8) { String::new() } else { instruction(r, c, &labels) }).collect();
    for label in labels.iter().filter(|_| count > 0) {
        if r.chance(97) {
            let place = r.below(count as u32) as usize;
            if r.chance(35) || lines[place].is_empty() || lines[place].contains(':') {
                lines.insert(place, format!("{label}:"));
            } else {
                lines[place] = format!("{label}: {}", lines[place]);
            }
        }
    }
    lines
}

/// One damage to a line, or a line more.
fn damage_lines(r: &mut Random, c: &Config, lines: &mut Vec<String>) {
    let place = r.below(lines.len() as u32 + 1) as usize;
    let Some(line) = lines.get_mut(place) else {
        return lines.push(odd_line(r));
    };
    match r.below(12) {
        0..=3 => *line = odd_line(r),
        4 => lines.insert(place, odd_line(r)),
        5 => *line = format!("{}{line}", r.pick(&ODD_STARTS)),
        6 => *line = format!("{}{}", r.pick(&ODD_STARTS), r.pick(&["", "", "RET", "FOO", "JMP loop"])),
        7 => line.push(r.pick(&[' ', '\r', '\t', ',', ':', '0', '\0'])),
        8 => {
            let again = line.clone();
            let other = r.below(lines.len() as u32 + 1) as usize;
            lines.insert(other, again);
        }
        9 => *line = format!("{}: {}", label(r), odd_line(r)),
        _ => *line = in_form(r, c),
    }
}

/// One byte changed, put in or taken away.
fn damage_byte(r: &mut Random, text: &mut Vec<u8>) {
    let place = r.below(text.len() as u32 + 1) as usize;
    let byte = if r.chance(60) { r.pick(b"\n\r :,%#><@&+_?SXZMfgz09aA{`/") } else { r.below(256) as u8 };
    match r.below(5) {
        0 => text.insert(place, byte),
        1 if place < text.len() => {
            text.remove(place);
        }
        2 => text.truncate(place),
        3 if place < text.len() => text[place] ^= 1 << r.below(8),
        _ if place < text.len() => text[place] = byte,
        _ => text.push(byte),
    }
}

fn joined(r: &mut Random, lines: &[String]) -> Vec<u8> {
    let mut text = lines.join("\n").into_bytes();
    if r.chance(60) {
        text.push(b'\n');
    }
    text
}

/// A short text.
pub fn short(r: &mut Random, c: &Config) -> Vec<u8> {
    let most = r.pick(&[4, 20, 20]);
    let count = r.below(most) as usize;
    let mut lines = good_lines(r, c, count);
    let damages = r.pick(&[0, 0, 0, 1, 1, 1, 2, 3]);
    for _ in 0..damages {
        damage_lines(r, c, &mut lines);
    }
    let mut text = joined(r, &lines);
    if r.chance(25) {
        damage_byte(r, &mut text);
    }
    text
}

/// The n-th of many labels, all different; a quarter start with a letter that is also a digit.
pub fn numbered_label(n: u32) -> String {
    let letters = [n / 676 % 26, n / 26 % 26, n % 26];
    let end: String = letters.iter().map(|&letter| char::from(b'a' + letter as u8)).collect();
    format!("{}{end}", ["q", "done", "loop", "subroutin"][n as usize % 4])
}

/// A long text: as many label lines as there may be or one more or less, only newlines, every byte,
/// or a very long line.
pub fn long(r: &mut Random, c: &Config) -> Vec<u8> {
    match r.below(10) {
        0 => vec![b'\n'; r.below(3000) as usize],
        1 => (0..=255).collect(),
        2 => (0..=255u8).flat_map(|byte| [byte, b'\n']).collect(),
        3 | 4 => {
            let mut text = r.pick(&["", "RET\n", "RET", "loop:\nJMP loop", "g: "]).as_bytes().to_vec();
            let byte = r.pick(b"ag0 :%\rR\0\xff");
            text.resize(text.len() + r.from_to(1, 70_000) as usize, byte);
            text.extend(r.pick(&["", ":", "\nRET", "\nFOO\n"]).bytes());
            text
        }
        _ => label_lines(r, c),
    }
}

fn label_lines(r: &mut Random, c: &Config) -> Vec<u8> {
    let count = r.pick(&[1022, 1023, 1024, 1024, 1024, 1025, 1025, 1026]);
    let lone = r.pick(&[0, 50, 100]);
    let mut lines = Vec::new();
    for n in 0..count {
        let label = numbered_label(n);
        if r.chance(lone) {
            lines.push(format!("{label}:"));
        } else if r.chance(50) {
            lines.push(format!("{label}: JMP {}", numbered_label(r.below(count))));
        } else {
            lines.push(format!("{label}: {}", readable(r, c)));
        }
        if r.chance(20) {
            lines.push(if r.chance(50) { format!("JSR {}", numbered_label(r.below(count))) } else { readable(r, c) });
        }
    }
    if r.chance(40) {
        damage_lines(r, c, &mut lines);
    }
    if r.chance(25) {
        let last = lines.len() - 1;
        lines[last] = format!("{}: RET", numbered_label(r.below(count)));
    }
    joined(r, &lines)
}
