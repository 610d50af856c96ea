//! docs/commands.md: what the programs yam_check, yam_run, yam_pack and yam_config print for what they are given, beside yam_list and
//! yam_asm in `programs`. Written from that page, documents 01 and 02 and the manual, and not from the programs.

use super::config::Config;
use super::forms::{entries, words, Malformed, NAMES};
use super::image;
use super::listing;
use super::machine::{Env, Lists, Machine};
use super::programs::{load, WORDS};
use super::report::{address, report};
use super::sheet::{check as check_rules, Checked};
use super::step::{run as run_steps, BUDGET_LIMIT};
use super::trace::traced;

/// "the log has 256 places"
const LOG_PLACES: usize = 256;

/// "1,000 where it is not given"
pub const DEFAULT_STEPS: u64 = 1_000;

/// Why a program prints one line in place of what it was asked for.
pub enum Refused {
    Number(u32),
    Malformed(Malformed),
}

impl From<u32> for Refused {
    fn from(number: u32) -> Refused {
        Refused::Number(number)
    }
}

impl From<Malformed> for Refused {
    fn from(malformed: Malformed) -> Refused {
        Refused::Malformed(malformed)
    }
}

impl Refused {
    fn line(&self) -> String {
        match self {
            Refused::Number(number) => format!("refused {number}\n"),
            Refused::Malformed(Malformed::Line(line)) => format!("malformed line {line}\n"),
            Refused::Malformed(Malformed::Entry(entry)) => format!("malformed entry {entry}\n"),
            Refused::Malformed(Malformed::Length(bytes)) => format!("malformed length {bytes}\n"),
        }
    }
}

fn printed(made: Result<Vec<u8>, Refused>) -> Vec<u8> {
    made.unwrap_or_else(|refused| refused.line().into_bytes())
}

/// `yam check`: the image's refusal, the certificate's length, then the rules.
pub fn check(file: &[u8], certificate: &[u8]) -> Vec<u8> {
    printed((|| {
        let (config, _, image) = load(file)?;
        if certificate.len() != image.len() {
            return Err(Refused::Number(2));
        }
        let text = match check_rules(&config, &image, certificate) {
            Checked::Passed { level } => format!("passes level {level}\n"),
            Checked::Broken { address: at, rule } => {
                let line = listing::line(&config, at, image[at]);
                format!("refused 17 address {} rule {rule}\n{line}", address(at as u32))
            }
        };
        Ok(text.into_bytes())
    })())
}

/// Which of the two commands is asked for.
#[derive(Clone, Copy, Debug, PartialEq, Eq)]
pub enum Mode {
    Run,
    Trace,
}

/// `yam run` and `yam trace`. "In this order: an IMAGE that is refused; inputs that are not in their form; 16; the run."
pub fn run(mode: Mode, file: &[u8], steps: u64, inputs: Option<&[u8]>) -> Vec<u8> {
    printed((|| {
        let (config, _, image) = load(file)?;
        let inputs = words(inputs.unwrap_or_default())?;
        if steps > BUDGET_LIMIT {
            return Err(Refused::Number(16));
        }
        Ok(run_from_reset(mode, &config, &image, steps, &inputs).into_bytes())
    })())
}

/// "Runs from reset, with zeroed memories"
fn run_from_reset(mode: Mode, config: &Config, image: &[u32], steps: u64, inputs: &[u32]) -> String {
    let (mut registers, mut memory) = (vec![0; config.rm_size as usize], vec![0; config.dm_size as usize]);
    let (mut log_addresses, mut log_values) = ([0; LOG_PLACES], [0; LOG_PLACES]);
    let mut lists =
        Lists { registers: &mut registers, memory: &mut memory, log_addresses: &mut log_addresses, log_values: &mut log_values };
    let env = Env { config, image, inputs };
    let mut machine = Machine::at_reset();
    let (ran, lines) = match mode {
        Mode::Run => (run_steps(&env, &mut machine, &mut lists, steps), String::new()),
        Mode::Trace => traced(&env, &mut machine, &mut lists, steps),
    };
    lines + &report(config, &ran, &machine, &lists)
}

/// `yam pack`. "In this order: CONFIG not in its form; WORDS not in its form; `refused 1` ..; `refused 2` ..".
pub fn pack(config: &[u8], text: &[u8]) -> Vec<u8> {
    printed((|| {
        let fields = entries(config)?;
        let words = words(text)?;
        let config = Config::lawful_from_words(&fields).ok_or(1u32)?;
        if words.len() != config.im_size as usize || words.len() > WORDS {
            return Err(Refused::Number(2));
        }
        Ok(image::file_of(&fields, &words))
    })())
}

/// `yam config`: the generics, or with `only_words` the words.
pub fn config(file: &[u8], only_words: bool) -> Vec<u8> {
    printed((|| {
        let (_, fields, image) = load(file)?;
        let text: String = if only_words {
            image.iter().map(|word| format!("{word:08x}\n")).collect()
        } else {
            NAMES.iter().zip(fields).map(|(name, value)| format!("{name}={value}\n")).collect()
        };
        Ok(text.into_bytes())
    })())
}

#[cfg(test)]
mod tests {
    use super::*;

    /// Document 01's configuration and image of six words.
    const SIX_WORDS: &str = "IM_SIZE=6 REG_SIZE=16 RM_SIZE=16 ALU_LEVEL=2";
    const WORDS_OF_SIX: &str = "a2860010\n9c041402\n98061800\n46860001\nc1000002\nC0000005";

    /// Worked out by hand from document 01: "From reset, 11 steps and 22 cycles reach PC 5".
    const TRACE: &str = "\
1 2 000000 a2860010 MOV %06,#0010 ; %06=00000010
2 4 000001 9c041402 LDYX %04,%02 ; RX=02 RY=04 loaded=1
3 6 000002 98061800 MOVX @%06,@%X+,S ; RX=03
4 8 000003 46860001 ADD %06,#0001 ; %06=00000011
5 10 000004 c1000002 JMP 000002,NZ ;
6 12 000002 98061800 MOVX @%06,@%X+,S ; RX=04
7 14 000003 46860001 ADD %06,#0001 ; %06=00000012
8 16 000004 c1000002 JMP 000002,NZ ;
9 18 000002 98061800 MOVX @%06,@%X+,S ; RX=05 Z=1
10 20 000003 46860001 ADD %06,#0001 ; %06=00000013
11 22 000004 c1000002 JMP 000002,NZ ;
";
    const REPORT: &str = "\
ended 0
steps 11
cycles 22
PC 000005
WP 000
RX 05
RY 04
N 0
Z 1
SPR7 00000000
IMask f
saved f
mode 0
posted 0
port 00000000
loaded 1
taken 0
logged 0
depth 0
%00 00000000 00000000 00000000 00000000 00000000 00000000 00000013 00000000
%08 00000000 00000000 00000000 00000000 00000000 00000000 00000000 00000000
";

    fn text(bytes: Vec<u8>) -> String {
        String::from_utf8(bytes).expect("a text")
    }

    #[test]
    fn document_01s_six_words_are_traced_as_by_hand() {
        let file = pack(SIX_WORDS.as_bytes(), WORDS_OF_SIX.as_bytes());
        assert_eq!(text(run(Mode::Run, &file, 11, None)), REPORT);
        assert_eq!(text(run(Mode::Trace, &file, 11, None)), format!("{TRACE}{REPORT}"));
        assert_eq!(text(check(&file, &[0; 6])), "passes level 0\n");
        assert_eq!(
            text(check(&file, &[0, 0, 0, 0, 0, 255])),
            "refused 17 address 000004 rule 4\n000004 c1000002 JMP 000002,NZ\n"
        );
        assert_eq!(text(check(&file, &[0; 5])), "refused 2\n");
        assert_eq!(text(config(&file, true)), WORDS_OF_SIX.to_lowercase() + "\n");
        assert_eq!(pack(&config(&file, false), &config(&file, true)), file);
    }

    /// A call into a bank, a port write there, a call on the stack and a stop by 14: by hand from document 01.
    #[test]
    fn banks_ports_and_calls_are_traced_as_by_hand() {
        let file =
            pack(b"IM_SIZE=4 REG_SIZE=16 RM_SIZE=64 PC_STACK=1 DM_SIZE=2 IOP_IF=1", b"f1020001\nBA800007\nf0800003\nb1050006\n");
        let traced = text(run(Mode::Trace, &file, 9, None));
        let lines: Vec<&str> = traced.lines().collect();
        assert_eq!(
            lines[..7],
            [
                "1 2 000000 f1020001 JSRWP 0001,020 ; WP=020 %020=000f0001",
                "2 4 000001 ba800007 MOVIO @%00,#0007 ; posted=1 port=000f0001 logged=1 log=000f0001:00000007",
                "3 6 000002 f0800003 JSR 000003 ; posted=0 port=00000000 depth=1 stack=000003",
                "ended 14",
                "steps 3",
                "cycles 6",
                "PC 000003",
            ]
        );
        let registers = "%000 00000000 00000000 00000000 00000000 00000000 00000000 00000000 00000000";
        assert_eq!(lines[21..24], ["depth 1", "stack 000003", registers]);
        assert_eq!(lines.last(), Some(&"log 000f0001 00000007"));
        let read = text(run(Mode::Trace, &file, 4, Some(b"Ab")));
        assert!(read.lines().any(|line| line == "4 9 000003 b1050006 MOVIO %05,@%06 ; taken=1 %025=000000ab"), "{read}");
    }

    #[test]
    fn refusals_come_in_their_order() {
        let file = pack(SIX_WORDS.as_bytes(), WORDS_OF_SIX.as_bytes());
        assert_eq!(text(run(Mode::Run, &file[1..], 1_000_001, Some(b"x"))), "refused 19\n");
        assert_eq!(text(run(Mode::Run, &file, 1_000_001, Some(b"x"))), "malformed line 1\n");
        assert_eq!(text(run(Mode::Run, &file, 1_000_001, Some(b""))), "refused 16\n");
        assert_eq!(text(pack(b"IM_SIZE=0 =", b"x")), "malformed entry 2\n");
        assert_eq!(text(pack(b"IM_SIZE=0", b"x")), "malformed line 1\n");
        assert_eq!(text(pack(b"IM_SIZE=0", b"")), "refused 1\n");
        assert_eq!(text(pack(b"IM_SIZE=1", b"")), "refused 2\n");
    }
}
