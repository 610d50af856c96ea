//! A trace replayed: what its lines say was changed, from reset on, must come to what the report below them says. This holds of every trace,
//! whatever the model is; of data memory the report says nothing.

use std::collections::BTreeMap;

/// The record at reset by the report's names; where it is all zeros, as many as the report has.
const AT_RESET: [(&str, &str); 2] = [("IMask", "f"), ("saved", "f")];
/// What the report has of the record, but for PC, which a trace leaves out.
const NAMES: [&str; 15] =
    ["WP", "RX", "RY", "N", "Z", "SPR7", "IMask", "saved", "mode", "posted", "port", "loaded", "taken", "logged", "depth"];
/// The fewest and the most cycles of a step.
const CYCLES: [u64; 2] = [2, 3];

#[derive(Default)]
struct Replayed<'a> {
    steps: u64,
    cycles: u64,
    record: BTreeMap<&'a str, &'a str>,
    stack: Vec<&'a str>,
    registers: BTreeMap<usize, &'a str>,
    log: Vec<&'a str>,
}

impl<'a> Replayed<'a> {
    /// A line of a step.
    fn step(&mut self, line: &'a str) -> Option<()> {
        let (head, changes) = line.split_once(" ;")?;
        let mut numbers = head.split(' ').map(str::parse::<u64>);
        let (step, cycles) = (numbers.next()?.ok()?, numbers.next()?.ok()?);
        let took = cycles.checked_sub(self.cycles)?;
        if step != self.steps + 1 || !(CYCLES[0]..=CYCLES[1]).contains(&took) {
            return None;
        }
        (self.steps, self.cycles) = (step, cycles);
        changes.split(' ').skip(1).try_for_each(|change| self.change(change))
    }

    fn change(&mut self, change: &'a str) -> Option<()> {
        let (name, value) = change.split_once('=')?;
        match name.split_at(1) {
            _ if name == "stack" => self.stack.push(value),
            _ if name == "log" => self.log.push(value),
            ("%", place) => {
                self.registers.insert(usize::from_str_radix(place, 16).ok()?, value);
            }
            ("&", _) => {}
            _ => {
                if name == "depth" {
                    self.stack.truncate(value.parse().ok()?);
                }
                // What is named was another value before.
                let before = self.record.insert(NAMES.iter().find(|known| **known == name)?, value);
                return (before != Some(value)).then_some(());
            }
        }
        Some(())
    }

    /// Whether a line of the report, from `steps` on, is what the trace came to.
    fn reports(&mut self, line: &'a str) -> Option<()> {
        let (name, value) = line.split_once(' ')?;
        let as_replayed = match name {
            "ended" | "PC" => true,
            "steps" => value == self.steps.to_string(),
            "cycles" => value == self.cycles.to_string(),
            "stack" => !self.stack.is_empty() && value == self.stack.remove(0),
            "log" => !self.log.is_empty() && value == self.log.remove(0).replace(':', " "),
            _ => match name.strip_prefix('%') {
                Some(first) => {
                    let first = usize::from_str_radix(first, 16).ok()?;
                    (first..).zip(value.split(' ')).all(|(place, cell)| self.holds(place, cell))
                }
                None => {
                    let known = NAMES.iter().find(|known| **known == name)?;
                    let reset = AT_RESET.iter().find(|(other, _)| other == known).map(|(_, value)| *value);
                    let zeros = || value.bytes().all(|digit| digit == b'0');
                    self.record.get(known).map_or_else(|| reset.map_or_else(zeros, |reset| reset == value), |held| *held == value)
                }
            },
        };
        as_replayed.then_some(())
    }

    /// Whether a register holds this; one that was never changed holds zeros.
    fn holds(&self, place: usize, cell: &str) -> bool {
        self.registers.get(&place).map_or(cell.bytes().all(|digit| digit == b'0'), |held| *held == cell)
    }
}

/// The first line that does not follow from those before it; None where there is none.
pub fn difference(trace: &str) -> Option<String> {
    let mut replayed = Replayed::default();
    let mut lines = trace.lines().peekable();
    while let Some(line) = lines.next_if(|line| !line.starts_with("ended ")) {
        if replayed.step(line).is_none() {
            return Some(format!("the line of a step {line:?}"));
        }
    }
    for line in lines {
        if replayed.reports(line).is_none() {
            return Some(format!("the report's line {line:?} is not what the trace came to"));
        }
    }
    let left = replayed.stack.len() + replayed.log.len();
    (left > 0).then(|| format!("{left} addresses or places of the log are not in the report"))
}

#[cfg(test)]
mod tests {
    use super::difference;

    const TRACE: &str = "1 2 000000 f0800002 JSR 000002 ; depth=1 stack=000001\n2 4 000002 a2860010 MOV %06,#0010 ; %06=10\n\
                         3 7 000003 b1850006 IORMW %05,@%06 ; posted=1 port=10 taken=1 logged=1 %05=07 log=10:87\nended 4\nsteps 3\n\
                         cycles 7\nPC 000004\nWP 000\nIMask f\nposted 1\nport 10\ntaken 1\nlogged 1\ndepth 1\nstack 000001\n\
                         %00 00 00 00 00 00 07 10 00\nlog 10 87\n";

    #[test]
    fn a_trace_comes_to_its_report() {
        assert_eq!(difference(TRACE), None);
        for (from, to) in [
            (" %05=07", ""),
            (" log=10:87", ""),
            (" stack=000001", ""),
            (" port=10", ""),
            ("7 000003", "8 000003"),
            ("3 7", "4 7"),
            ("steps 3", "steps 2"),
            ("log 10 87\n", ""),
            ("stack 000001\n", ""),
            ("IMask f", "IMask 0"),
            ("%06=10", "%07=10"),
            ("taken=1", "token=1"),
            (" ; %06", " %06"),
        ] {
            assert!(difference(&TRACE.replacen(from, to, 1)).is_some(), "{from:?}");
        }
    }
}
