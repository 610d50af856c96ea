//! The table of counts with their bounds.

use super::count::{can_count, count, Counted};

/// How far a count may be above its bound.
const SLACK: f64 = 1.03;
/// How much dearer a step may be with the largest data memory at W 32, where no cell has to be looked at.
const APART: f64 = 1.02;

enum Bound {
    AtMost(f64),
    /// The plain program's own count.
    Plain,
}

/// The bounds by the names of their cases. Later for the four programs: 44, 37, 39, 40.
const BOUNDS: [(&str, Bound); 17] = [
    ("run, arithmetic, IM_SIZE 128, a step", Bound::AtMost(49.0)),
    ("run, calls, IM_SIZE 128, a step", Bound::AtMost(40.0)),
    ("run, mover, IM_SIZE 128, a step", Bound::AtMost(43.0)),
    ("run, ports, IM_SIZE 128, a step", Bound::AtMost(43.0)),
    ("run, calls, IM_SIZE 100, a step", Bound::AtMost(40.0)),
    // 44.8 before K3, which may cost 3%.
    ("run, byte loads with sign, IM_SIZE 128, a step", Bound::AtMost(46.0)),
    // 177.6 before K2, which may cost ten.
    ("run, each word a JMP to be decoded, IM_SIZE 1500, a step", Bound::AtMost(187.6)),
    (SMALL_STEP, Bound::AtMost(1_200.0)),
    (LARGE_STEP, Bound::AtMost(1_200.0)),
    ("step, W 16, DM_SIZE 32768, a call", Bound::Plain),
    ("step refused by 1, W 16, DM_SIZE 32768, a call", Bound::AtMost(1_200.0)),
    ("step refused by 2, W 16, DM_SIZE 32768, a call", Bound::AtMost(1_200.0)),
    ("run of 10 steps, arithmetic, IM_SIZE 128, a call", Bound::AtMost(4_000.0)),
    ("run of 100 steps, arithmetic, IM_SIZE 128, a call", Bound::AtMost(11_000.0)),
    ("run of 1000 steps, arithmetic, IM_SIZE 128, a call", Bound::AtMost(52_000.0)),
    ("check, an address", Bound::AtMost(130.0)),
    ("list, a line", Bound::AtMost(430.0)),
];
const SMALL_STEP: &str = "step, W 32, DM_SIZE 32, a call";
const LARGE_STEP: &str = "step, W 32, DM_SIZE 32768, a call";

/// What came of the counting.
#[derive(Clone, Copy, Debug, PartialEq, Eq)]
pub enum Verdict {
    Within,
    Over,
    /// Valgrind is not on the machine.
    NotCounted,
}

fn bound(name: &str, counted: Counted) -> Option<f64> {
    BOUNDS.iter().find(|(of, _)| *of == name).map(|(_, bound)| match bound {
        Bound::AtMost(most) => *most,
        Bound::Plain => counted.plain,
    })
}

/// Counts everything and prints it.
pub fn report_counts() -> Result<Verdict, String> {
    if !can_count() {
        println!("valgrind is not on this machine: instructions are not counted");
        return Ok(Verdict::NotCounted);
    }
    let list = count()?;
    println!("{:68} {:>10} {:>10} {:>10}", "instructions, by callgrind", "library", "plain C", "at most");
    let (mut over, mut met) = (0, 0);
    let mut row = |name: &str, Counted { library, plain }: Counted, bound: Option<f64>, slack: f64| {
        let (most, mark) = match bound {
            None => (String::new(), ""),
            Some(most) => (
                format!("{most:.2}"),
                match library {
                    count if count > most * slack => "  OVER",
                    count if count > most => "  (a little above)",
                    _ => "",
                },
            ),
        };
        met += u32::from(bound.is_some());
        over += u32::from(mark == "  OVER");
        println!("{name:68} {library:10.2} {plain:10.2} {most:>10}{mark}");
    };
    for (case, counted) in &list {
        row(&case.name, *counted, bound(&case.name, *counted), SLACK);
    }
    let of = |name: &str| list.iter().find(|(case, _)| case.name == name).map(|(_, counted)| *counted);
    let (small, large) = of(SMALL_STEP).zip(of(LARGE_STEP)).ok_or("the steps at W 32 are not counted")?;
    let apart = |a: f64, b: f64| (a / b).max(b / a);
    let ratios = Counted { library: apart(small.library, large.library), plain: apart(small.plain, large.plain) };
    row("these two steps at W 32, greater to smaller", ratios, Some(APART), 1.0);
    if met != BOUNDS.len() as u32 + 1 {
        return Err(format!("{} bounds, of which {met} were looked at", BOUNDS.len() + 1));
    }
    println!("{over} of {met} bounds exceeded by more than {:.0}% (the last: at all)", (SLACK - 1.0) * 100.0);
    Ok(if over == 0 { Verdict::Within } else { Verdict::Over })
}
