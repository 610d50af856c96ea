//! Document 02's K3: BLDS of every byte, at both widths that have it, against the host's own sign extension.

use crate::calls::{Calls, State};
use crate::document_targets::same;

const N: usize = 4;
const Z: usize = 5;

/// The answer, the destination, Z and N after one step of a word whose destination is %01 and whose source %02.
fn stepped(calls: &dyn Calls, width: u32, word: u32, source: u32, flags: (u32, u32)) -> (u32, u32, u32, u32) {
    let config = [1, width, 16, 16, 16, 0, 0, 2, 0, 0, 0, 0, 0, 0, 0, 0, 0, 32, 0];
    let (mut machine, mut registers, mut answers) = ([0; 100], [0; 16], [0]);
    calls.reset(&mut machine);
    (machine[Z], machine[N]) = flags;
    (registers[1], registers[2]) = (0x5a5a, source);
    let state =
        State { machine: &mut machine, registers: &mut registers, memory: &mut [], log_addresses: &mut [], log_values: &mut [] };
    let number = calls.step(&config, &[word], &[], state, &mut answers);
    (number, registers[1], machine[Z], machine[N])
}

/// "The answer stays": every byte, in every place, among zeros and among ones, with the flags updated and left.
pub fn run(calls: &dyn Calls) -> Result<u32, String> {
    let mut count = 0;
    for byte in 0..=u8::MAX {
        let wide = i32::from(byte as i8);
        for (width, value, ones) in [(16, u32::from(wide as u16), 0xffff), (32, wide as u32, 0xffff_ffff)] {
            for (place, rest) in (0..width / 8).flat_map(|place| [(place, 0), (place, ones)]) {
                let source = rest & !(0xff << (8 * place)) | u32::from(byte) << (8 * place);
                let word = 0x9801_0602 | place << 23;
                let what = format!("BLDS{place} of {source:08x} at W = {width}");
                let (z, n) = (u32::from(byte == 0), u32::from(wide < 0));
                same(&what, stepped(calls, width, word, source, (1 - z, 1 - n)), (0, value, z, n))?;
                let kept = 0x0400_0000;
                same(&what, stepped(calls, width, word | kept, source, (1 - z, 1 - n)), (0, value, 1 - z, 1 - n))?;
                count += 2;
            }
        }
    }
    Ok(count)
}
