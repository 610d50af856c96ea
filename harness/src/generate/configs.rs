//! Configurations.

use crate::model::config::{Config, FIXED_FIELDS};
use crate::random::Random;

/// How long the lists of a configuration may be.
#[derive(Clone, Copy, PartialEq, Eq)]
pub enum Size {
    Small,
    Large,
}

/// A lawful configuration. Options are mostly on, so that most rows are there.
pub fn lawful(r: &mut Random, size: Size) -> Vec<u32> {
    let width = r.pick(&[32, 32, 32, 32, 32, 16, 16, 16, 8, 8]);
    let reg_size = r.pick(&[8, 8, 16, 16, 16, 32, 64, 128]);
    let banks = width == 32 && r.chance(60);
    let most = (1024u32 / reg_size).ilog2();
    let rm_size = if banks { reg_size << r.from_to(1, if size == Size::Small { most.min(3) } else { most }) } else { reg_size };
    let on = |r: &mut Random| u32::from(r.chance(80));
    let iop_if = on(r);
    let im_size = match size {
        Size::Small => r.pick(&[1, 2, 3, 4, 5, 6, 7, 8, 9, 12, 16, 20, 30, 32, 40, 60, 64]),
        Size::Large => r.pick(&[125, 126, 127, 252, 253, 1000, 8192, 8193, 8316, 8317, 32767, 32768]),
    };
    let dm_size = match size {
        _ if r.chance(12) => 0,
        Size::Small => 1 << r.from_to(1, 6),
        Size::Large => 1 << r.from_to(7, 15),
    };
    let pc_stack = if r.chance(70) { r.pick(&[1, 2, 3, 4, 5, 6, 9, 63, 64]) } else { r.from_to(1, 64) };
    let mut words = vec![
        im_size,
        width,
        reg_size,
        rm_size,
        pc_stack,
        dm_size,
        r.below(3),
        if width == 8 { 0 } else { r.pick(&[0, 1, 2, 2, 2]) },
        on(r),
        on(r),
        iop_if,
        if iop_if == 1 { on(r) } else { 0 },
        r.below(1024),
        r.below(65536),
    ];
    words.extend(FIXED_FIELDS);
    debug_assert!(Config::lawful_from_words(&words).is_some());
    words
}

/// Changes one field or two, or the length. The result may be lawful still.
pub fn damage(r: &mut Random, words: &mut Vec<u32>) {
    if r.chance(6) {
        let length = r.pick(&[0, 1, 14, 18, 20, 25]);
        words.resize(length, 0);
        return;
    }
    for _ in 0..r.from_to(1, 2) {
        let place = r.below(words.len() as u32) as usize;
        words[place] = match r.below(4) {
            0 => words[place].wrapping_add(1),
            1 => words[place] ^ 1 << r.below(32),
            2 => words[place].wrapping_mul(2),
            _ => r.odd(),
        };
    }
}
