//! What the programs of K8 met, width by width, of sums and of differences.

/// The widths, and the greatest length of a chain that is counted by itself; longer ones are counted with it.
pub const WIDTHS: [u32; 3] = [8, 16, 32];
pub const LONGEST: usize = 8;
const SHORTEST: usize = 2;
pub const BY_EACH: usize = 2;

/// Why nothing is claimed of an ADD and the ADDC straight after it, or a SUB and the SUBC.
#[derive(Clone, Copy, Debug, PartialEq, Eq)]
pub enum Aside {
    /// The first leaves the flags.
    FirstKeeps,
    /// The second's %d is the first's; its %s is the first's %d; both are.
    Destination,
    Source,
    Both,
}

/// Of one width, and of sums or of differences. A carry stands for a borrow as well.
#[derive(Clone, Copy, Debug, Default)]
pub struct OfKind {
    /// Pairs that meet the claim's premise: by whether the low words have a carry, and whether the whole has.
    pub carries: [[u64; 2]; 2],
    /// Of them, those whose second leaves the flags: N is the carry of the whole by chance, or is not.
    pub kept: [u64; 2],
    /// Of them, those whose first, and whose second, has an immediate, by its mark.
    pub immediates: [[u64; 3]; 2],
    /// Pairs that do not meet it, by `Aside`.
    pub aside: [u64; 4],
    /// An ADDC straight after a SUB, and one with another word between it and its ADD.
    pub crossed: u64,
    pub between: u64,
    /// Chains as long as they go, by their length from `SHORTEST` on; and by whether the whole has a carry.
    pub chains: [u64; LONGEST - SHORTEST + 1],
    pub chain_carries: [u64; 2],
}

impl OfKind {
    fn met(&self) -> u64 {
        self.carries.iter().flatten().sum()
    }

    /// A chain that goes no further.
    pub fn note_chain(&mut self, length: usize, carry: bool) {
        if length >= SHORTEST {
            self.chains[length.min(LONGEST) - SHORTEST] += 1;
            self.chain_carries[usize::from(carry)] += 1;
        }
    }

    /// All that is counted.
    fn counts(&self) -> Vec<u64> {
        let OfKind { carries, kept, immediates, aside, crossed, between, chains, chain_carries } = self;
        let mut counts = vec![*crossed, *between];
        counts.extend(carries.iter().flatten().chain(immediates.iter().flatten()));
        counts.extend(kept.iter().chain(aside).chain(chains).chain(chain_carries));
        counts
    }
}

/// What the lists of calls came to.
#[derive(Clone, Copy, Debug, Default)]
pub struct SumsSeen {
    pub programs: u64,
    /// By width, and by whether it is a difference.
    pub of: [[OfKind; 2]; WIDTHS.len()],
    /// Pairs that meet the premise: both by step calls, both in runs, and at `BY_EACH` one by each.
    pub made: [u64; 3],
    /// Of them, those with N 0 and those with N 1 before the first.
    pub before: [u64; 2],
    /// Of them, those with the same %s in both, with %s as %d in the first, in the second, and with the second's %d as the first's %s.
    pub alike: [u64; 4],
    /// Of them, those that leave a Z which does not say whether the whole is 0.
    pub other_z: u64,
}

impl SumsSeen {
    /// Whether everything that is counted was met.
    pub fn all_met(&self) -> bool {
        let SumsSeen { programs, of, made, before, alike, other_z } = self;
        let single = [*programs, *other_z];
        let mut counts = single.iter().chain(made).chain(before).chain(alike);
        counts.all(|&count| count > 0) && of.iter().flatten().all(|of| of.counts().iter().all(|&count| count > 0))
    }

    pub fn print(&self) {
        let SumsSeen { programs, of, made: [by_step, by_run, by_both], before: [n0, n1], alike, other_z } = self;
        let [one_source, own_first, own_second, crosswise] = alike;
        let met: u64 = of.iter().flatten().map(OfKind::met).sum();
        println!(
            "K8: {programs} programs, {met} pairs came out as claimed: {by_step} by step calls, {by_run} in runs, {by_both} by one of each; \
             {n0} with N 0 before and {n1} with N 1; {one_source} with one %s, {own_first} and {own_second} with %d as %s in the first and in \
             the second, {crosswise} with the second's %d as the first's %s; {other_z} left another Z than the whole's"
        );
        for (width, [sums, differences]) in WIDTHS.iter().zip(of) {
            println!("  W {width}, ADD: {}", told(sums));
            println!("  W {width}, SUB: {}", told(differences));
        }
    }
}

fn told(of: &OfKind) -> String {
    let each = |counts: &[u64]| counts.iter().map(u64::to_string).collect::<Vec<_>>().join("/");
    let OfKind { carries: [[neither, whole], [low, both]], kept: [kept, kept_other], .. } = of;
    let [first, second] = of.immediates.map(|marks| each(&marks));
    let [first_keeps, aside @ ..] = of.aside;
    format!(
        "no carry {neither}, of the low words only {low}, of the whole only {whole}, both {both}; flags left by the second, N the carry or \
         not {kept}/{kept_other}; #/>/< in the first {first}, in the second {second}; nothing claimed: flags left by the first \
         {first_keeps}, %d/%s/both coincide {}, crossed {}, a word between {}; chains of {SHORTEST} to {LONGEST} words {}, without and with \
         carry {}",
        each(&aside),
        of.crossed,
        of.between,
        each(&of.chains),
        each(&of.chain_carries)
    )
}
