//! Judging claims by kind.
//!
//! For every kind the weights of t- and t+ are summed up as whole numbers, and
//! only the comparison differs: modulo compares residues, trap and siphon ask
//! whether the sum of the weights (0 or 1) is above 0. No sum leaves an `i64`:
//! 1,024 cells times 4,177,920 tokens times 1,000,000 is below 2^52.

use crate::net::{Arc, Claim, Kind, Mode, Net};

#[derive(Clone, Copy, Debug, PartialEq, Eq)]
pub enum Verdict {
    /// With the number of modes in which the guard holds.
    Accepted(usize),
    /// With the first transition and mode that break the claim.
    Broken(usize, Mode),
}

pub fn judge(net: &Net, claim: &Claim) -> Verdict {
    let mut modes = 0;
    for (number, transition) in net.transitions.iter().enumerate() {
        for mode in transition.modes() {
            if !transition.guard_holds(net, &mode) {
                continue;
            }
            modes += 1;
            let taken = weigh(net, &transition.takes, &mode, &claim.weights);
            let put = weigh(net, &transition.puts, &mode, &claim.weights);
            if !claim.kind.relates(taken, put) {
                return Verdict::Broken(number, mode);
            }
        }
    }
    Verdict::Accepted(modes)
}

/// The sum of the weights of all that the arcs move in a mode.
fn weigh(net: &Net, arcs: &[Arc], mode: &Mode, weights: &[i64]) -> i64 {
    arcs.iter()
        .map(|arc| arc.bag.weigh(net, mode, &weights[arc.cells()]))
        .sum()
}

impl Kind {
    /// Whether the sum `taken` of t- relates to the sum `put` of t+.
    pub fn relates(self, taken: i64, put: i64) -> bool {
        match self {
            Kind::Equal => taken == put,
            Kind::NeverRises => put <= taken,
            Kind::NeverFalls => taken <= put,
            Kind::Modulo(modulus) => taken % modulus == put % modulus,
            Kind::Trap => taken == 0 || put > 0,
            Kind::Siphon => put == 0 || taken > 0,
        }
    }
}
