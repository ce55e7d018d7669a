//! Random proofs, and lengths of what is lent.

use super::random::Random;
use crate::reference::Literal;
use crate::steps::{encode_steps, Step};

/// A proof of random steps for a formula of `variables` and `clauses`. Most
/// steps are well formed; few follow.
pub fn proof(random: &mut Random, variables: u64, clauses: u64) -> Vec<u8> {
    let mut highest = clauses as u32;
    let mut steps = Vec::new();
    for _ in 0..random.below(6) {
        let count = random.below(4);
        let ids = (0..count)
            .map(|_| 1 + random.below(highest as usize) as u32)
            .collect();
        if random.chance(30) {
            steps.push(Step::Delete { ids });
            continue;
        }
        highest += 1 + random.pick(&[0, 0, 0, 7]);
        let mut literals = Vec::new();
        for _ in 0..random.below(4) {
            let code = 2 + random.below(2 * variables as usize) as u32;
            literals.extend(Literal::from_code(code));
        }
        steps.push(Step::Add {
            id: highest,
            literals,
            hints: ids,
        });
    }
    encode_steps(&steps)
}

/// A length at, just below or far from the one that fits.
pub fn lent(random: &mut Random, fits: u64) -> u64 {
    match random.below(8) {
        0 => fits.saturating_sub(1),
        1 => 0,
        2 => fits,
        3 => fits + 1,
        4 => fits + random.below(20) as u64,
        _ => fits + 1_000,
    }
}
