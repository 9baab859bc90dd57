//! Which formula is loaded next.

use crate::chained;
use crate::far;
use crate::formulas::{draft, Draft};
use crate::implied;
use crate::random::Random;
use crate::valued;

/// A formula, mostly a small one.
pub fn any(random: &mut Random) -> Draft {
    if random.once_in(4) {
        return far::draft(random);
    }
    if random.once_in(4) {
        let variables = match random.below(40) {
            0 => random.between(13, 60),
            // Enough for newcomers of 64 literals.
            1..=3 => random.between(64, 130),
            _ => random.between(3, 12),
        };
        return implied::draft(random, variables);
    }
    if random.once_in(3) {
        let variables = match random.below(40) {
            0 => random.between(60, 200),
            1..=4 => random.between(13, 60),
            5..=20 => random.between(8, 14),
            _ => random.between(3, 12),
        };
        return chained::draft(random, variables);
    }
    if random.once_in(3) {
        let variables = match random.below(40) {
            0 => random.between(13, 60),
            1..=10 => random.between(2, 12),
            _ => random.between(3, 8),
        };
        return valued::draft(random, variables);
    }
    let variables = match random.below(200) {
        0 => random.between(100, 400),
        1..=9 => random.between(13, 60),
        10..=60 => random.between(0, 12),
        _ => random.between(2, 8),
    };
    draft(random, variables)
}
