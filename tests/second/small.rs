//! Random formulas of few variables, of any kind, for the comparison with all
//! assignments.

use crate::chained;
use crate::formulas::{draft, Draft};
use crate::implied;
use crate::random::Random;
use crate::transitive;
use crate::valued;

/// A formula of at most so many variables, which are 3 or more.
pub fn any(random: &mut Random, most: usize) -> Draft {
    if random.once_in(4) {
        let variables = random.between(3, most);
        transitive::draft(random, variables)
    } else if random.once_in(3) {
        let variables = random.between(3, most);
        chained::draft(random, variables)
    } else if random.once_in(3) {
        let variables = random.between(3, most);
        implied::draft(random, variables)
    } else if random.once_in(3) {
        let variables = random.between(2, most);
        valued::draft(random, variables)
    } else {
        let variables = random.below(most + 1);
        draft(random, variables)
    }
}
