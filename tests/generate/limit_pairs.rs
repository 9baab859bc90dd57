//! Pairs of formulas whose join has about as many variables, clauses or literals
//! as it may have.

use crate::formulas::{clause, Draft};
use crate::links;
use crate::random::Random;
use crate::tables::{MOST_CLAUSES, MOST_LITERALS, MOST_VARIABLES};

/// Two formulas and links between them. Each formula by itself is within limits.
pub fn any(random: &mut Random) -> (Draft, Draft, Vec<u32>) {
    let (left, right) = match random.below(5) {
        0 => many_clauses(random),
        1 => many_literals(random),
        _ => many_variables(random),
    };
    let most = left.variables.min(right.variables);
    let above = (left.variables + right.variables).saturating_sub(MOST_VARIABLES);
    let one_less = above.saturating_sub(1);
    let some = random.between(0, most);
    let count = random.pick(&[one_less, one_less, above, above, above + 1, some]);
    let links = links::pairs(random, left.variables, right.variables, count.min(most));
    (left, right, links)
}

fn many_variables(random: &mut Random) -> (Draft, Draft) {
    let left = random.pick(&[0, 1, 511, 512, 1_000, 1_023, 1_024, 1_024]);
    let right = match random.below(3) {
        0 => near(random, MOST_VARIABLES, left),
        1 => random.pick(&[1, 2, 513, 1_023, 1_024]),
        _ => random.between(1, MOST_VARIABLES),
    };
    (few_clauses(random, left), few_clauses(random, right))
}

fn few_clauses(random: &mut Random, variables: usize) -> Draft {
    let mut clauses = Vec::new();
    for _ in 0..random.below(3) {
        let length = random.between(1, 4);
        clauses.push(clause(random, variables, length));
    }
    if variables > 0 && random.once_in(2) {
        clauses.push(vec![variables as i32]);
    }
    Draft { variables, clauses }
}

/// Equal clauses, empty, of one literal or such as a load drops.
fn many_clauses(random: &mut Random) -> (Draft, Draft) {
    let share = random.pick(&[0, 1, 2_048, 4_095, 4_096]);
    let other = near(random, MOST_CLAUSES, share);
    let clause = random.pick(&[&[][..], &[-1], &[1, -1]]).to_vec();
    let draft = |variables, count| Draft {
        variables,
        clauses: vec![clause.clone(); count],
    };
    (draft(1, share), draft(random.between(1, 3), other))
}

/// One clause on each side; a load keeps few of its literals, or none.
fn many_literals(random: &mut Random) -> (Draft, Draft) {
    let share = random.pick(&[0, 1, 8_192, 16_383, 16_384]);
    let other = near(random, MOST_LITERALS, share);
    let mut draft = |count| {
        let mut literals = vec![1; count];
        if count > 1 && random.once_in(2) {
            literals[random.below(count)] = -1;
        }
        Draft {
            variables: random.between(1, 3),
            clauses: vec![literals],
        }
    };
    (draft(share), draft(other))
}

/// What the share leaves of the limit, or one less or more.
fn near(random: &mut Random, limit: usize, share: usize) -> usize {
    let rest = limit - share;
    let near = random.pick(&[rest.saturating_sub(1), rest, rest, rest + 1, rest + 1]);
    near.min(limit)
}
