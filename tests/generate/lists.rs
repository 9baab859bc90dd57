//! Lists of literals for Stamp, good ones and wrong ones.

use crate::random::Random;
use crate::run::order;

/// All 2V literals: mostly in any order, else in that of a round, often the
/// first round, or in its reverse.
pub fn permutation(random: &mut Random, variables: usize) -> Vec<i32> {
    let turned = random.below(10) as u32;
    let turn = random.pick(&[0, turned]);
    let mut list = order(variables, turn);
    match random.below(8) {
        0 | 1 => {}
        2 => list.reverse(),
        _ => random.shuffle(&mut list),
    }
    list
}

/// A list that Stamp refuses, save by chance.
pub fn wrong(random: &mut Random, variables: usize) -> Vec<i32> {
    let mut list = permutation(random, variables);
    match random.below(8) {
        0 => {
            list.pop();
        }
        1 => list.push(1),
        2 => list.clear(),
        3 => list.extend_from_slice(&list.clone()),
        _ => {
            for _ in 0..random.between(1, 3) {
                spoil_entry(random, variables, &mut list);
            }
        }
    }
    list.truncate(4_096);
    list
}

fn spoil_entry(random: &mut Random, variables: usize, list: &mut [i32]) {
    if list.is_empty() {
        return;
    }
    let index = random.below(list.len());
    let other = list[random.below(list.len())];
    let past = variables as i32 + 1;
    list[index] = random.pick(&[
        0,
        past,
        -past,
        i32::MIN,
        i32::MAX,
        other,
        other,
        -list[index],
    ]);
}
