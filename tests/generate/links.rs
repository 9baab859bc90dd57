//! Links for joins: good ones, and such as a join refuses.

use crate::random::Random;

/// So many good pairs between the variables 1 to `left` and 1 to `right`: of equal
/// numbers, crossed or any.
pub fn pairs(random: &mut Random, left: usize, right: usize, count: usize) -> Vec<u32> {
    let mut lefts: Vec<u32> = (1..=left as u32).collect();
    let mut rights: Vec<u32> = (1..=right as u32).collect();
    match random.below(5) {
        0 => {}
        1 => rights.reverse(),
        _ => {
            random.shuffle(&mut lefts);
            random.shuffle(&mut rights);
        }
    }
    let mut pairs: Vec<[u32; 2]> = lefts.iter().zip(&rights).map(|(l, r)| [*l, *r]).collect();
    pairs.truncate(count);
    if random.once_in(3) {
        random.shuffle(&mut pairs);
    }
    pairs.concat()
}

/// Good links: none, some, or as many as there can be.
pub fn good(random: &mut Random, left: usize, right: usize) -> Vec<u32> {
    let most = left.min(right);
    let some = random.between(0, most);
    let count = random.pick(&[0, most.min(1), some, some, some, most, most]);
    pairs(random, left, right, count)
}

/// Links that a join refuses, save by chance.
pub fn wrong(random: &mut Random, left: usize, right: usize) -> Vec<u32> {
    let mut links = good(random, left, right);
    match random.below(8) {
        0 | 1 => leave_over(random, left, &mut links),
        2 => add_pair(random, left, right, &mut links),
        _ => {
            if links.is_empty() {
                links = vec![left.min(1) as u32, right.min(1) as u32];
            }
            for _ in 0..random.pick(&[1, 1, 1, 2]) {
                spoil(random, left, right, &mut links);
            }
            if random.once_in(10) {
                leave_over(random, left, &mut links);
            }
        }
    }
    links
}

/// A number without a right variable, at the end.
fn leave_over(random: &mut Random, left: usize, links: &mut Vec<u32>) {
    if !links.is_empty() && random.once_in(2) {
        links.pop();
    } else {
        links.push(random.pick(&[0, 1, left as u32, left as u32 + 1, u32::MAX]));
    }
}

/// A pair somewhere, of which one number may stand there before.
fn add_pair(random: &mut Random, left: usize, right: usize, links: &mut Vec<u32>) {
    let pair = [
        random.between(0, left + 1) as u32,
        random.between(0, right + 1) as u32,
    ];
    let place = 2 * random.between(0, links.len() / 2);
    links.splice(place..place, pair);
}

/// One number is 0, past the variables, far past them, or another of its side.
fn spoil(random: &mut Random, left: usize, right: usize, links: &mut [u32]) {
    let place = random.below(links.len());
    let on_its_side = links.len().div_ceil(2) - 1;
    let other = (2 * random.between(0, on_its_side) + place % 2).min(links.len() - 1);
    let variables = if place % 2 == 0 { left } else { right };
    let past = variables as u32 + 1;
    links[place] = match random.below(8) {
        0 | 1 => 0,
        2 => past,
        // The other side may have more variables.
        3 => left.max(right) as u32,
        // In fewer bits it would be a variable.
        4 => links[place] | random.pick(&[1 << 8, 1 << 16, 1 << 31]),
        5 => random.pick(&[1_024, 1_025, 1 << 31, u32::MAX]),
        _ => links[other],
    };
}
