//! Random stamp records that meet the shape rule, whatever the formula.

use crate::random::Random;
use crate::tables::{literal_of, slot, StampRecord};

/// The intervals of a random forest over all 2V literals, with the parents
/// and starts that belong to them.
pub fn forest(random: &mut Random, variables: usize) -> Vec<StampRecord> {
    let mut waiting: Vec<i32> = (0..2 * variables).map(literal_of).collect();
    random.shuffle(&mut waiting);
    let depth = random.between(2, 6);
    let mut records = vec![StampRecord::default(); 2 * variables];
    let mut entered: Vec<i32> = Vec::new();
    for time in 1..=4 * variables as u32 {
        let enter = entered.is_empty() || (!waiting.is_empty() && random.below(depth) > 0);
        if enter {
            let literal = waiting.pop().unwrap();
            records[slot(literal)] = StampRecord {
                discovery: time,
                finish: 0,
                parent: entered.last().copied().unwrap_or(literal),
                start: entered.first().copied().unwrap_or(literal),
            };
            entered.push(literal);
        } else {
            let literal = entered.pop().unwrap();
            records[slot(literal)].finish = time;
        }
    }
    records
}
