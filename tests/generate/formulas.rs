//! Random formulas of several kinds, as lists of clauses and as texts.

use crate::random::Random;
use crate::repeats;

pub struct Draft {
    pub variables: usize,
    pub clauses: Vec<Vec<i32>>,
}

/// A formula with this many variables.
pub fn draft(random: &mut Random, variables: usize) -> Draft {
    let mut clauses = Vec::new();
    if variables > 0 {
        match random.below(10) {
            0 => short_clauses(random, variables, &mut clauses),
            1 | 2 => implications_without_cycles(random, variables, &mut clauses),
            3 => cycles(random, variables, &mut clauses),
            4 => exactly_one_groups(random, variables, &mut clauses),
            5 => chain(random, variables, &mut clauses),
            6 => failing(random, variables, &mut clauses),
            7 => {
                implications_without_cycles(random, variables, &mut clauses);
                long_clauses(random, variables, &mut clauses);
                long_clauses(random, variables, &mut clauses);
            }
            8 => repeats::by_classes(random, variables, &mut clauses),
            _ => {
                implications_without_cycles(random, variables, &mut clauses);
                short_clauses(random, variables, &mut clauses);
            }
        }
        if random.once_in(2) {
            long_clauses(random, variables, &mut clauses);
        }
        if random.once_in(4) {
            units(random, variables, &mut clauses);
        }
        if random.once_in(4) {
            repeat_literals(random, &mut clauses);
        }
        if random.once_in(5) {
            tautologies(random, variables, &mut clauses);
        }
        if random.once_in(5) && !clauses.is_empty() {
            let again = clauses[random.below(clauses.len())].clone();
            clauses.push(again);
        }
        if random.once_in(2) {
            random.shuffle(&mut clauses);
        }
        if random.once_in(6) {
            repeats::written(random, variables, &mut clauses);
        }
    }
    if random.once_in(25) {
        let place = random.below(clauses.len() + 1);
        clauses.insert(place, vec![]);
    }
    Draft { variables, clauses }
}

pub fn literal(random: &mut Random, variables: usize) -> i32 {
    let variable = random.between(1, variables) as i32;
    if random.once_in(2) {
        variable
    } else {
        -variable
    }
}

/// A clause of different variables, of this length if there are enough.
pub fn clause(random: &mut Random, variables: usize, length: usize) -> Vec<i32> {
    let mut clause: Vec<i32> = Vec::new();
    while clause.len() < length.min(variables) {
        let next = literal(random, variables);
        if !clause.contains(&next) && !clause.contains(&-next) {
            clause.push(next);
        }
    }
    clause
}

/// Random clauses of two and three literals.
fn short_clauses(random: &mut Random, variables: usize, clauses: &mut Vec<Vec<i32>>) {
    let share_of_two = random.between(1, 4);
    for _ in 0..random.between(1, 2 * variables + 1) {
        let length = if random.below(4) < share_of_two { 2 } else { 3 };
        clauses.push(clause(random, variables, length));
    }
}

/// Each literal has a rank, its complement the negated rank, and implications
/// lead to higher ranks only. So there is no cycle, but a literal may imply
/// its complement.
fn implications_without_cycles(random: &mut Random, variables: usize, clauses: &mut Vec<Vec<i32>>) {
    let mut ranks: Vec<i32> = (1..=variables as i32).collect();
    random.shuffle(&mut ranks);
    // With most ranks of one sign, few literals imply their complements.
    let share_of_negative = random.pick(&[0, 1, 2, 5]);
    for rank in &mut ranks {
        if random.below(10) < share_of_negative {
            *rank = -*rank;
        }
    }
    let rank_of = |l: i32| {
        let rank = ranks[l.unsigned_abs() as usize - 1];
        if l > 0 {
            rank
        } else {
            -rank
        }
    };
    let keep_signs = random.below(10);
    for _ in 0..random.between(1, 3 * variables) {
        let mut from = literal(random, variables);
        let mut to = literal(random, variables);
        if random.below(10) < keep_signs {
            from = if rank_of(from) > 0 { from } else { -from };
            to = if rank_of(to) > 0 { to } else { -to };
        }
        if from.abs() == to.abs() {
            continue;
        }
        if rank_of(from) > rank_of(to) {
            std::mem::swap(&mut from, &mut to);
        }
        let mut implication = vec![-from, to];
        random.shuffle(&mut implication);
        clauses.push(implication);
    }
}

/// Rings of implications, so that literals reach each other, and a few more
/// implications between the rings.
fn cycles(random: &mut Random, variables: usize, clauses: &mut Vec<Vec<i32>>) {
    let mut order: Vec<i32> = (1..=variables as i32).collect();
    random.shuffle(&mut order);
    for variable in &mut order {
        if random.once_in(2) {
            *variable = -*variable;
        }
    }
    let mut rest = &order[..];
    while !rest.is_empty() {
        let length = random.between(1, rest.len().min(5));
        let ring = &rest[..length];
        if length > 1 {
            for place in 0..length {
                clauses.push(vec![-ring[place], ring[(place + 1) % length]]);
            }
        }
        rest = &rest[length..];
    }
    for _ in 0..random.below(variables + 1) {
        clauses.push(clause(random, variables, 2));
    }
    for _ in 0..random.below(variables + 1) {
        clauses.push(clause(random, variables, 3));
    }
}

/// Exactly one literal of a group is true.
fn exactly_one_groups(random: &mut Random, variables: usize, clauses: &mut Vec<Vec<i32>>) {
    for _ in 0..random.between(1, 2) {
        let size = random.between(2, 6);
        let group = clause(random, variables, size);
        clauses.push(group.clone());
        for (index, a) in group.iter().enumerate() {
            for b in &group[index + 1..] {
                clauses.push(vec![-a, -b]);
            }
        }
    }
}

/// A long line of implications with short cuts.
fn chain(random: &mut Random, variables: usize, clauses: &mut Vec<Vec<i32>>) {
    let mut order: Vec<i32> = (1..=variables as i32).collect();
    random.shuffle(&mut order);
    for variable in &mut order {
        if random.once_in(3) {
            *variable = -*variable;
        }
    }
    for pair in order.windows(2) {
        clauses.push(vec![-pair[0], pair[1]]);
    }
    for _ in 0..random.below(variables + 1) {
        let a = random.below(variables);
        let b = random.below(variables);
        if a != b {
            clauses.push(vec![-order[a.min(b)], order[a.max(b)]]);
        }
    }
}

/// A line of implications from a literal to its complement, and clauses of
/// two with any of its literals.
fn failing(random: &mut Random, variables: usize, clauses: &mut Vec<Vec<i32>>) {
    let length = random.between(1, variables.min(6));
    let line = clause(random, variables, length);
    let mut from = -line[0];
    for to in line[1..].iter().chain(&line[..1]) {
        if *to != -from {
            clauses.push(vec![-from, *to]);
        }
        from = *to;
    }
    for _ in 0..random.below(variables + 1) {
        let other = literal(random, variables);
        let l = random.pick(&line);
        if other.abs() != l.abs() {
            clauses.push(vec![l, other]);
        }
    }
    if random.once_in(2) {
        random.shuffle(clauses);
    }
}

fn long_clauses(random: &mut Random, variables: usize, clauses: &mut Vec<Vec<i32>>) {
    for _ in 0..random.between(1, variables.min(20)) {
        let length = random.between(3, 7);
        clauses.push(clause(random, variables, length));
    }
}

fn units(random: &mut Random, variables: usize, clauses: &mut Vec<Vec<i32>>) {
    for _ in 0..random.between(1, 2) {
        clauses.push(vec![literal(random, variables)]);
    }
}

fn repeat_literals(random: &mut Random, clauses: &mut [Vec<i32>]) {
    for clause in clauses {
        if clause.len() > 0 && random.once_in(3) {
            let again = clause[random.below(clause.len())];
            let place = random.below(clause.len() + 1);
            clause.insert(place, again);
        }
    }
}

fn tautologies(random: &mut Random, variables: usize, clauses: &mut Vec<Vec<i32>>) {
    for _ in 0..random.between(1, 2) {
        let length = random.between(1, 4);
        let mut both = clause(random, variables, length);
        both.push(-both[0]);
        random.shuffle(&mut both);
        clauses.push(both);
    }
}

/// The formula as a text of the plainest kind.
pub fn plain_text(draft: &Draft) -> Vec<u8> {
    let mut text = format!("p cnf {} {}\n", draft.variables, draft.clauses.len());
    for clause in &draft.clauses {
        for literal in clause {
            text.push_str(&format!("{literal} "));
        }
        text.push_str("0\n");
    }
    text.into_bytes()
}

/// The formula as a text with comments and with any separators.
pub fn odd_text(random: &mut Random, draft: &Draft) -> Vec<u8> {
    let mut text = Vec::new();
    for _ in 0..random.below(3) {
        comment(random, &mut text);
    }
    text.extend_from_slice(format!("p cnf {} {}", draft.variables, draft.clauses.len()).as_bytes());
    if draft.clauses.is_empty() && random.once_in(2) {
        return text;
    }
    text.push(b'\n');
    for clause in &draft.clauses {
        for literal in clause {
            text.extend_from_slice(literal.to_string().as_bytes());
            separators(random, &mut text);
        }
        text.push(b'0');
        separators(random, &mut text);
    }
    if random.once_in(3) {
        while text.last().is_some_and(|b| b" \t\r\n".contains(b)) && !draft.clauses.is_empty() {
            text.pop();
        }
    }
    text
}

/// A line that begins with `c`, of any bytes.
pub fn comment(random: &mut Random, text: &mut Vec<u8>) {
    text.push(b'c');
    for _ in 0..random.below(12) {
        let byte = random.below(256) as u8;
        if byte != b'\n' {
            text.push(byte);
        }
    }
    text.push(b'\n');
}

fn separators(random: &mut Random, text: &mut Vec<u8>) {
    loop {
        text.push(random.pick(b"  \t\r\n\n"));
        if !random.once_in(4) {
            return;
        }
    }
}
