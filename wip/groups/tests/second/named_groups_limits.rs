//! Named cases of groups on all 1,024 variables and on 4,096 clauses. A long text is
//! looked at by its length alone, which the refusal of an output of 0 bytes tells.

use crate::named::Case;

pub fn cases() -> Vec<Case> {
    vec![
        of_one_variable(),
        in_no_clause(),
        in_one_clause(),
        along_a_chain(),
        far_apart(),
        odd_and_even(),
        first_and_last(),
        of_4096_clauses(),
    ]
}

fn case(name: &'static str, text: String, calls: &str, prints: String) -> Case {
    Case {
        name,
        text: text.into_bytes(),
        calls: calls.to_string(),
        prints,
    }
}

/// The line of these numbers.
fn line(numbers: impl Iterator<Item = usize>) -> String {
    let words: Vec<String> = numbers.map(|n| n.to_string()).collect();
    format!("{}\n", words.join(" "))
}

/// The units 1, -2, 3, .., -1024.
fn of_one_variable() -> Case {
    let sign = |v: usize| if v % 2 == 1 { "" } else { "-" };
    let units: String = (1..=1_024).map(|v| format!("{}{v} 0\n", sign(v))).collect();
    case(
        "groups-1024-of-one-variable",
        format!("p cnf 1024 1024\n{units}"),
        "groups 0\ngroups 1023\ngroups 1024\ngroup 0 99\ngroup 1 13\ngroup 1 14\ngroup 512 99\ngroup 1023 99\ngroup 1024 14\ngroup 1024 15\ngroup 1025 99\ngroup 4294967295 99\n",
        format!(
            "loaded 1024 1024 0\nrefused 10 1024\nrefused 10 1024\ngroups 1024\n{}refused 17 0\nrefused 10 14\nwritten 14\np cnf 1 1\n1 0\nwritten 15\np cnf 1 1\n-1 0\nwritten 14\np cnf 1 1\n1 0\nrefused 10 15\nwritten 15\np cnf 1 1\n-1 0\nrefused 17 0\nrefused 17 0\n",
            line(1..=1_024)
        ),
    )
}

fn in_no_clause() -> Case {
    let zeros = line((0..1_024).map(|_| 0));
    case(
        "groups-1024-in-no-clause",
        "p cnf 1024 0\n".to_string(),
        "groups 0\ngroups 1023\ngroups 1040\ngroup 1 0\n",
        format!(
            "loaded 1024 0 0\nrefused 10 1024\nrefused 10 1024\ngroups 0\n{zeros}refused 17 0\n"
        ),
    )
}

/// Its text is that of the whole: a header of 13 bytes, 4,013 bytes of literals, `0`
/// and LF.
fn in_one_clause() -> Case {
    let falling: String = (1..=1_024).rev().map(|v| format!("{v} ")).collect();
    case(
        "groups-1024-in-one-clause",
        format!("p cnf 1024 1\n{falling}0\n"),
        "groups 1024\ngroup 1 0\ngroup 1 4027\nwrite 0\ngroup 2 0\n",
        format!(
            "loaded 1024 1 0\ngroups 1\n{}refused 10 4028\nrefused 10 4028\nrefused 10 4028\nrefused 17 0\n",
            line((0..1_024).map(|_| 1))
        ),
    )
}

/// Each shares a variable with the next, the pairs of the first half in rising order,
/// those of the other half in falling order.
fn along_a_chain() -> Case {
    let pairs = (1..512).chain((512..1_024).rev());
    let pairs: String = pairs.map(|v| format!("{} {v} 0\n", v + 1)).collect();
    case(
        "groups-chain-of-1024",
        format!("p cnf 1024 1023\n{pairs}"),
        "groups 1024\ngroup 1 0\nwrite 0\n",
        format!(
            "loaded 1024 1023 0\ngroups 1\n{}refused 10 10081\nrefused 10 10081\n",
            line((0..1_024).map(|_| 1))
        ),
    )
}

/// Each variable with the one 512 places on, the last pair first.
fn far_apart() -> Case {
    let pairs: String = (1..=512)
        .rev()
        .map(|v| format!("{v} -{} 0\n", v + 512))
        .collect();
    case(
        "groups-512-of-two-variables",
        format!("p cnf 1024 512\n{pairs}"),
        "groups 1024\ngroup 1 99\ngroup 512 17\ngroup 513 99\n",
        format!(
            "loaded 1024 512 0\ngroups 512\n{}written 17\np cnf 2 1\n1 -2 0\nwritten 17\np cnf 2 1\n1 -2 0\nrefused 17 0\n",
            line((1..=512).chain(1..=512))
        ),
    )
}

/// A clause of all odd variables and one of all complements of even ones, both from
/// the last to the first.
fn odd_and_even() -> Case {
    let falling = |from: i32, sign: i32| {
        let literals = (0..512).map(|k| format!("{} ", sign * (from - 2 * k)));
        format!("{}0\n", literals.collect::<String>())
    };
    let renumbered = |sign: i32| {
        let literals = (1..=512).rev().map(|v| format!("{} ", sign * v));
        format!("p cnf 512 1\n{}0\n", literals.collect::<String>())
    };
    let (odd, even) = (renumbered(1), renumbered(-1));
    case(
        "groups-two-of-512-variables",
        format!("p cnf 1024 2\n{}{}", falling(1_024, -1), falling(1_023, 1)),
        "groups 1024\ngroup 1 1953\ngroup 1 1954\ngroup 2 2466\n",
        format!(
            "loaded 1024 2 0\ngroups 2\n{}refused 10 1954\nwritten 1954\n{odd}written 2466\n{even}",
            line((1..=1_024).map(|v| if v % 2 == 1 { 1 } else { 2 }))
        ),
    )
}

/// 1 and 1024 are one group, 1023 is the other.
fn first_and_last() -> Case {
    let number = |v| match v {
        1 | 1_024 => 1,
        1_023 => 2,
        _ => 0,
    };
    case(
        "groups-first-and-last-variable",
        "p cnf 1024 2\n-1023 0\n1024 -1 0\n".to_string(),
        "groups 1024\ngroup 1 99\ngroup 2 99\n",
        format!(
            "loaded 1024 2 0\ngroups 2\n{}written 17\np cnf 2 1\n2 -1 0\nwritten 15\np cnf 1 1\n-1 0\n",
            line((1..=1_024).map(number))
        ),
    )
}

/// Of each group a header of 13 bytes and 2,048 units are written.
fn of_4096_clauses() -> Case {
    case(
        "groups-4096-clauses",
        format!("p cnf 2 4096\n{}", "1 0 -2 0 ".repeat(2_048)),
        "groups 2\ngroup 1 8204\ngroup 1 0\ngroup 2 0\ngroup 3 0\n",
        "loaded 2 4096 0\ngroups 2\n1 2\nrefused 10 8205\nrefused 10 8205\nrefused 10 10253\nrefused 17 0\n"
            .to_string(),
    )
}
