//! The constants of this crate are those of include/grouping.h, name by name.

use std::collections::BTreeMap;

use grouping_core::*;

/// `GROUPING_NAME = number` of every line that has one.
fn of_the_header() -> BTreeMap<String, u64> {
    let header = include_str!("../../include/grouping.h");
    let constant = |line: &str| {
        let (name, rest) = line.trim().strip_prefix("GROUPING_")?.split_once(" = ")?;
        let digits = rest.split(|c: char| !c.is_ascii_digit()).next()?;
        Some((name.to_string(), digits.parse().ok()?))
    };
    header.lines().filter_map(constant).collect()
}

fn of_the_crate() -> BTreeMap<String, u64> {
    let mut constants = BTreeMap::new();
    let mut put = |name: String, number: u64| assert!(constants.insert(name, number).is_none());
    for (name, number) in [
        ("FILE", MOST_FILE as u64),
        ("PLACES", MOST_PLACES.into()),
        ("HEADS", MOST_HEADS.into()),
        ("REQUESTS", MOST_REQUESTS.into()),
        ("GRANTS", MOST_GRANTS.into()),
        ("ALLOWANCE", MOST_ALLOWANCE.into()),
        ("TABLE", MOST_TABLE as u64),
        ("REPORT", MOST_REPORT as u64),
        ("LINEUP", MOST_LINEUP as u64),
        ("LISTING", MOST_LISTING as u64),
        ("SHEET", MOST_SHEET as u64),
        ("ROWS", MOST_ROWS as u64),
        ("PAGE", MOST_PAGE as u64),
    ] {
        put(format!("MOST_{name}"), number);
    }
    for (name, number) in [
        ("PLAY", stack::PLAY),
        ("PLAY_LENT", stack::PLAY_LENT),
        ("WRITE", stack::WRITE),
        ("QUERY", stack::QUERY),
        ("LIST", stack::LIST),
        ("SHEET", stack::SHEET),
        ("PAGE", stack::PAGE),
        ("LIMITS", stack::LIMITS),
    ] {
        put(format!("STACK_{name}"), number as u64);
    }
    put("UNION".into(), UNION.into());
    put("SAME_SET".into(), SAME_SET.into());
    put("MAY_JOIN".into(), MAY_JOIN.into());
    put("MAY_ENQUIRE".into(), MAY_ENQUIRE.into());
    put("MAY_BOTH".into(), MAY_BOTH.into());
    put("SPENT".into(), Answer::Unfinished as u64);
    put("ACCEPTED".into(), 0);
    for answer in Answer::ALL {
        put(in_capitals(&format!("{answer:?}")), answer as u64);
    }
    for refusal in Refusal::ALL {
        put(format!("REFUSED_{}", in_capitals(&format!("{refusal:?}"))), refusal as u64);
    }
    constants
}

/// `FileTooLong` as FILE_TOO_LONG.
fn in_capitals(name: &str) -> String {
    let mut capitals = String::new();
    for letter in name.chars() {
        if letter.is_uppercase() && !capitals.is_empty() {
            capitals.push('_');
        }
        capitals.push(letter.to_ascii_uppercase());
    }
    capitals
}

#[test]
fn same_names_and_numbers() {
    assert_eq!(of_the_crate(), of_the_header());
}

/// Every number has its refusal and every refusal its words.
#[test]
fn refusals_by_number() {
    for number in 1..=20 {
        let refusal = Refusal::of(number).expect("1 to 20 are refusals");
        assert!(refusal.to_string().starts_with(&format!("refused {number}: ")));
    }
    assert_eq!((Refusal::of(0), Refusal::of(21)), (None, None));
}
