//! Refusals are those of include/jespurla_refusals.def.

use std::collections::HashSet;
use std::error::Error;

use jespurla::Refusal;

/// The lines of the list: number, name and text.
fn listed() -> Vec<(u32, String, String)> {
    let list = include_str!("../include/jespurla_refusals.def");
    let lines = list.lines().filter_map(|line| {
        let line = line
            .strip_prefix("JESPURLA_REFUSAL(")?
            .strip_suffix("\")")?;
        let (number, rest) = line.split_once(", ")?;
        let (name, text) = rest.split_once(", \"")?;
        Some((number.parse().ok()?, name.to_owned(), text.to_owned()))
    });
    lines.collect()
}

/// NameTooLong as NAME_TOO_LONG.
fn snake_case(name: &str) -> String {
    let mut snake = String::new();
    for letter in name.chars() {
        if letter.is_uppercase() && !snake.is_empty() {
            snake.push('_');
        }
        snake.extend(letter.to_uppercase());
    }
    snake
}

#[test]
fn every_line_is_a_variant() {
    let told = Refusal::ALL.iter().map(|refusal| {
        let name = snake_case(&format!("{refusal:?}"));
        (refusal.number(), name, refusal.text().to_owned())
    });
    assert_eq!(told.collect::<Vec<_>>(), listed());
    assert_eq!(Refusal::ALL.len(), 23);
}

#[test]
fn numbers_and_refusals_are_converted_both_ways() {
    let numbers: HashSet<u32> = listed().into_iter().map(|(number, ..)| number).collect();
    for number in 0..70_000 {
        let refusal = Refusal::try_from(number);
        assert_eq!(refusal.is_ok(), numbers.contains(&number));
        match refusal {
            Ok(refusal) => assert_eq!(u32::from(refusal), number),
            Err(unlisted) => assert_eq!(unlisted.number(), number),
        }
    }
}

#[test]
fn a_refusal_is_an_error_with_a_text() {
    let error: Box<dyn Error> = Refusal::Area.into();
    let text = error.to_string();
    assert_eq!(text, format!("refused 16: {}", Refusal::Area.text()));
    let unlisted = Refusal::try_from(0).expect_err("no refusal");
    let error: Box<dyn Error> = unlisted.into();
    assert_eq!(error.to_string(), "the number 0 is not listed");
}

#[test]
fn refusals_can_be_gathered_in_a_set() {
    let set: HashSet<Refusal> = Refusal::ALL.iter().copied().collect();
    assert_eq!(set.len(), Refusal::ALL.len());
}
