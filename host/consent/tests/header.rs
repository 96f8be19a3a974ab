//! The wrapper's numbers and those of `include/consent.h` are the same, by name and value; and `host/c/numbers.c`,
//! which holds the header to the library by calling it, leaves none of them out.

use std::collections::BTreeMap;

const HEADER: &str = include_str!("../../../include/consent.h");
const WRAPPER: &str = include_str!("../src/numbers.rs");
const HELD_BY_CALLS: &str = include_str!("../../c/numbers.c");

/// The prefix of every name in the header.
const PREFIX: &str = "CONSENT_";

type Numbers = BTreeMap<String, u64>;

/// Adds a name with what its text comes to: numbers and names, products of them, and a sum of those.
fn define(numbers: &mut Numbers, name: &str, text: &str) {
    let (mut total, mut product) = (0, 1);
    let text = text.trim().replace(PREFIX, "");
    let bare = text.strip_prefix('(').and_then(|text| text.strip_suffix(')')).unwrap_or(&text);
    for word in bare.split_whitespace() {
        match word {
            "+" => (total, product) = (total + product, 1),
            "*" => {}
            _ => product *= word.parse().unwrap_or_else(|_| value_of(numbers, word)),
        }
    }
    let twice = numbers.insert(name.to_string(), total + product);
    assert_eq!(twice, None, "{name} stands twice");
}

fn value_of(numbers: &Numbers, name: &str) -> u64 {
    *numbers.get(name).unwrap_or_else(|| panic!("{name} is no number so far"))
}

/// Every `#define` of the header that has a value.
fn header() -> Numbers {
    let mut numbers = Numbers::new();
    for line in HEADER.lines() {
        let Some((name, text)) = line.strip_prefix("#define ").and_then(|line| line.split_once(' ')) else {
            continue;
        };
        define(&mut numbers, name.strip_prefix(PREFIX).expect("every name has the prefix"), text);
    }
    numbers
}

/// Every constant of the wrapper.
fn wrapper() -> Numbers {
    let mut numbers = Numbers::new();
    for line in WRAPPER.lines() {
        let Some((name, rest)) = line.strip_prefix("pub const ").and_then(|line| line.split_once(':')) else {
            continue;
        };
        let (_, text) = rest.split_once('=').expect("a value on the same line");
        define(&mut numbers, name, text.trim_end_matches(';'));
    }
    numbers
}

/// The words of a text that could be names.
fn names(text: &str) -> Vec<&str> {
    text.split(|letter: char| !letter.is_ascii_alphanumeric() && letter != '_').collect()
}

#[test]
fn the_wrapper_has_the_headers_numbers() {
    assert_eq!(wrapper(), header());
}

/// The sums and products above are worked out as the compilers do.
#[test]
fn the_texts_come_to_what_the_compiler_says() {
    let numbers = wrapper();
    assert_eq!(value_of(&numbers, "BOOK_WORDS"), consent::numbers::BOOK_WORDS as u64);
    assert_eq!(value_of(&numbers, "LONGEST_GOSSIP"), consent::numbers::LONGEST_GOSSIP as u64);
    assert_eq!(value_of(&numbers, "BIT_OF_FRONT_END"), u64::from(consent::numbers::BIT_OF_FRONT_END));
}

#[test]
fn every_number_is_held_by_calls() {
    let held = names(HELD_BY_CALLS);
    for name in header().keys() {
        assert!(held.contains(&format!("{PREFIX}{name}").as_str()), "numbers.c leaves {name} out");
    }
}
