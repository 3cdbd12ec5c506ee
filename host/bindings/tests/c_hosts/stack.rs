//! The stack that an entry needs is what the header and README.md say.
use crate::building::{header, include_folder, printed, source, C99};
use std::fs::read_to_string;

/// The entries, each with the words before its figure in README.md.
const ENTRIES: [(&str, &str); 5] = [
    ("lvl_check_row", "a check takes"),
    ("lvl_strengths", "strengths"),
    ("lvl_pack_row", "packing"),
    ("lvl_check_floor_beam", "a floor beam"),
    ("lvl_check_sag", "a sag check"),
];

/// The figure after a word in a text, commas left out.
fn figure(text: &str, word: &str) -> usize {
    let (_, after) = text
        .split_once(word)
        .unwrap_or_else(|| panic!("no {word} in {text}"));
    let digits: String = after
        .trim_start()
        .chars()
        .take_while(|c| c.is_ascii_digit() || *c == ',')
        .filter(|c| *c != ',')
        .collect();
    digits.parse().unwrap()
}

/// What an entry reserves it need not touch to the last byte.
#[test]
fn no_more_than_the_header_says() {
    let touched = printed(&C99, "stack", &source("stack.c"));
    let header = header();
    let (_, stack) = header.split_once("Stack: ").expect("a paragraph on it");
    for (entry, _) in ENTRIES {
        let stated = figure(stack, entry);
        let touched = figure(&touched, entry);
        assert!(
            touched <= stated && stated < touched + 200,
            "{entry}: {touched} bytes, stated {stated}"
        );
    }
    let readme = read_to_string(include_folder().join("../README.md")).unwrap();
    let (_, readme) = readme
        .split_once("Any number of threads")
        .expect("a word on them");
    for (entry, word) in ENTRIES {
        assert_eq!(figure(readme, word), figure(stack, entry), "{entry}");
    }
}
