//! The crate's sizes and words are those of include/knobharbor.h.
use knobharbor::{CableReader, Refusal, Tables, LARGEST_BUDGET, LARGEST_CUTOFF, USUAL_CUTOFF};
use std::mem::size_of;

const HEADER: &str = include_str!("../../../include/knobharbor.h");

fn defined(name: &str) -> usize {
    let line = HEADER.lines().find_map(|l| l.strip_prefix(&format!("#define KNOBHARBOR_{name} ")));
    line.and_then(|value| value.trim().parse().ok()).unwrap_or_else(|| panic!("the header has no number for {name}"))
}

#[test]
fn tables_are_as_large() {
    let size = |name| defined(name);
    let bytes = 8 * (size("WORDS") + size("REALS") + size("CELLS")) + 2 * size("CELLS") + size("BYTES");
    assert_eq!(size_of::<Tables>(), bytes.next_multiple_of(8));
    assert_eq!(usize::from(LARGEST_BUDGET), size("LARGEST_BUDGET"));
    assert_eq!(size_of::<CableReader>(), size("CABLE"));
}

#[test]
fn cutoffs_are_the_same() {
    for (name, cutoff) in [("USUAL", USUAL_CUTOFF), ("LARGEST", LARGEST_CUTOFF)] {
        assert!(HEADER.contains(&format!("#define KNOBHARBOR_{name}_CUTOFF {cutoff:e}\n")));
    }
}

#[test]
fn the_version_is_the_same() {
    assert!(HEADER.contains(&format!("#define KNOBHARBOR_VERSION \"{}\"", env!("CARGO_PKG_VERSION"))));
}

#[test]
fn refusals_have_the_same_words() {
    let (_, table) = HEADER.split_once("words[] = {").expect("the header has words");
    let words: Vec<&str> = table.split("};").next().unwrap().split('"').skip(1).step_by(2).collect();
    let all = [
        Refusal::NotFinite,
        Refusal::NegativeStrength,
        Refusal::TooManyTerms,
        Refusal::DuplicateConstraint,
        Refusal::UnknownConstraint,
        Refusal::DuplicateEditVariable,
        Refusal::BadRequiredStrength,
        Refusal::UnknownEditVariable,
        Refusal::TooManyVariables,
        Refusal::TooManyConstraints,
        Refusal::IdsUsedUp,
        Refusal::UnsatisfiableConstraint,
        Refusal::ArithmeticNotFinite,
        Refusal::BudgetUsedUp,
        Refusal::NoLeavingRow,
        Refusal::NoEnteringSymbol,
        Refusal::NoMarkerRow,
        Refusal::TablesDoNotRead,
        Refusal::LineTooLong,
        Refusal::LineNotInGrammar,
        Refusal::LineTooDeep,
        Refusal::LineTooLarge,
        Refusal::LineTooManyVariables,
        Refusal::CutoffOutOfRange,
        Refusal::TooManyGone,
        Refusal::GroupZero,
        Refusal::EmptyGroup,
    ];
    assert_eq!(words.len(), all.len() + 1);
    for (i, refusal) in all.into_iter().enumerate() {
        assert_eq!((refusal.number() as usize, refusal.words()), (i + 1, words[i + 1]));
    }
    let apart = [
        ("LINE_OVER", Refusal::CableLineTooLong),
        ("LINE_UNENDED", Refusal::LineUnended),
        ("LINE_STRENGTH", Refusal::LineStrengthOutOfRange),
        ("LINE_GROUP", Refusal::LineGroupOutOfRange),
        ("LINE_UNSAID", Refusal::LineCannotSay),
    ];
    for (name, refusal) in apart {
        assert!(HEADER.contains(&format!("KNOBHARBOR_{name} = {}", refusal.number())));
        assert!(HEADER.contains(&format!("if (number == KNOBHARBOR_{name})\n        return \"{}\";", refusal.words())));
    }
}
