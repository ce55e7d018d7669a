//! The table of refusals: the reasons of the crates, the wrapper's names and
//! the rows of docs/SCOPE.md have the same numbers.
#![cfg(feature = "engine")]

mod support;

use std::fs;
use support::repository;
use timetable::engine::REFUSALS;

fn file(path: &str) -> String {
    fs::read_to_string(repository().join(path)).expect(path)
}

/// `BAD_NUMBER` as the variant of an enum.
fn variant(name: &str) -> String {
    name.split('_')
        .map(|word| {
            let (first, rest) = word.split_at(1);
            first.to_owned() + &rest.to_lowercase()
        })
        .collect()
}

#[test]
fn the_reasons_of_the_crates_are_the_refusals() {
    let source = file("crates/scope/src/refusal.rt");
    let (_, reasons) = source
        .split_once("pub enum Reason {\n")
        .expect("the enum of reasons");
    let reasons: Vec<&str> = reasons
        .lines()
        .take_while(|line| *line != "}")
        .map(str::trim)
        .filter(|line| !line.starts_with("//"))
        .collect();
    let wanted: Vec<String> = REFUSALS
        .iter()
        .map(|facts| format!("{} = {},", variant(facts.name), facts.number))
        .collect();
    assert_eq!(reasons, wanted);
}

#[test]
fn the_table_of_the_scope_has_a_row_for_each_refusal() {
    let scope = file("docs/SCOPE.md");
    let (_, rows) = scope
        .split_once("| number | place | when | value |\n|---|---|---|---|\n")
        .expect("the table of refusals");
    let numbers: Vec<&str> = rows
        .lines()
        .map_while(|line| line.strip_prefix("| "))
        .filter_map(|row| row.split(" | ").next())
        .collect();
    let wanted: Vec<String> = REFUSALS
        .iter()
        .map(|facts| facts.number.to_string())
        .collect();
    assert_eq!(numbers, wanted);
}
