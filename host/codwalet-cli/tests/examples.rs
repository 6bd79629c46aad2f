//! Runs the command line on each plan in examples/ and compares all that it prints and draws with examples/expected.

mod common;

use codwalet::{Gets, Kind, Weighted};
use common::{CSV, codwalet, empty_folder, files_in, folder_with};
use std::path::{Path, PathBuf};

fn examples() -> PathBuf {
    Path::new(env!("CARGO_MANIFEST_DIR")).join("../../examples")
}

fn expected(file: &str) -> String {
    let path = examples().join("expected").join(file);
    std::fs::read_to_string(&path).unwrap_or_else(|why| panic!("{}: {why}", path.display()))
}

fn plans() -> Vec<String> {
    files_in(&examples()).iter().filter_map(|file| file.strip_suffix(".plan").map(str::to_string)).collect()
}

/// Runs a plan in an empty folder, compares what it prints with a stored file and what it draws with stored pictures.
fn run(plan: &str, words: &[&str], stored: &str) {
    let folder = empty_folder(&format!("examples-{stored}"));
    let path = examples().join(format!("{plan}.plan"));
    let ended = codwalet(&folder, &[&["run", &path.to_string_lossy()], words].concat());
    assert_eq!((ended.status, ended.err.as_str()), (Some(0), ""), "{plan}");
    assert!(ended.out == expected(stored), "{plan} prints other than examples/expected/{stored}:\n{}", ended.out);

    let pictures: Vec<String> = files_in(&examples().join("expected"))
        .into_iter()
        .filter(|file| file.ends_with(".svg") && file.starts_with(plan))
        .collect();
    assert_eq!(files_in(&folder), pictures, "{plan}");
    for picture in pictures {
        let drawn = std::fs::read_to_string(folder.join(&picture)).expect("the picture is read");
        assert!(drawn == expected(&picture), "{plan} draws other than examples/expected/{picture}");
    }
}

#[test]
fn plans_answer_as_stored() {
    assert_eq!(plans(), ["islands", "slices", "tie", "two-areas"]);
    for plan in plans() {
        run(&plan, &[], &format!("{plan}.txt"));
        run(&plan, &["--json"], &format!("{plan}.json"));
    }
}

/// The names of fields in a text of JSON objects.
fn names(json: &str) -> impl Iterator<Item = &str> {
    json.split("\":").filter_map(|before| before.rsplit('"').next()).filter(|name| !name.contains('}'))
}

/// All kinds of JSON objects: the answers of the examples, notes, refusals, and maps by themselves.
fn all_json() -> String {
    let files: [(&str, &[u8]); 3] = [
        ("it.csv", CSV.as_bytes()),
        ("bad.map", &[33]),
        ("it.plan", b"map it.csv\ngrant 1 area 8\ngrant 0 area 7\ncancel 2\nmap bad.map\n"),
    ];
    let folder = folder_with("examples-json", &files);
    let mut json: String = plans().iter().map(|plan| expected(&format!("{plan}.json"))).collect();
    for words in [&["run", "it.plan"][..], &["map", "show", "it.csv"], &["map", "show", "bad.map"]] {
        json += &codwalet(&folder, &[words, &["--json"]].concat()).out;
    }
    json
}

/// What planners read.
const PLANS: &str = include_str!("../../../docs/PLANS.md");

/// All but 7 and 8, which a plan can't meet.
#[test]
fn refusals_are_listed_for_planners() {
    for (number, words) in codwalet::raw::REFUSALS.iter().filter(|(number, _)| ![7, 8].contains(number)) {
        let row = format!("| {number} | {words} |");
        assert!(PLANS.contains(&row), "docs/PLANS.md lacks {row}");
    }
}

#[test]
fn names_of_json_fields_are_explained() {
    let json = all_json();
    for name in names(&json) {
        assert!(PLANS.contains(&format!("`{name}`")), "docs/PLANS.md lacks `{name}`");
    }
    for name in ["line", "note", "reason", "byte", "accepted", "cells", "width", "mhz_pops"] {
        assert!(names(&json).any(|other| other == name), "no object has `{name}`");
    }
}

/// In the row of its call stands each field that an answer of the examples has, beside `line` and `call`.
#[test]
fn fields_of_a_call_are_in_its_row() {
    let answers: String = plans().iter().map(|plan| expected(&format!("{plan}.json"))).collect();
    for answer in answers.lines().filter(|answer| !answer.contains("\"refusal\":")) {
        let call = answer.split('"').nth(5).expect("the call follows the line");
        let row = PLANS.lines().find(|line| line.starts_with(&format!("| {call} |"))).expect("the call has a row");
        for name in names(answer).filter(|name| !["line", "call"].contains(name)) {
            assert!(row.contains(&format!("`{name}`")), "docs/PLANS.md lacks `{name}` in the row of {call}");
        }
    }
}

#[test]
fn values_of_json_fields_are_explained() {
    let kinds = [Kind::Exact, Kind::RoundedUp, Kind::OnePart].map(Kind::words);
    let gets = [Gets::Nothing, Gets::Whole, Gets::RoundedUp, Gets::Share(Weighted(1))].map(Gets::words);
    for words in kinds.iter().chain(&gets) {
        assert!(PLANS.contains(&format!("`{words}`")), "docs/PLANS.md lacks `{words}`");
    }
}

#[test]
fn a_built_map_is_shown_as_its_csv() {
    let folder = empty_folder("examples-built");
    let csv = examples().join("two-areas.csv");
    let built = codwalet(&folder, &["map", "build", &csv.to_string_lossy(), "two-areas.map"]);
    assert_eq!((built.status, built.err.as_str()), (Some(0), ""));
    let from_map = codwalet(&folder, &["map", "show", "two-areas.map"]);
    let from_csv = codwalet(&folder, &["map", "show", &csv.to_string_lossy()]);
    assert_eq!(from_map, from_csv);
    assert_eq!(from_map.out, expected("two-areas.areas.txt"));
}

#[test]
fn help_fits_a_terminal() {
    let help = codwalet(&empty_folder("examples-help"), &["--help"]);
    assert_eq!(help.status, Some(0));
    assert!(help.out.lines().count() <= 24 && help.out.lines().all(|line| line.chars().count() <= 80));
    assert!(help.out.contains("Example: codwalet run"));
}
