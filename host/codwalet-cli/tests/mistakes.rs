//! Mistakes in plans end with status 2, name file, line and word, and nothing is written; refusals are answers.

mod common;

use common::{CSV, Ended, codwalet, files_in, folder_with, rows};
use std::path::PathBuf;

/// Runs a plan beside a map and a broken CSV file.
fn run(name: &str, plan: &str) -> (PathBuf, Ended) {
    let bad_csv = CSV.replace("99.98W", "99.98N");
    let files: [(&str, &[u8]); 4] = [
        ("good.csv", CSV.as_bytes()),
        ("bad.csv", bad_csv.as_bytes()),
        ("bad.map", &[1, 7, 0, 1]),
        ("it.plan", plan.as_bytes()),
    ];
    let folder = folder_with(&format!("mistakes-{name}"), &files);
    let ended = codwalet(&folder, &["run", "it.plan"]);
    (folder, ended)
}

/// Wrong lines, and what is said of them. They stand on line 4 of a plan that would draw a picture.
const WRONG_LINES: &str = "\
grnt 5 area 7                  | 'grnt' is not map, grant, cancel, coverage, blocks, propose or footprint
Grant 5 area 7                 | 'Grant' is not map, grant, cancel, coverage, blocks, propose or footprint
grant                          | 'grant' must be followed by CALLSIGN
grant 5 # area 7               | '5' must be followed by area or box
grant 5 arae 7                 | 'arae' stands where area or box is due
grant 5 area 7#8               | NUMBER '7#8' is not an unsigned whole number
grant x area 7                 | CALLSIGN 'x' is not an unsigned whole number
grant -5 area 7                | CALLSIGN '-5' is not an unsigned whole number
grant 4294967296 area 7        | CALLSIGN '4294967296' is not within 0 to 4294967295
grant 5 area 65536             | NUMBER '65536' is not within 0 to 65535
grant 5 box 39N 40N 101W       | '101W' must be followed by EAST
grant 5 box 39E 40N 101W 100W  | SOUTH '39E' is a longitude where a latitude is due
grant 5 box 39N 40N 101W 100S  | EAST '100S' is a latitude where a longitude is due
cancel                         | 'cancel' must be followed by CALLSIGN
propose 4294967296             | DRAW '4294967296' is not within 0 to 4294967295
footprint 0 png x.png          | 'png' stands where svg or nothing is due
footprint 0 svg                | 'svg' must be followed by FILE
footprint 0 svg -              | FILE '-' is standard output, where the answers go
footprint 0 svg /dev/stdout    | FILE '/dev/stdout' is standard output, where the answers go
footprint 0 svg \"\"             | FILE '' is no name of a file
map none.map                   | map 'none.map' cannot be read: No such file or directory (os error 2)
map                            | 'map' must be followed by FILE
map \"good.csv                  | '\"good.csv' starts with a quote and none ends it
map \"good\".csv                | 'good' goes on behind its closing quote
";

/// Lines whose width is wrong or stands elsewhere than behind a ground.
const WRONG_WIDTHS: &str = "\
grant 5 area 7 8                               | '8' stands where width or nothing is due
grant 5 area 7 Width 20                        | 'Width' stands where width or nothing is due
grant 5 area 7 20 width                        | '20' stands where width or nothing is due
grant 5 width 20 area 7                        | 'width' stands where area or box is due
grant width 20 5 area 7                        | CALLSIGN 'width' is not an unsigned whole number
grant 5 area width 20                          | NUMBER 'width' is not an unsigned whole number
grant 5 area 7 width                           | 'width' must be followed by MHZ
grant 5 area 7 width # 20                      | 'width' must be followed by MHZ
grant 5 area 7 width x                         | MHZ 'x' is not an unsigned whole number
grant 5 area 7 width 20MHz                     | MHZ '20MHz' is not an unsigned whole number
grant 5 area 7 width 12.5                      | MHZ '12.5' is not an unsigned whole number
grant 5 area 7 width -1                        | MHZ '-1' is not an unsigned whole number
grant 5 area 7 width \"\"                        | MHZ '' is not an unsigned whole number
grant 5 area 7 width width                     | MHZ 'width' is not an unsigned whole number
grant 5 area 7 width 4294967296                | MHZ '4294967296' is not within 0 to 4294967295
grant 5 area 7 width 20 20                     | '20' is a word too many
grant 5 area 7 width 20 width 20               | 'width' is a word too many
grant 5 box 39N 40N 101W 100W 20               | '20' stands where width or nothing is due
grant 5 box 39N 40N 101W 100W width            | 'width' must be followed by MHZ
grant 5 box 39N 40N 101W 100W width x          | MHZ 'x' is not an unsigned whole number
grant 5 box 39N 40N 101W 100W width 5 width 5  | 'width' is a word too many
cancel 5 width 20                              | 'width' is a word too many
coverage 7 width 20                            | 'width' is a word too many
";

/// Runs a plan with a wrong line 4, and sees that it is named and nothing is done.
fn assert_named(name: &str, line: &str, said: &str) {
    let plan = format!("map good.csv\ngrant 1 area 7\nfootprint 0 svg it.svg\n{line}\n");
    let (folder, ended) = run(name, &plan);
    assert_eq!((ended.status, ended.out.as_str()), (Some(2), ""), "{line}");
    assert_eq!(ended.err, format!("it.plan:4: {said}\n"));
    assert_eq!(files_in(&folder), ["bad.csv", "bad.map", "good.csv", "it.plan"], "{line}");
}

#[test]
fn wrong_lines_are_named() {
    for (index, (line, said)) in rows(WRONG_LINES).chain(rows(WRONG_WIDTHS)).enumerate() {
        assert_named(&format!("line-{index}"), line, said);
    }
}

#[test]
fn the_rule_for_coordinates_is_in_the_message() {
    let rule = "a whole number is hundredths of an arc second, a number with a dot or a letter is degrees";
    for word in ["39,5", "+39.5", "39.5°", "39.5NN", "-39.5N", "1e5"] {
        let line = format!("grant 5 box {word} 40N 101W 100W");
        assert_named("coordinate", &line, &format!("SOUTH '{word}' is no coordinate: {rule}"));
    }
    let line = "grant 5 box 39N 40N 101W width 20";
    assert_named("coordinate", line, &format!("EAST 'width' is no coordinate: {rule}"));
    let line = "grant 5 box 0 1 2 2147483648";
    assert_named("coordinate", line, &format!("EAST '2147483648' is not within -2147483648 to 2147483647: {rule}"));
}

#[test]
fn all_mistakes_are_named() {
    let (_, ended) = run("all", "propose 0\nmap bad.csv\nblocks 7 7\n\ncancel one # more\n");
    assert_eq!((ended.status, ended.out.as_str()), (Some(2), ""));
    let said = "it.plan:1: 'propose' needs a map, and no line before it names one\n\
                it.plan:2: map 'bad.csv' cannot be built\n\
                bad.csv:3: column longitude: '99.98N' is a latitude where a longitude is due\n\
                it.plan:3: '7' is a word too many\n\
                it.plan:5: CALLSIGN 'one' is not an unsigned whole number\n";
    assert_eq!(ended.err, said);
}

#[test]
fn of_many_mistakes_the_first_hundred_are_named() {
    let (_, ended) = run("many", &"x\n".repeat(1_234));
    assert_eq!((ended.status, ended.err.lines().count()), (Some(2), 101));
    assert!(ended.err.ends_with("and 1,134 more\n"), "{}", ended.err);
}

#[test]
fn a_plan_that_cannot_be_read() {
    let folder = folder_with("mistakes-none", &[]);
    let said = "none.plan: the plan cannot be read: No such file or directory (os error 2)\n";
    assert_eq!(codwalet(&folder, &["run", "none.plan"]).said(), (Some(2), said));
}

/// Calls that are refused, and how. The map is refused until a good one is named.
const REFUSED: &str = "\
map bad.map                   | 1: the map ends before or inside a field that is due
coverage 7                    | 1: the map ends before or inside a field that is due
blocks 7                      | 1: the map ends before or inside a field that is due
propose 0                     | 1: the map ends before or inside a field that is due
footprint 0 svg it.svg        | 1: the map ends before or inside a field that is due
cancel 1                      | 11: the call sign is not in force
footprint 1                   | 13: the proposal has no area with a share, so there is no footprint
";

#[test]
fn refusals_are_answers() {
    let calls: Vec<&str> = rows(REFUSED).map(|(call, _)| call).collect();
    let plan = calls.join("\n").replace("footprint 1", "map good.csv\nfootprint 1");
    let (folder, ended) = run("refusals", &plan);
    assert_eq!(ended.said(), (Some(0), ""));
    let answers = ended.out.lines().filter_map(|line| line.split_once("  refused, "));
    let refusals: Vec<&str> = answers.map(|(_, refusal)| refusal).collect();
    assert_eq!(refusals, rows(REFUSED).map(|(_, refusal)| refusal).collect::<Vec<_>>());
    assert!(!folder.join("it.svg").exists());
}

/// Ill-formed licences.
const ILL_FORMED: [&str; 12] = [
    "grant 0 area 7",
    "grant 1 area 0",
    "grant 1 area 417",
    "grant 1 box 40N 39N 101W 100W",
    "grant 1 box 39N 40N 100W 100W",
    "grant 1 box 39N 91N 101W 100W",
    "grant 1 box 39N 40N 181W 100W",
    "grant 1 area 7 width 0",
    "grant 1 area 7 width 51",
    "grant 1 area 7 width 306",
    "grant 1 area 7 width 4294967295",
    "grant 1 box 39N 40N 101W 100W width 51",
];

#[test]
fn refusal_6_comes_with_its_reason() {
    for line in ILL_FORMED {
        let (folder, ended) = run("reason", line);
        let words = "the call sign is 0, the ground is ill-formed, or the width is not 1 to 50";
        let start = format!("refused, 6: {words} (");
        let (_, reason) = ended.out.split_once(&start).unwrap_or_else(|| panic!("{line}: {}", ended.out));
        let reason = reason.strip_suffix(")\n").expect("the reason is in brackets");
        assert_eq!(ended.said(), (Some(0), ""));
        let json = codwalet(&folder, &["run", "it.plan", "--json"]).out;
        let refusal = format!("\"refusal\":{{\"number\":6,\"words\":\"{words}\",\"reason\":\"{reason}\"}}}}\n");
        assert!(json.ends_with(&refusal), "{json}");
    }
}

#[test]
fn a_bad_width_is_named_in_the_reason() {
    for (width, named) in [("0", "width 0"), ("0051", "width 51"), ("4294967295", "width 4294967295")] {
        let (_, ended) = run("width", &format!("grant 1 area 7 width {width}"));
        assert!(ended.out.ends_with(&format!("({named} is not within 1 to 50 MHz)\n")), "{}", ended.out);
    }
}
