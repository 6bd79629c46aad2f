//! Plans that run: how words are written, what is noted, what is counted, and where pictures may go.

mod common;

use codwalet_cli::csv::HEADER;
use common::{CSV, Ended, codwalet, codwalet_reading, command, ended, files_in, folder_with};
use std::ffi::OsStr;
use std::fs::{self, File};
use std::os::unix::ffi::OsStrExt;
use std::path::PathBuf;

/// A folder with a plan and a map.
fn folder(name: &str, plan: &str) -> PathBuf {
    folder_with(&format!("plans-{name}"), &[("good.csv", CSV.as_bytes()), ("it.plan", plan.as_bytes())])
}

fn run(name: &str, plan: &str) -> Ended {
    codwalet(&folder(name, plan), &["run", "it.plan"])
}

/// A line of a plan's answers, from its call on.
fn answer(ended: &Ended, line: usize) -> &str {
    let start = format!("{line:>4}  ");
    ended.out.lines().find_map(|text| text.strip_prefix(&start)).unwrap_or_else(|| panic!("{}", ended.out))
}

#[test]
fn words_may_be_quoted() {
    let plan = "map \"a #1 \\\"map\\\".csv\" # a comment\ngrant 1 \"area\" 7 #\nmap b#.csv\n";
    let folder = folder("quoted", plan);
    for name in ["a #1 \"map\".csv", "b#.csv"] {
        fs::write(folder.join(name), CSV).expect("the map is written");
    }
    let ended = codwalet(&folder, &["run", "it.plan"]);
    assert_eq!(ended.said(), (Some(0), ""));
    assert_eq!(answer(&ended, 1), "map \"a #1 \\\"map\\\".csv\"  1 area, 34 bytes");
    assert_eq!(answer(&ended, 2), "grant 1 area 7          granted; 1 licence in force");
    let json = codwalet(&folder, &["run", "it.plan", "--json"]).out;
    assert!(json.contains(r#""file":"a #1 \"map\".csv","#) && json.contains(r#""file":"b#.csv","#), "{json}");
}

#[test]
fn pictures_may_have_blanks_in_their_names() {
    let folder = folder("blanks", "map good.csv\ngrant 1 area 7\nfootprint 0 svg \"my picture.svg\"\n");
    assert_eq!(codwalet(&folder, &["run", "it.plan"]).said(), (Some(0), ""));
    assert_eq!(files_in(&folder), ["good.csv", "it.plan", "my picture.svg"]);
}

#[test]
fn names_of_files_need_not_be_text() {
    let name = |bytes: &'static [u8]| OsStr::from_bytes(bytes);
    let folder = folder("bytes", "");
    fs::write(folder.join(name(b"m\xe9.csv")), CSV).expect("the map is written");
    let plan = b"# caf\xe9\nmap m\xe9.csv\ngrant 1 area 7\nfootprint 0 svg d\xe9.svg\n";
    fs::write(folder.join(name(b"p\xe9.plan")), plan).expect("the plan is written");
    let ended = codwalet(&folder, &[OsStr::new("run"), name(b"p\xe9.plan")]);
    assert_eq!(ended.said(), (Some(0), ""));
    assert!(folder.join(name(b"d\xe9.svg")).exists());
    let ended = codwalet(&folder, &[OsStr::new("map"), OsStr::new("build"), name(b"m\xe9.csv"), name(b"b\xe9.map")]);
    assert_eq!((ended.said(), folder.join(name(b"b\xe9.map")).exists()), ((Some(0), ""), true));
}

/// Grants on a map with area 7 about 39.5N 100W, and the notes on them.
const NOTED: [(&str, &str); 8] = [
    ("area 8", "the map lacks area 8"),
    (
        "box 39 40 -101 -100",
        "the box covers no cell of the map; whole numbers are hundredths of an arc second: 39 is 0.39 arc seconds",
    ),
    (
        "box 0 1 -180 0",
        "the box covers no cell of the map; whole numbers are hundredths of an arc second: 1 is 0.01 arc seconds",
    ),
    ("box 39 181 -101 -100", "the box covers no cell of the map"),
    (
        "box 39 40.0 -101 0",
        "the box covers no cell of the map; 39 is a whole number among degrees: it is 0.39 arc seconds",
    ),
    ("box 39.4 39.6 -100.3 -100", "-100 is a whole number among degrees: it is -1.00 arc seconds"),
    ("box 39N 14400000 101W 0", "14400000 is a whole number among degrees: it is 144000.00 arc seconds"),
    ("box 41N 42N 101W 99W", "the box covers no cell of the map"),
];

#[test]
fn licences_that_may_be_meant_otherwise_are_noted() {
    for (ground, note) in NOTED {
        let folder = folder("noted", &format!("map good.csv\ngrant 1 {ground}\n"));
        let ended = codwalet(&folder, &["run", "it.plan"]);
        assert_eq!(ended.said(), (Some(0), ""));
        assert_eq!(answer(&ended, 2), format!("grant 1 {ground}  granted; 1 licence in force; note: {note}"));
        let json = codwalet(&folder, &["run", "it.plan", "--json"]).out;
        assert!(json.ends_with(&format!(",\"in_force\":1,\"note\":\"{note}\"}}\n")), "{json}");

        let ended = codwalet(&folder, &["run", "--strict", "it.plan"]);
        let word = ground.split_once(' ').map_or("", |(_, word)| word);
        assert_eq!(ended.out, "", "{ground}");
        assert_eq!(ended.said(), (Some(2), format!("it.plan:2: '{word}': {note}\n").as_str()));
    }
}

/// A width is none of a ground's words, and changes nothing of what is noted.
#[test]
fn narrow_licences_are_noted_by_their_ground() {
    for (ground, note) in NOTED {
        let folder = folder("noted-narrow", &format!("map good.csv\ngrant 1 {ground} width 20\n"));
        let ended = codwalet(&folder, &["run", "it.plan"]);
        let said = format!("grant 1 {ground} width 20  granted; 1 licence in force; note: {note}");
        assert_eq!(answer(&ended, 2), said);
        let word = ground.split_once(' ').map_or("", |(_, word)| word);
        let ended = codwalet(&folder, &["run", "--strict", "it.plan"]);
        assert_eq!(ended.said(), (Some(2), format!("it.plan:2: '{word}': {note}\n").as_str()));
    }
}

/// Plans without a note: the licence covers a cell, is refused, or the map before it is.
const NOT_NOTED: [&str; 7] = [
    "map good.csv\ngrant 1 area 7\ngrant 2 box 39.5 39.6 -100.0 -99.99\n",
    "map good.csv\ngrant 0 area 8\n",
    "map good.csv\ngrant 1 area 8 width 51\ngrant 1 area 7 width 1\n",
    "map good.csv\ngrant 1 box 0 39.6N 100.3W 0\n",
    "map bad.map\ngrant 1 area 8\n",
    "map good.csv\nmap bad.map\ngrant 1 area 8\n",
    "map good.csv\nmap other.csv\ngrant 1 area 8\n",
];

#[test]
fn licences_without_a_note() {
    for plan in NOT_NOTED {
        let folder = folder("not-noted", plan);
        fs::write(folder.join("bad.map"), [1, 7]).expect("the map is written");
        fs::write(folder.join("other.csv"), CSV.replace("\n7,", "\n8,")).expect("the map is written");
        let ended = codwalet(&folder, &["run", "it.plan", "--strict"]);
        assert_eq!((ended.said(), ended.out.contains("note")), ((Some(0), ""), false), "{plan}");
    }
}

#[test]
fn mixed_units_are_noted_whatever_comes_of_the_licence() {
    let note = "note: 40 is a whole number among degrees: it is 0.40 arc seconds";
    let refused = "refused, 6: the call sign is 0, the ground is ill-formed, or the width is not 1 to 50 \
                   (south 14220000 is not below north 40, in hundredths of an arc second)";
    let ended = run("mixed", "grant 1 box 39.5 40 -101.0 -100.0\ngrant 2 box 39.5S 40 101W 100W\n");
    assert_eq!(answer(&ended, 1), format!("grant 1 box 39.5 40 -101.0 -100.0  {refused}; {note}"));
    assert_eq!(answer(&ended, 2), format!("grant 2 box 39.5S 40 101W 100W     granted; 1 licence in force; {note}"));
}

#[test]
fn licences_above_the_first_map_are_mistakes_where_it_is_strict() {
    let folder = folder("above", "grant 1 area 8\nmap good.csv\n");
    let ended = codwalet(&folder, &["run", "it.plan"]);
    assert_eq!((ended.said(), ended.out.contains("note")), ((Some(0), ""), false));
    let said = "it.plan:1: '8': no map above it to hold it against\n";
    assert_eq!(codwalet(&folder, &["run", "it.plan", "--strict"]).said(), (Some(2), said));
}

#[test]
fn licences_below_a_map_that_cannot_be_read_are_not_held_against_the_one_before() {
    let folder = folder("unread", "map good.csv\nmap none.map\ngrant 1 area 8\n");
    let said = "it.plan:2: map 'none.map' cannot be read: No such file or directory (os error 2)\n";
    assert_eq!(codwalet(&folder, &["run", "it.plan", "--strict"]).said(), (Some(2), said));
}

/// What pictures must not be drawn over, by many paths, and what is said of it.
const DRAWN_OVER: [(&str, &str); 9] = [
    ("it.plan", "the plan itself"),
    ("./it.plan", "the plan itself"),
    ("sub/../it.plan", "the plan itself"),
    ("link.plan", "the plan itself"),
    ("hard.plan", "the plan itself"),
    ("good.csv", "the map of line 1"),
    ("link.csv", "the map of line 1"),
    ("sub/later.csv", "the map of line 5"),
    ("./first.svg", "the picture of line 3"),
];

/// A folder with links to a plan and its maps.
fn linked(plan: &str) -> PathBuf {
    let folder = folder("over", plan);
    fs::create_dir(folder.join("sub")).expect("a folder is made");
    fs::write(folder.join("sub/later.csv"), CSV).expect("the map is written");
    std::os::unix::fs::symlink("it.plan", folder.join("link.plan")).expect("a link is made");
    std::os::unix::fs::symlink("../plans-over/good.csv", folder.join("link.csv")).expect("a link is made");
    fs::hard_link(folder.join("it.plan"), folder.join("hard.plan")).expect("a link is made");
    folder
}

#[test]
fn nothing_that_is_read_is_drawn_over() {
    for (file, over) in DRAWN_OVER {
        let first = "map good.csv\ngrant 1 area 7\nfootprint 0 svg first.svg\n";
        let plan = format!("{first}footprint 0 svg {file}\nmap sub/later.csv\n");
        let folder = linked(&plan);
        let ended = codwalet(&folder, &["run", "it.plan"]);
        assert_eq!(
            (ended.out.as_str(), ended.said()),
            ("", (Some(2), format!("it.plan:4: FILE '{file}' is {over}\n").as_str()))
        );
        assert_eq!(fs::read_to_string(folder.join("it.plan")).expect("the plan is read"), plan);
        assert_eq!(fs::read_to_string(folder.join("good.csv")).expect("the map is read"), CSV);
        assert!(!folder.join("first.svg").exists());
    }
}

#[test]
fn a_plan_on_standard_input_is_not_drawn_over() {
    let folder = folder("over-input", "map good.csv\ngrant 1 area 7\nfootprint 0 svg it.plan\n");
    let plan = File::open(folder.join("it.plan")).expect("the plan is opened");
    let ended = ended(command(&folder, &["run", "-"]).stdin(plan).output().expect("the command line runs"));
    assert_eq!(ended.said(), (Some(2), "standard input:3: FILE 'it.plan' is the plan itself\n"));
}

/// Runs a plan with a picture while standard output goes to a file.
fn run_into(file: &str, plan: &str) -> Ended {
    let folder = folder("over-output", plan);
    let output = File::create(folder.join(file)).expect("the file is made");
    ended(command(&folder, &["run", "it.plan"]).stdout(output).output().expect("the command line runs"))
}

#[test]
fn the_answers_are_not_drawn_over() {
    let plan = "map good.csv\ngrant 1 area 7\nfootprint 0 svg ";
    for (output, picture) in [("it.svg", "it.svg"), ("it.svg", "./it.svg"), ("it.txt", "/dev/stdout")] {
        let said = format!("it.plan:3: FILE '{picture}' is standard output, where the answers go\n");
        assert_eq!(run_into(output, &format!("{plan}{picture}\n")).said(), (Some(2), said.as_str()));
    }
    for (output, picture) in [("it.txt", "it.svg"), ("/dev/null", "/dev/null")] {
        assert_eq!(run_into(output, &format!("{plan}{picture}\n")).said(), (Some(0), ""), "{picture}");
    }
}

#[test]
fn maps_of_a_plan_on_standard_input_are_found_from_the_current_directory() {
    let folder = folder("input", "");
    let read = |words: &[&str], input: &str| ended(codwalet_reading(&folder, words, input.as_bytes()));
    let run = read(&["run", "-"], "map good.csv\n");
    assert_eq!((run.said(), answer(&run, 1)), ((Some(0), ""), "map good.csv  1 area, 34 bytes"));
    let run = read(&["run", "-"], "map good.csv\nmap -\n");
    assert_eq!(run.said(), (Some(2), "standard input:2: map '-' is standard input, which is read already\n"));
}

#[test]
fn a_map_of_a_plan_may_be_on_standard_input() {
    let folder = folder("map-input", "map -\n");
    let run = ended(codwalet_reading(&folder, &["run", "it.plan"], CSV.as_bytes()));
    assert_eq!((run.said(), answer(&run, 1)), ((Some(0), ""), "map -  1 area, 34 bytes"));
}

#[test]
fn a_picture_that_cannot_be_written_stops_nothing() {
    let plan = "map good.csv\ngrant 1 area 7\nfootprint 0 svg none/it.svg\ncancel 1\n";
    let folder = folder("picture", plan);
    let ended = codwalet(&folder, &["run", "it.plan"]);
    let why = "'none/it.svg' cannot be written: No such file or directory (os error 2)";
    assert_eq!(ended.said(), (Some(1), format!("it.plan:3: {why}\n").as_str()));
    let footprint = answer(&ended, 3);
    assert!(footprint.ends_with(&format!(" for a share of 5,000; note: {why}")), "{footprint}");
    assert_eq!(answer(&ended, 4), "cancel 1                     cancelled; 0 licences in force");
    let json = codwalet(&folder, &["run", "it.plan", "--json"]);
    assert_eq!((json.status, json.out.lines().count()), (Some(1), 4));
    assert!(json.out.contains(&format!("],\"note\":\"{why}\"}}\n")), "{}", json.out);
    assert_eq!(files_in(&folder), ["good.csv", "it.plan"]);
}

#[test]
fn columns_that_are_not_used_are_noted() {
    // A map that is named twice has its note once.
    let folder = folder("unused", "map named.csv\nmap named.csv\n");
    let text = CSV.replace("area,", "county,area,").replace("\n7,", "\nx,7,").replace("longitude\n", "longitude,\n");
    fs::write(folder.join("named.csv"), text.replace("W\n", "W,\n")).expect("the map is written");
    // The last column has no name.
    let said = "named.csv: note: column 'county' is not used\n";
    for words in [&["run", "it.plan"][..], &["check", "named.csv"], &["map", "show", "named.csv"]] {
        assert_eq!(codwalet(&folder, words).said(), (Some(0), said));
    }
}

#[test]
fn maps_that_may_be_meant_in_degrees_are_noted() {
    let note = "named.csv: note: whole numbers are hundredths of an arc second:";
    let seconds = [
        ("39", "-100", Some("39 is 0.39 arc seconds")),
        ("0", "-100", Some("-100 is -1.00 arc seconds")),
        ("39", "100W", Some("39 is 0.39 arc seconds")),
        ("0", "0", None),
        ("0", "-36000000", None),
        ("39.5N", "100W", None),
    ];
    for (latitude, longitude, seconds) in seconds {
        let folder = folder("like-degrees", "map named.csv\n");
        let text = CSV.replace("39.5N", latitude).replace("100W", longitude).replace("99.98W", longitude);
        fs::write(folder.join("named.csv"), text).expect("the map is written");
        let said = seconds.map_or(String::new(), |seconds| format!("{note} {seconds}\n"));
        for words in [&["run", "it.plan"][..], &["check", "named.csv"]] {
            assert_eq!(codwalet(&folder, words).said(), (Some(0), said.as_str()), "{latitude} {longitude}");
        }
    }
}

#[test]
fn long_calls_move_their_own_answers_alone() {
    let zeros = "0".repeat(70_000);
    let ended = run("long", &format!("map good.csv\ncoverage {zeros}7\ncoverage 7\n"));
    assert_eq!(ended.said(), (Some(0), ""));
    assert_eq!(answer(&ended, 2), format!("coverage {zeros}7  0 MHz-pops, 0 cells"));
    assert_eq!(answer(&ended, 3), format!("{:60}  0 MHz-pops, 0 cells", "coverage 7"));
}

/// Runs a plan on a map with some lines.
fn run_over(lines: &str, name: &str, plan: &str, words: &[&str]) -> Ended {
    let folder = folder(name, &format!("map cells.csv\n{plan}"));
    fs::write(folder.join("cells.csv"), format!("{HEADER}\n{lines}")).expect("the map is written");
    let ended = codwalet(&folder, &[&["run", "it.plan"], words].concat());
    assert_eq!(ended.said(), (Some(0), ""));
    ended
}

/// A cell with a person and, behind a gap, one without people.
const SPARSE: &str = "7,1,0,0,1,39.5N,100W\n7,1,0,2,0,39.5N,99.96W\n";

/// A box over the first cell, 1 MHz wide, then a licence for both.
const COVERED: &str = "\
coverage 7
grant 1 box 39.4N 39.6N 100W 99.98W width 1
coverage 7
grant 2 area 7
coverage 7
coverage 8
propose 0
";

#[test]
fn coverage_is_mhz_pops_and_cells() {
    let ended = run_over(SPARSE, "covered", COVERED, &[]);
    let lacking = "0 MHz-pops, 0 cells (the map lacks the area)";
    let due = [(2, "0 MHz-pops, 0 cells"), (4, "1 MHz-pop, 1 cell"), (6, "51 MHz-pops, 3 cells"), (7, lacking)];
    for (line, words) in due {
        let answer = answer(&ended, line);
        assert!(answer.starts_with("coverage ") && answer.ends_with(&format!("  {words}")), "{answer}");
    }
}

/// The lines of a proposal's areas below their heading.
fn given(ended: &Ended) -> Vec<&str> {
    let mut lines = ended.out.lines().skip_while(|line| !line.starts_with("      area  "));
    assert_eq!(lines.next(), Some("      area  whole blocks      cells  gets"));
    lines.take_while(|line| !line.is_empty()).collect()
}

#[test]
fn a_proposal_has_the_cells_of_each_area() {
    let empty = "212,1,0,0,5,0.0,0.0\n";
    let ended = run_over(&format!("{SPARSE}{empty}"), "cells", COVERED, &[]);
    let share = "         7             0          3  a share of 51 weighted MHz-pops";
    assert_eq!(given(&ended), [share, "       212             0          0  nothing"]);
}

#[test]
fn the_most_cells_fit_their_column() {
    let cell = |place: usize| format!("7,1,{},{},1,0.0,0.0\n", place / 128, place % 128);
    let grants: String = (1..=64).map(|call_sign| format!("grant {call_sign} area 7\n")).collect();
    let cells: String = (0..128 * 128).map(cell).collect();
    let ended = run_over(&cells, "most", &format!("{grants}propose 0\n"), &[]);
    assert_eq!(given(&ended), ["         7            32  1,048,576  nothing"]);
}

#[test]
fn programs_are_told_the_cells() {
    let json = run_over(SPARSE, "covered-json", COVERED, &["--json"]).out;
    for answer in [
        r#"{"line":4,"call":"coverage","area":7,"mhz_pops":1,"cells":1,"in_map":true}"#,
        r#"{"line":6,"call":"coverage","area":7,"mhz_pops":51,"cells":3,"in_map":true}"#,
        r#"{"line":7,"call":"coverage","area":8,"mhz_pops":0,"cells":0,"in_map":false}"#,
    ] {
        assert!(json.lines().any(|line| line == answer), "{json}");
    }
    let areas = r#""areas":[{"area":7,"whole_blocks":0,"cells":3,"gets":"share","share":51}]}"#;
    assert!(json.trim_end().ends_with(areas), "{json}");
}

/// Grants with a width and without, on a map with 60 and 40 people.
const WIDTHS: &str = "\
map good.csv
grant 1 area 7
grant 2 area 7 width 20
grant 3 box 39.4N 39.6N 100W 99.99W width 1 # the first cell
coverage 7
blocks 7
cancel 2
coverage 7
";

#[test]
fn widths_count_until_their_licence_is_cancelled() {
    let ended = run("widths", WIDTHS);
    assert_eq!(ended.said(), (Some(0), ""));
    let granted = "grant 3 box 39.4N 39.6N 100W 99.99W width 1  granted; 3 licences in force";
    assert_eq!(answer(&ended, 4), granted);
    // 50 x 100 + 20 x 100 + 1 x 60.
    let due = [
        (5, "7,060 MHz-pops, 5 cells"),
        (6, "0 whole blocks, and 7,060 of 10,000 weighted MHz-pops of another"),
        (8, "5,060 MHz-pops, 3 cells"),
    ];
    for (line, words) in due {
        assert!(answer(&ended, line).ends_with(&format!("  {words}")), "{}", ended.out);
    }
}

#[test]
fn programs_are_told_the_width_of_every_licence() {
    let json = codwalet(&folder("widths-json", WIDTHS), &["run", "it.plan", "--json"]).out;
    let edges = r#""box":{"south":14184000,"north":14256000,"west":-36000000,"east":-35996400}"#;
    let granted = [
        r#"{"line":2,"call":"grant","call_sign":1,"area":7,"width":50,"in_force":1}"#.to_string(),
        r#"{"line":3,"call":"grant","call_sign":2,"area":7,"width":20,"in_force":2}"#.to_string(),
        format!(r#"{{"line":4,"call":"grant","call_sign":3,{edges},"width":1,"in_force":3}}"#),
    ];
    assert_eq!(json.lines().skip(1).take(3).collect::<Vec<_>>(), granted);
}

/// A width in a plan is that number, 50 too: the same is in force as without one.
#[test]
fn a_width_of_50_counts_as_none() {
    let asked = "coverage 7\nblocks 7\npropose 0\nfootprint 0\n";
    let answers = |width: &str| {
        let ended = run("width-50", &format!("map good.csv\ngrant 1 area 7{width}\n{asked}"));
        let after = ended.out.lines().skip(3).map(|line| line.split_whitespace().collect::<Vec<_>>().join(" "));
        after.collect::<Vec<_>>()
    };
    assert_eq!(answers(" width 50"), answers(""));
    assert_ne!(answers(" width 49"), answers(""));
}

/// One person under 1 MHz: the least that can be held.
#[test]
fn one_weighted_mhz_pop_is_singular() {
    let plan = "grant 1 box 39.4N 39.6N 100W 99.98W width 1\npropose 0\n";
    let ended = run_over(SPARSE, "singular", plan, &[]);
    assert!(ended.out.contains("      T             1 weighted MHz-pop\n"), "{}", ended.out);
    assert!(ended.out.contains("      white space  99 weighted MHz-pops\n"), "{}", ended.out);
    assert_eq!(given(&ended), ["         7             0          1  a share of 1 weighted MHz-pop"]);
}

#[test]
fn an_empty_plan_has_no_answers() {
    assert_eq!(run("empty", "\u{feff}# nothing\r\n\r\n").out, "line  call  answer\n");
}
