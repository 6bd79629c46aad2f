//! The commands: their help, what is missing, maps by themselves, standard input and output, closed pipes.

mod common;

use common::{CSV, codwalet, codwalet_reading, command, ended, folder_with, rows};
use std::fs::File;
use std::path::PathBuf;
use std::process::Stdio;

/// A folder with a plan, a map, and a map that is refused.
fn folder(name: &str) -> PathBuf {
    let plan = b"map good.csv\ngrant 1 area 7\nfootprint 0\n";
    let files: [(&str, &[u8]); 3] = [("good.csv", CSV.as_bytes()), ("bad.map", &[1, 7, 0, 1]), ("it.plan", plan)];
    folder_with(&format!("commands-{name}"), &files)
}

/// Words that ask for help, and the start of the page.
const HELP: &str = "\
--help              | codwalet: which areas
-h                  | codwalet: which areas
help                | codwalet: which areas
help help           | codwalet: which areas
--version --help    | codwalet: which areas
run --help          | codwalet run PLAN [--json] [--strict]
run x -h            | codwalet run PLAN
run help            | codwalet run PLAN
help run            | codwalet run PLAN
--help run          | codwalet run PLAN
map --help          | codwalet map build CELLS OUT
map help            | codwalet map build CELLS OUT
help map            | codwalet map build CELLS OUT
map build --help    | codwalet map build CELLS OUT
help map build      | codwalet map build CELLS OUT
map show help       | codwalet map show FILE [--json]
help map show       | codwalet map show FILE [--json]
check a b c --help  | codwalet check FILE
help check          | codwalet check FILE
";

#[test]
fn every_command_has_help() {
    for (words, start) in rows(HELP) {
        let ended = codwalet(&folder("help"), &words.split(' ').collect::<Vec<_>>());
        assert_eq!(ended.said(), (Some(0), ""), "{words}");
        assert!(ended.out.starts_with(start), "{words}: {}", ended.out);
    }
}

/// Words that are no command, and what is said of them.
const WRONG_WORDS: &str = "\
walk               | codwalet: 'walk' is not a command; see codwalet --help
--jason            | codwalet: '--jason' is not a command; see codwalet --help
--version x        | codwalet: 'x' is a word too many; see codwalet --help
help walk          | codwalet: 'walk' is not a command; see codwalet --help
help run x         | codwalet: 'x' is a word too many; see codwalet --help
run                | codwalet run: PLAN is missing; see codwalet run --help
run --json         | codwalet run: PLAN is missing; see codwalet run --help
run --jason x      | codwalet run: '--jason' is not an option of it; see codwalet run --help
run x y            | codwalet run: 'y' is a word too many; see codwalet run --help
map                | codwalet map: build or show is missing; see codwalet map --help
map shwo x         | codwalet map: 'shwo' is not build or show; see codwalet map --help
help map shwo      | codwalet map: 'shwo' is not build or show; see codwalet map --help
map build          | codwalet map build: CELLS is missing; see codwalet map build --help
map build x        | codwalet map build: OUT is missing; see codwalet map build --help
map show           | codwalet map show: FILE is missing; see codwalet map show --help
check              | codwalet check: FILE is missing; see codwalet check --help
check --json x     | codwalet check: '--json' is not an option of it; see codwalet check --help
";

#[test]
fn what_is_missing_or_unknown_is_named() {
    for (words, said) in rows(WRONG_WORDS) {
        let ended = codwalet(&folder("words"), &words.split(' ').collect::<Vec<_>>());
        assert_eq!((ended.out.as_str(), ended.said()), ("", (Some(2), format!("{said}\n").as_str())));
    }
    let nothing: [&str; 0] = [];
    assert_eq!(codwalet(&folder("words"), &nothing).status, Some(2));
}

#[test]
fn a_refused_map_is_shown_with_its_byte() {
    let folder = folder("refused");
    let ended = codwalet(&folder, &["map", "show", "bad.map"]);
    let said = "refused, 1, at byte 3: the map ends before or inside a field that is due\n";
    assert_eq!((ended.out.as_str(), ended.said()), (said, (Some(3), "")));
    let ended = codwalet(&folder, &["check", "bad.map"]);
    assert_eq!((ended.out, ended.status), (format!("bad.map: {said}"), Some(3)));
    let ended = codwalet(&folder, &["map", "show", "--json", "bad.map"]);
    let refusal = r#"{"number":1,"words":"the map ends before or inside a field that is due","byte":3}"#;
    let said = format!("{{\"file\":\"bad.map\",\"accepted\":false,\"bytes\":4,\"refusal\":{refusal}}}\n");
    assert_eq!((ended.out, ended.status), (said, Some(3)));
}

#[test]
fn an_accepted_map_is_shown_with_its_areas() {
    let folder = folder("accepted");
    let ended = codwalet(&folder, &["check", "good.csv"]);
    assert_eq!((ended.out.as_str(), ended.said()), ("good.csv: accepted: 1 area, 34 bytes\n", (Some(0), "")));
    let ended = codwalet(&folder, &["map", "show", "good.csv", "--json"]);
    let area = r#"{"area":7,"weight":1,"rows":1,"columns":2,"cells":2,"people":100,"bytes":25}"#;
    let said = format!("{{\"file\":\"good.csv\",\"accepted\":true,\"bytes\":34,\"areas\":[{area}]}}\n");
    assert_eq!((ended.out, ended.status), (said, Some(0)));
}

#[test]
fn a_file_that_is_no_map_is_a_mistake() {
    let folder = folder("no-map");
    let said = "'none.map' cannot be read: No such file or directory (os error 2)\n";
    for words in [&["map", "show", "none.map"][..], &["check", "none.map"], &["map", "build", "none.map", "x"]] {
        assert_eq!(codwalet(&folder, words).said(), (Some(2), said));
    }
}

#[test]
fn a_link_to_itself_is_no_file() {
    let folder = folder("loop");
    std::os::unix::fs::symlink("self", folder.join("self")).expect("a link is made");
    let why = "Too many levels of symbolic links (os error 40)\n";
    let ended = codwalet(&folder, &["map", "build", "good.csv", "self"]);
    assert_eq!(ended.said(), (Some(1), format!("'self' cannot be written: {why}").as_str()));
    let ended = codwalet(&folder, &["map", "build", "self", "it.map"]);
    assert_eq!(ended.said(), (Some(2), format!("'self' cannot be read: {why}").as_str()));
}

#[test]
fn text_that_is_no_csv_is_noted() {
    let folder = folder("text");
    let check = |input: &[u8]| ended(codwalet_reading(&folder, &["check", "-"], input));
    let names = "area, weight, row, column, people, latitude, longitude";
    let said = format!("standard input: note: it looks like text; as CSV its first line must name {names}\n");
    // The longer one is cut within a character.
    for text in ["7,1,0,0,60,39.5N,100W\r\n", &format!("x{}", "é".repeat(200))] {
        assert_eq!(check(text.as_bytes()).said(), (Some(3), said.as_str()), "{text}");
    }
    for bytes in [&b""[..], &[33, 7, 0, 1], b"text\xff", b"text\x1b"] {
        assert_eq!(check(bytes).said(), (Some(3), ""), "{bytes:?}");
    }
}

/// Commands that name what a terminal would obey.
const OBEYED: [&[&str]; 9] = [
    &["wa\x1blk"],
    &["--version", "\x1b"],
    &["run", "--\x1b", "x"],
    &["map", "\x1b"],
    &["run", "\x1b.plan"],
    &["check", "\x1b.csv"],
    &["map", "build", "good.csv", "no\x1b/it.map"],
    &["map", "build", "good.csv", "\x1b.map"],
    &["run", "it\x1b.plan"],
];

#[test]
fn nothing_that_is_named_moves_the_cursor() {
    let folder = folder("cursor");
    let csv = CSV.replace("area,", "n\x1bote,area,").replace("\n7,", "\nx,7,");
    let wrong = CSV.replace("\n7,", "\n7\x1b,").replace("39.5N", "\"39\x1b\"N");
    let plan = "map noted\x1b.csv\ngrant 1 area 7\nfootprint 0 svg \x1b.svg\nfootprint 0 svg no/\x1b.svg\n";
    for (name, text) in [("noted\x1b.csv", csv.as_str()), ("\x1b.csv", &wrong), ("it\x1b.plan", plan)] {
        std::fs::write(folder.join(name), text).expect("the file is written");
    }
    for words in OBEYED {
        let ended = codwalet(&folder, words);
        let said = format!("{}{}", ended.out, ended.err);
        assert!(said.contains('\u{fffd}') && !said.contains('\x1b'), "{words:?}: {said}");
    }
}

#[test]
fn maps_and_csv_come_from_standard_input() {
    let folder = folder("input");
    let read = |words: &[&str], input: &[u8]| ended(codwalet_reading(&folder, words, input));
    assert_eq!(read(&["check", "-"], CSV.as_bytes()).out, "standard input: accepted: 1 area, 34 bytes\n");
    assert_eq!(read(&["check", "-"], &[33]).status, Some(3));
    let shown = codwalet(&folder, &["map", "show", "good.csv"]);
    assert_eq!(read(&["map", "show", "-"], CSV.as_bytes()), shown);
    let built = read(&["map", "build", "-", "it.map"], CSV.as_bytes());
    assert_eq!((built.out.as_str(), built.said()), ("it.map: 34 bytes written\n", (Some(0), "")));
    assert_eq!(codwalet(&folder, &["map", "show", "it.map"]), shown);
    let said = "standard input:2: column area: 'x' is not written in digits\n";
    assert_eq!(read(&["map", "build", "-", "x.map"], CSV.replacen("\n7", "\nx", 1).as_bytes()).said(), (Some(2), said));
}

#[test]
fn a_built_map_may_go_to_standard_output() {
    let folder = folder("output");
    codwalet(&folder, &["map", "build", "good.csv", "it.map"]);
    let output = codwalet_reading(&folder, &["map", "build", "-", "-"], CSV.as_bytes());
    assert_eq!(output.stdout, std::fs::read(folder.join("it.map")).expect("the map is read"));
    assert_eq!(output.stderr, b"standard output: 34 bytes written\n");
    assert_eq!(output.status.code(), Some(0));
}

/// The end of a pipe that nobody reads.
fn closed_pipe() -> Stdio {
    let (reader, writer) = std::io::pipe().expect("a pipe is made");
    drop(reader);
    writer.into()
}

/// Commands with answers.
const ANSWERED: [&str; 10] = [
    "run it.plan",
    "run it.plan --json",
    "map show good.csv",
    "map show bad.map",
    "map show bad.map --json",
    "check good.csv",
    "map build good.csv it.map",
    "map build good.csv -",
    "run --help",
    "--version",
];

#[test]
fn answers_that_nobody_reads_end_quietly() {
    let folder = folder("closed-output");
    for words in ANSWERED {
        let mut command = command(&folder, &words.split(' ').collect::<Vec<_>>());
        let ended = ended(command.stdout(closed_pipe()).output().expect("the command line runs"));
        assert_eq!(ended.said(), (Some(1), ""), "{words}");
    }
}

#[test]
fn messages_that_nobody_reads_leave_the_status() {
    let folder = folder("closed-messages");
    std::fs::write(folder.join("wrong.plan"), "x\n").expect("the plan is written");
    std::fs::write(folder.join("undrawn.plan"), "map good.csv\ngrant 1 area 7\nfootprint 0 svg no/x\n")
        .expect("the plan is written");
    for (words, status) in [("walk", 2), ("run wrong.plan", 2), ("run undrawn.plan", 1), ("map build good.csv -", 0)] {
        let mut command = command(&folder, &words.split(' ').collect::<Vec<_>>());
        let output = command.stderr(closed_pipe()).output().expect("the command line runs");
        assert_eq!(output.status.code(), Some(status), "{words}");
    }
}

#[test]
fn answers_that_cannot_be_written_are_named() {
    let folder = folder("full");
    for words in ANSWERED {
        let full = File::create("/dev/full").expect("the full device is there");
        let mut command = command(&folder, &words.split(' ').collect::<Vec<_>>());
        let ended = ended(command.stdout(full).output().expect("the command line runs"));
        let said = "the answers cannot be written: No space left on device (os error 28)\n";
        assert_eq!(ended.said(), (Some(1), said), "{words}");
    }
}
