//! Maps from CSV files: the bytes that come of them, and each mistake with its line and column.

mod common;

use codwalet_cli::csv::{Column, HEADER, build};
use common::{CSV, codwalet, files_in, folder_with, rows};

/// The bytes of a text without mistakes.
fn bytes_of(text: &str) -> Vec<u8> {
    build(text.as_bytes()).unwrap_or_else(|wrong| panic!("{text}: {wrong:?}")).bytes
}

#[test]
fn lines_in_any_order_make_the_map() {
    let text = "\u{feff}area,weight,row,column,people,latitude,longitude\r\n\
                9,3,0,0,1,90S,180E\r\n\
                \r\n\
                7, 2, 1, 8, 5, 0.5N, 1W\r\n\
                7,2,0,0,1000000,90N,180W\r\n";
    let mut map = vec![2];
    map.extend([7, 0, 2, 0, 0, 0, 2, 9]);
    map.extend([1, 0]);
    for field in [1_000_000, 32_400_000, -64_800_000i32] {
        map.extend(field.to_le_bytes());
    }
    map.extend([0, 1]);
    for field in [5, 180_000, -360_000i32] {
        map.extend(field.to_le_bytes());
    }
    map.extend([9, 0, 3, 0, 0, 0, 1, 1]);
    map.extend([1]);
    for field in [1, -32_400_000, 64_800_000i32] {
        map.extend(field.to_le_bytes());
    }
    assert_eq!(bytes_of(text), map);
}

/// Texts that make the same map as `CSV`, each written in another way.
const SAME_MAP: [&str; 8] = [
    // Columns in another order, their names in capitals.
    "Longitude,LATITUDE,people,column,row,weight,Area\n\
     100W,39.5N,60,0,0,1,7\n\
     99.98W,39.5N,40,1,0,1,7\n",
    // Quotes, around names too.
    "\"area\",weight,row,column,people,latitude,longitude\n\
     \"7\",1,0,0,60,39.5N,\"100W\"\n\
     7,1,0,\"1\",40,39.5N,99.98W\n",
    // Other separators.
    "area;weight;row;column;people;latitude;longitude\n\
     7;1;0;0;60;39.5N;100W\n\
     7;1;0;1;40;39.5N;99.98W\n",
    "area\tweight\trow\tcolumn\tpeople\tlatitude\tlongitude\n\
     7\t1\t0\t0\t60\t39.5N\t100W\n\
     7\t1\t0\t1\t40\t39.5N\t99.98W\n",
    // Comments, blank lines and lines of separators alone.
    "# cells\n\n\
     area,weight,row,column,people,latitude,longitude\n\
     # 7\n\
     7,1,0,0,60,39.5N,100W\n\
     ,,,,,,\n\
     7,1,0,1,40,39.5N,99.98W\n",
    // A dot makes degrees, and whole numbers may have zeros behind one.
    "area,weight,row,column,people,latitude,longitude\n\
     7.0,1.00,0,0,60.0,39.5,-100.0\n\
     7,1,0,1.0,40,39.5,-99.98\n",
    // Hundredths of an arc second, and comments behind blanks.
    "area,weight,row,column,people,latitude,longitude\n \t# 7\n\
     7,1,0,0,60,14220000,-36000000\n\
     7,1,0,1,40,14220000,-35992800\n",
    // Columns that a map has no use for, one of them over two lines.
    "area,name,weight,row,column,people,latitude,longitude\n\
     7,\"a, \"\"b\"\"\nc\",1,0,0,60,39.5N,100W\n\
     7,,1,0,1,40,39.5N,99.98W",
];

#[test]
fn one_map_may_be_written_in_many_ways() {
    for text in SAME_MAP {
        assert_eq!(bytes_of(text), bytes_of(CSV), "{text}");
    }
}

#[test]
fn the_usual_header_names_every_column() {
    assert_eq!(HEADER.split(',').collect::<Vec<_>>(), Column::ALL.map(Column::name));
}

/// Lines that stand below the header and a good line for area 7, and what is said of them.
const WRONG_LINES: &str = "\
7                          | 1 field where 7 are due; the last is '7'
7,1,0,1,5,39.5N            | 6 fields where 7 are due; the last is '39.5N'
7,1,0,1,5,39.5N,100W,x     | 8 fields where 7 are due; the last is 'x'
7,1,0,1,5,39.5N,\"100W     | column longitude: '\"100W' starts with a quote and none ends it
7,1,0,1,\"5\"0,39.5N,100W  | column people: '\"5\"0' goes on behind its closing quote
x,1,0,1,5,39.5N,100W       | column area: 'x' is not written in digits
7,1,0,1,1e3,39.5N,100W     | column people: '1e3' is not written in digits
7,1,0,1,\"1,000\",39.5N,1W | column people: '1,000' is not written in digits
7,1,0,1,,39.5N,100W        | column people: '' is empty
7,1,0,1,5,39.5N,           | column longitude: '' is empty
7,1,0,1,5.5,39.5N,100W     | column people: '5.5' is not a whole number
7,1,0,1,1.000,39.5N,100W   | column people: '1.000' is not a whole number
7,1,0,1,-5,39.5N,100W      | column people: '-5' is negative
7,1,-1,1,5,39.5N,100W      | column row: '-1' is negative
0,1,0,1,5,39.5N,100W       | column area: '0' is not within 1 to 416
417,1,0,1,5,39.5N,100W     | column area: '417' is not within 1 to 416
8,0,0,1,5,39.5N,100W       | column weight: '0' is not within 1 to 65535
8,65536,0,1,5,39.5N,100W   | column weight: '65536' is not within 1 to 65535
7,1,128,1,5,39.5N,100W     | column row: '128' is not within 0 to 127
7,1,0,128,5,39.5N,100W     | column column: '128' is not within 0 to 127
7,1,0,1,1000001,39.5N,100W | column people: '1000001' is not within 0 to 1000000
7,1,0,1,5,90.1N,100W       | column latitude: '90.1N' is not within -32400000 to 32400000 hundredths of an arc second
7,1,0,1,5,39.5N,6000W      | column longitude: '6000W' is not within -64800000 to 64800000 hundredths of an arc second
7,1,0,1,5,39.5W,100W       | column latitude: '39.5W' is a longitude where a latitude is due
7,2,0,1,5,39.5N,100W       | column weight: '2', but area 7 has weight 1 on line 2
7,1,0,0,5,39.5N,100W       | columns row, column: row 0, column 0 of area 7 is on line 2 already
8,1,0,0,0,39.5N,100W       | column people: area 8 has 0 people, not 1 to 40,000,000
";

/// Builds a map of a text that has a mistake; says what is said of it.
fn build_wrong(name: &str, text: &[u8]) -> String {
    let folder = folder_with(&format!("csv-{name}"), &[("it.csv", text)]);
    let ended = codwalet(&folder, &["map", "build", "it.csv", "it.map"]);
    assert_eq!((ended.status, ended.out.as_str()), (Some(2), ""), "{name}");
    assert_eq!(files_in(&folder), ["it.csv"], "{name}");
    ended.err
}

#[test]
fn wrong_lines_are_named() {
    for (line, said) in rows(WRONG_LINES) {
        let text = format!("{HEADER}\n7,1,0,0,60,39.5N,100W\n{line}\n");
        assert_eq!(build_wrong("line", text.as_bytes()), format!("it.csv:3: {said}\n"));
    }
}

#[test]
fn a_column_does_not_mix_degrees_and_whole_numbers() {
    // 0 is the same in both, and what is no coordinate tells of no unit.
    let text = "7,1,0,0,60,39,0\n7,1,0,1,5,0,x.5\n7,1,0,2,5,39.5,-0100\n7,1,0,3,5,14220000,100W\n";
    let mixed = |line, column, word, degrees_line| {
        let rule = format!("a whole number, hundredths of an arc second, where line {degrees_line} has degrees");
        format!("it.csv:{line}: column {column}: '{word}' is {rule}\n")
    };
    let said = build_wrong("mixed", format!("{HEADER}\n{text}").as_bytes());
    let (_, said) = said.split_once('\n').expect("the word that is no coordinate is named first");
    let expected =
        [mixed(2, "latitude", "39", 4), mixed(5, "latitude", "14220000", 4), mixed(4, "longitude", "-0100", 5)];
    assert_eq!(said, expected.concat());
}

#[test]
fn a_decimal_comma_is_refused_with_the_rule() {
    let text = HEADER.replace(',', ";") + "\n7;1;0;0;60;39,5;100W\n";
    let rule = "a whole number is hundredths of an arc second, a number with a dot or a letter is degrees";
    let said = format!("it.csv:2: column latitude: '39,5' is no coordinate: {rule}\n");
    assert_eq!(build_wrong("comma", text.as_bytes()), said);
}

#[test]
fn all_mistakes_are_named() {
    let lines = "7,1,0,0,60,39.5N,100W\nx,1,0,1,-5,39.5N,100W\n7,2,0,0,5,39.5N,100W\n8,1,0,1,5,39.5N\n";
    let said = "it.csv:3: column area: 'x' is not written in digits\n\
                it.csv:3: column people: '-5' is negative\n\
                it.csv:5: 6 fields where 7 are due; the last is '39.5N'\n\
                it.csv:4: column weight: '2', but area 7 has weight 1 on line 2\n\
                it.csv:4: columns row, column: row 0, column 0 of area 7 is on line 2 already\n";
    assert_eq!(build_wrong("all", format!("{HEADER}\n{lines}").as_bytes()), said);
}

#[test]
fn of_many_mistakes_the_first_hundred_are_named() {
    let text = format!("{HEADER}\n{}", "x,1,0,1,5,39.5N,100W\n".repeat(1_234));
    let said = build_wrong("many", text.as_bytes());
    assert_eq!(said.lines().count(), 101);
    assert!(said.ends_with("it.csv:101: column area: 'x' is not written in digits\nand 1,134 more\n"), "{said}");
}

/// Files that are wrong as a whole, and what is said of them.
const WRONG_FILES: [(&[u8], &str); 6] = [
    (b"", "it.csv:1: the header '' lacks area, weight, row, column, people, latitude, longitude\n"),
    (
        b"# x\narea;weight;row;column;people;lat;lon\n7;1;0;0;60;39.5N;100W\n",
        "it.csv:2: the header 'area weight row column people lat lon' lacks latitude, longitude\n",
    ),
    (b"area,weight,row,column,people,latitude,longitude,Row\n", "it.csv:1: the header has column row twice\n"),
    (b"\"area\n", "it.csv:1: '\"area' starts with a quote and none ends it\n"),
    (b"area,weight,row,column,people,latitude,longitude\n# none\n", "it.csv: has no cells\n"),
    (b"area,weight,row,column,people,latitude,longitude\n7,caf\xe9\r\n", "it.csv:2: 'caf\u{fffd}' is not UTF-8 text\n"),
];

#[test]
fn wrong_files_are_named() {
    for (text, said) in WRONG_FILES {
        assert_eq!(build_wrong("file", text), said);
    }
}

#[test]
fn limits_of_a_whole_map() {
    let line = |area: usize| format!("{area},1,0,0,60,39.5N,100W\n");
    let areas: String = (1..=34).rev().map(line).collect();
    let said = build_wrong("areas", format!("{HEADER}\n{areas}").as_bytes());
    let too_many =
        |line, area| format!("it.csv:{line}: column area: '{area}' is an area too many: a map has at most 32\n");
    assert_eq!(said, too_many(34, 2) + &too_many(35, 1));

    let crowded: String = (0..41).map(|column| format!("7,1,0,{column},1000000,39.5N,100W\n")).collect();
    let said = build_wrong("crowded", format!("{HEADER}\n{crowded}").as_bytes());
    assert_eq!(said, "it.csv:42: column people: area 7 has 41,000,000 people, not 1 to 40,000,000\n");
}

#[test]
fn maps_are_not_written_over_csv() {
    let folder = folder_with("csv-over", &[("it.csv", CSV.as_bytes()), ("cells", CSV.as_bytes())]);
    let build = |cells, map| codwalet(&folder, &["map", "build", cells, map]);
    let said = "codwalet map build: 'it.CSV' would be taken for CSV text; give the map another name\n";
    assert_eq!(build("it.csv", "it.CSV").said(), (Some(2), said));
    let said = "codwalet map build: './cells' is CELLS itself; give the map another name\n";
    assert_eq!(build("cells", "./cells").said(), (Some(2), said));
    let said = "'none/it.map' cannot be written: No such file or directory (os error 2)\n";
    assert_eq!(build("it.csv", "none/it.map").said(), (Some(1), said));
    assert_eq!(std::fs::read_to_string(folder.join("cells")).expect("the file is read"), CSV);
}

#[test]
fn csv_is_recognised_by_its_header() {
    let headed = format!("\u{feff}# made by hand\n{}", CSV.replace(',', ";"));
    let wrong = CSV.replace("latitude", "lat");
    let files: [(&str, &[u8]); 5] = [
        ("cells", headed.as_bytes()),
        ("cells.txt", CSV.as_bytes()),
        ("wrong", wrong.as_bytes()),
        ("text", b"7,1,0,0,60\n"),
        ("text.csv", b"7,1,0,0,60\n"),
    ];
    let folder = folder_with("csv-recognised", &files);
    let check = |file| codwalet(&folder, &["check", file]);
    for file in ["cells", "cells.txt"] {
        assert_eq!(check(file).out, format!("{file}: accepted: 1 area, 34 bytes\n"));
    }
    let said = "wrong:1: the header 'area weight row column people lat longitude' lacks latitude\n";
    assert_eq!(check("wrong").said(), (Some(2), said));
    assert_eq!((check("text").status, check("text.csv").status), (Some(3), Some(2)));
}
