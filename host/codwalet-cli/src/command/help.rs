//! The help pages. Each fits a terminal of 24 lines of 80 characters.

/// All commands.
pub const OVERVIEW: &str = "\
codwalet: which areas a carrier holds in whole 100 MHz blocks, and which in part

  codwalet run PLAN [--json] [--strict]  run a plan: a text with a call a line
  codwalet map build CELLS OUT           build a map from CSV text
  codwalet map show FILE [--json]        a map's areas, or why it is refused
  codwalet check FILE                    say in a line whether a map is accepted
  codwalet help [COMMAND]                a page for a command; as run --help
  codwalet --version

A plan grants licences and asks for answers:
  map region.csv
  grant 101 area 143
  grant 102 box 39.6N 39.7N 100.2W 100.1W width 20
  blocks 143
  propose 0
  footprint 0 svg picture.svg

In place of a file, - is standard input, or standard output for OUT.
Exit status: 0 done (a refusal is an answer), 1 could not be done, 2 a mistake,
3 the map is refused (map show, check).

Example: codwalet run examples/two-areas.plan
";

/// The command `run`.
pub const RUN: &str = "\
codwalet run PLAN [--json] [--strict]

Runs a plan, which is read and checked whole before. - is standard input.
  --json    one JSON object for each line of the plan
  --strict  a licence with a note, or above the first map, is a mistake

A plan has a call on each line; # at the start of a word starts a comment, and
\"double quotes\" hold a word with blanks, in which \\\" is a quote.
  map FILE                          map bytes or CSV, from the plan's folder
  grant CALLSIGN area NUMBER [width MHZ]
  grant CALLSIGN box SOUTH NORTH WEST EAST [width MHZ]
  cancel CALLSIGN
  coverage NUMBER                   MHz-pops and cells that licences cover
  blocks NUMBER
  propose DRAW                      the draw decides among tied areas
  footprint DRAW [svg FILE]         FILE is from the current directory
A coordinate with a dot or a letter is degrees, as 39.5N, 7S or -100.25; a whole
number is hundredths of an arc second. A width is 1 to 50 MHz; without it, 50.

Exit status: 0 done, 1 something could not be written, 2 a mistake.
Example: codwalet run examples/two-areas.plan --json
";

/// The commands about maps.
pub const MAP: &str = "\
codwalet map build CELLS OUT     build a map from CSV text
codwalet map show FILE [--json]  list a map's areas, or say why it is refused

See codwalet map build --help and codwalet map show --help.
";

/// The command `map build`.
pub const BUILD: &str = "\
codwalet map build CELLS OUT

Builds a map from CSV text with a line for each cell, and writes its bytes.
- is standard input for CELLS and standard output for OUT.

The first line names the columns, in any order:
  area, weight, row, column, people, latitude, longitude
Rows and columns are counted from 0. Fields are apart by , or ; or tabs and may
be in \"double quotes\". Blank lines and lines that start with # are passed over.
A coordinate with a dot or a letter is degrees, as 39.5N, 7S or -100.25; a whole
number is hundredths of an arc second.

Exit status: 0 written, 1 it could not be written, 2 a mistake.
Example: codwalet map build examples/two-areas.csv two-areas.map
";

/// The command `map show`.
pub const SHOW: &str = "\
codwalet map show FILE [--json]

Lists the areas of a map, or says why it is refused and at which byte the field
at fault starts. FILE has a map's bytes or CSV text; - is standard input.
  --json  one JSON object

Exit status: 0 the map is accepted, 1 the answer could not be written,
2 a mistake, 3 the map is refused.
Example: codwalet map show examples/two-areas.csv
";

/// The command `check`.
pub const CHECK: &str = "\
codwalet check FILE

Says in a line whether a map is accepted. FILE has a map's bytes or CSV text;
- is standard input.

Exit status: 0 the map is accepted, 1 the answer could not be written,
2 a mistake, 3 the map is refused.
Example: codwalet check examples/two-areas.csv
";
