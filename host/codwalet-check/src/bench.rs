//! Times of the engine beside those of the same work written directly in Rust, in one run. Both get the same bytes, and
//! buffers in the same state, by turns. Each time is the least of several runs, as whatever else the machine does only
//! adds to it. Runs are made at several alignments of the stack, since a grant and a cancellation were seen to take up
//! to a fifth longer at some. The answers must agree.

mod holdings;
pub(crate) mod plain;

use codwalet::limits::{LICENCES, MASK};
use codwalet::raw::{self, Licence, Outline, Register, Step};
use holdings::Holdings;
use std::fmt;
use std::hint::black_box;
use std::time::{Duration, Instant};

/// Runs of each side, at least.
const RUNS: u32 = 15;
/// For how long the runs of one work go on, at least: a short one then has many, some of them undisturbed.
const SPAN: Duration = Duration::from_millis(1_500);
/// Calls in one run of a grant or a cancellation, which alone are too short to time.
const CALLS: u32 = 200_000;
/// Entries of the table that is lent to footprints: as many as the largest slack here takes, or more.
const ENTRIES: usize = 1_100_000;

/// The engine's answer is not that of the plain version.
#[derive(Debug)]
pub struct Disagreement {
    work: &'static str,
}

impl fmt::Display for Disagreement {
    fn fmt(&self, f: &mut fmt::Formatter) -> fmt::Result {
        write!(f, "{}: the engine's answer is not that of the plain version", self.work)
    }
}

impl std::error::Error for Disagreement {}

/// The times of one work.
#[derive(Debug)]
pub struct Row {
    work: &'static str,
    engine: Duration,
    plain: Duration,
    /// Positions of a search, where the work is one.
    positions: Option<u64>,
}

impl fmt::Display for Row {
    fn fmt(&self, f: &mut fmt::Formatter) -> fmt::Result {
        let ratio = self.engine.as_secs_f64() / self.plain.as_secs_f64();
        write!(f, "{:<52} {:>11} {:>11} {ratio:>6.2}", self.work, shown(self.engine), shown(self.plain))?;
        if let Some(positions) = self.positions {
            let speed = positions as f64 / self.engine.as_secs_f64() / 1e6;
            write!(f, "  {positions} positions, the engine {speed:.0} million a second")?;
        }
        Ok(())
    }
}

/// A time in nanoseconds, microseconds or milliseconds.
fn shown(time: Duration) -> String {
    match time.as_secs_f64() {
        t if t < 1e-6 => format!("{:.0} ns", t * 1e9),
        t if t < 1e-3 => format!("{:.2} us", t * 1e6),
        t => format!("{:.2} ms", t * 1e3),
    }
}

/// The line above the rows.
pub fn heading() -> String {
    format!("{:<52} {:>11} {:>11} {:>6}", "work", "engine", "plain", "ratio")
}

/// The works, in the order of the table.
const WORKS: [fn() -> Result<Row, Disagreement>; 19] = [
    || check_map("check of the largest map, 6,357,249 bytes", &holdings::largest(0)),
    || coverage("coverage of one area, largest map, 64 boxes", &holdings::largest(LICENCES), 1),
    || propose("proposal, largest map, no box", &holdings::largest(0)),
    || propose("proposal, largest map, 1 box", &holdings::largest(1)),
    || propose("proposal, largest map, 7 boxes", &holdings::largest(7)),
    || propose("proposal, largest map, 8 boxes", &holdings::largest(8)),
    || propose("proposal, largest map, 63 boxes", &holdings::largest(63)),
    || propose("proposal, largest map, 64 boxes", &holdings::largest(LICENCES)),
    || propose("proposal, largest map, 64 boxes of different widths", &holdings::largest_narrow()),
    || propose("proposal, as large, 64 boxes that cut every row", &holdings::largest_cut()),
    twenty_partial,
    || footprint("footprint, largest map, 2 rings and a last one", &holdings::few_rings()),
    || footprint("footprint, growing by 193 rings and a last one", &holdings::growing()),
    || footprint("footprint, a snake, 3,115 rings and a last one", &holdings::snake()),
    || footprint("footprint, shrinking by 63 rings and a last one", &holdings::shrinking()),
    || footprint("footprint, last ring of 500 cells, slack 1,000,999", &holdings::last_ring()),
    || grant("grant, 32 licences in force"),
    || grant_width("grant of 20 MHz, 32 licences in force"),
    || cancel("cancellation, 32 licences in force"),
];

/// The rows of the table, each measured when it is asked for.
pub fn rows() -> impl Iterator<Item = Result<Row, Disagreement>> {
    WORKS.iter().map(|work| work())
}

fn twenty_partial() -> Result<Row, Disagreement> {
    let row = propose("proposal, 20 partial areas, nothing left out", &holdings::twenty_partial())?;
    Ok(Row { positions: Some(holdings::twenty_partial_positions()), ..row })
}

fn check_map(work: &'static str, on: &Holdings) -> Result<Row, Disagreement> {
    compare(work, || timed(|| raw::check_map(black_box(&on.map))), || timed(|| plain::check_map(black_box(&on.map))))
}

fn coverage(work: &'static str, on: &Holdings, number: u16) -> Result<Row, Disagreement> {
    compare(
        work,
        || timed(|| raw::coverage(black_box(&on.map), on.register, number)),
        || timed(|| plain::coverage(black_box(&on.map), on.register, number)),
    )
}

fn propose(work: &'static str, on: &Holdings) -> Result<Row, Disagreement> {
    compare(
        work,
        || timed(|| raw::propose(black_box(&on.map), on.register, 0)),
        || timed(|| plain::propose(black_box(&on.map), on.register, 0)),
    )
}

fn footprint(work: &'static str, on: &Holdings) -> Result<Row, Disagreement> {
    compare(work, || outlined(raw::footprint, on), || outlined(plain::footprint, on))
}

fn grant(work: &'static str) -> Result<Row, Disagreement> {
    let (register, licence) = (holdings::half_full(), holdings::new_licence());
    step::<_, With<Licence>>(work, raw::codwalet_grant, plain::grant, register, licence)
}

fn grant_width(work: &'static str) -> Result<Row, Disagreement> {
    let (register, licence) = (holdings::half_full(), holdings::new_licence());
    step::<_, WithWidth>(work, raw::codwalet_grant_width, plain::grant_width, register, (licence, 20))
}

fn cancel(work: &'static str) -> Result<Row, Disagreement> {
    step::<_, With<u32>>(work, raw::codwalet_cancel, plain::cancel, holdings::half_full(), 17)
}

/// A grant of a licence, or a cancellation of a call sign.
type With<A> = extern "C" fn(Register, A) -> Step;
/// A grant of a licence with a width.
type WithWidth = extern "C" fn(Register, Licence, u32) -> Step;

/// A call that takes a register and hands back the next one.
trait Stepping<A>: Copy {
    fn step(self, current: Register, argument: A) -> Step;
}

impl<A> Stepping<A> for With<A> {
    #[inline(always)]
    fn step(self, current: Register, argument: A) -> Step {
        self(current, argument)
    }
}

impl Stepping<(Licence, u32)> for WithWidth {
    #[inline(always)]
    fn step(self, current: Register, (licence, width): (Licence, u32)) -> Step {
        self(current, licence, width)
    }
}

/// The engine's call and the plain one have the same type, that of a pointer.
fn step<A: Copy, S: Stepping<A>>(
    work: &'static str,
    engine: S,
    plain: S,
    register: Register,
    argument: A,
) -> Result<Row, Disagreement> {
    let each = compare(work, || stepped(engine, register, argument), || stepped(plain, register, argument))?;
    Ok(each.for_each_call())
}

impl Row {
    fn for_each_call(self) -> Row {
        Row { engine: self.engine / CALLS, plain: self.plain / CALLS, ..self }
    }
}

type Footprint = fn(&[u8], Register, u32, &mut [u8], &mut [u16]) -> Outline;

/// A footprint into buffers that no earlier call has written.
fn outlined(footprint: Footprint, on: &Holdings) -> (Duration, (Outline, Vec<u8>)) {
    let mut mask = vec![u8::MAX; MASK];
    let mut table = vec![1; ENTRIES];
    let (time, outline) = timed(|| footprint(black_box(&on.map), on.register, 0, &mut mask, &mut table));
    (time, (outline, mask))
}

/// The licences in force, by call sign: which place of a register each takes is left free.
fn in_force(register: &Register) -> Vec<Licence> {
    let mut licences: Vec<Licence> = register.places.iter().filter(|place| place.call_sign != 0).copied().collect();
    licences.sort_by_key(|licence| licence.call_sign);
    licences
}

/// Many calls of a grant or a cancellation, and what the last one comes to. Both sides are called from this same code,
/// so that the caller's own copies are the same.
#[inline(never)]
fn stepped<A: Copy>(call: impl Stepping<A>, register: Register, argument: A) -> (Duration, (u32, Vec<Licence>)) {
    let (time, step) = timed(|| {
        for _ in 1..CALLS {
            black_box(call.step(black_box(register), black_box(argument)));
        }
        call.step(register, argument)
    });
    (time, (step.refusal, in_force(&step.next)))
}

fn timed<T>(call: impl FnOnce() -> T) -> (Duration, T) {
    let start = Instant::now();
    let answer = black_box(call());
    (start.elapsed(), answer)
}

/// A run with the stack at one of the four places that it can have in a cache line of 64 bytes.
fn aligned<T>(turn: u32, run: &dyn Fn() -> T) -> T {
    match turn % 4 {
        0 => below::<16, T>(run),
        1 => below::<32, T>(run),
        2 => below::<48, T>(run),
        _ => below::<64, T>(run),
    }
}

/// A run below so many bytes of stack that nothing uses.
#[inline(never)]
fn below<const BYTES: usize, T>(run: &dyn Fn() -> T) -> T {
    let unused = [0u8; BYTES];
    black_box(&unused);
    run()
}

/// The least times of alternating runs, where the answers agree.
fn compare<T: PartialEq>(
    work: &'static str,
    engine: impl Fn() -> (Duration, T),
    plain: impl Fn() -> (Duration, T),
) -> Result<Row, Disagreement> {
    let mut row = Row { work, engine: Duration::MAX, plain: Duration::MAX, positions: None };
    let start = Instant::now();
    let mut runs = 0;
    while runs < RUNS || start.elapsed() < SPAN {
        let (engine_time, engine_answer) = aligned(runs, &engine);
        let (plain_time, plain_answer) = aligned(runs, &plain);
        if engine_answer != plain_answer {
            return Err(Disagreement { work });
        }
        row.engine = row.engine.min(engine_time);
        row.plain = row.plain.min(plain_time);
        runs += 1;
    }
    Ok(row)
}

#[cfg(test)]
mod tests {
    use super::*;
    use codwalet::limits::{AREAS, SIDE};

    #[test]
    fn the_largest_map_is_as_long_as_its_row_says() {
        assert_eq!(holdings::largest(0).map.len(), 6_357_249);
    }

    #[test]
    fn the_search_has_all_positions_but_one() {
        // By hand: 1 for no area, 3 for the first one, 8 for the first two.
        assert_eq!(holdings::positions(2), 1 + 3 + 8);
        assert_eq!(holdings::twenty_partial_positions(), 22_020_095);
    }

    #[test]
    fn the_slacks_are_as_counted_by_hand() {
        let slacks = [
            (holdings::few_rings(), 1_600),
            (holdings::growing(), 45),
            (holdings::snake(), 1),
            (holdings::shrinking(), 11_810),
            (holdings::last_ring(), 1_000_999),
        ];
        for (on, slack) in slacks {
            let short = plain::footprint(&on.map, on.register, 0, &mut [0; MASK], &mut []);
            assert_eq!(short.needed, slack + 1);
        }
    }

    /// The mask of a footprint by the plain version.
    fn mask_of(on: &Holdings, area: u32) -> Vec<u8> {
        let mut mask = vec![0; MASK];
        let outline = plain::footprint(&on.map, on.register, 0, &mut mask, &mut vec![0; ENTRIES]);
        assert_eq!(outline, Outline { area, ..Outline::default() });
        mask
    }

    /// How many cells of a footprint are in so many rows and columns around the middle of the largest area.
    fn cells_in_middle(mask: &[u8], side: usize) -> usize {
        let middle = (SIDE - side) / 2..(SIDE + side) / 2;
        let places = middle.clone().flat_map(|row| middle.clone().map(move |column| row * SIDE + column));
        places.filter(|&place| mask[place] == 1).count()
    }

    #[test]
    fn two_rings_of_the_largest_map_leave_and_a_third_in_part() {
        let mask = mask_of(&holdings::few_rings(), AREAS as u32);
        // Of 16 x 16 cells the rings leave 12 x 12; of the last ring, around 10 x 10, 16 cells are left out.
        assert_eq!([128, 12, 10].map(|side| cells_in_middle(&mask, side)), [128, 128, 100]);
    }

    /// The first area has 8 boxes, each within the one before. By hand: from row and column 8n and 4n to before
    /// 128 - 8n, for n up to 7.
    #[test]
    fn coverage_is_of_the_area_and_the_boxes_named() {
        let on = holdings::largest(LICENCES);
        let cells: usize = (0..8).map(|n| (SIDE - 16 * n) * (SIDE - 12 * n)).sum();
        let covered = plain::coverage(&on.map, on.register, 1);
        assert_eq!((covered.cells, covered.refusal), (cells as u64, 0));
        assert_eq!(plain::coverage(&on.map, on.register, 9).cells, 0);
    }

    /// The boxes of the largest map in their first area, each alone at 50 MHz, add to what all have at their widths. By
    /// hand: the 1st, 9th, 17th box and so on have 50, 42, 34, 26, 18, 10, 2 and 44 MHz.
    #[test]
    fn coverage_is_by_widths() {
        let (on, full) = (holdings::largest_narrow(), holdings::largest(LICENCES));
        let alone = |place: usize| {
            let mut register = Register { places: [Licence::default(); LICENCES] };
            register.places[0] = full.register.places[place];
            plain::coverage(&full.map, register, 1).mhz_pops
        };
        let widths = [50, 42, 34, 26, 18, 10, 2, 44];
        let by_width: u64 = (0..8).map(|n| widths[n] * alone(8 * n) / 50).sum();
        let covered = plain::coverage(&on.map, on.register, 1);
        assert_eq!(covered.mhz_pops, by_width);
        assert_eq!(covered.cells, plain::coverage(&full.map, full.register, 1).cells);
    }

    #[test]
    fn the_rings_are_as_counted_by_hand() {
        // The ring that takes a place, from 1 on, growing from the corner and shrinking from the edge.
        let growing = |row: usize, column: usize| row + column;
        let shrinking = |row: usize, column: usize| {
            1 + [row, column].map(|at| at.min(SIDE - 1 - at)).into_iter().min().unwrap_or(0)
        };
        let (grown, shrunk) = (mask_of(&holdings::growing(), 1), mask_of(&holdings::shrinking(), 1));
        for (row, column) in (0..SIDE).flat_map(|row| (0..SIDE).map(move |column| (row, column))) {
            let place = row * SIDE + column;
            match growing(row, column) {
                ring if ring <= 193 => assert_eq!(grown[place], 1, "row {row}, column {column}"),
                ring if ring > 194 => assert_eq!(grown[place], 0, "row {row}, column {column}"),
                _ => {}
            }
            if shrinking(row, column) <= 63 {
                assert_eq!(shrunk[place], 0, "row {row}, column {column}");
            }
        }
        // Each ring of the snake is one cell; the first cell and that of the last ring are in the footprint too.
        let cells = mask_of(&holdings::snake(), 1).iter().filter(|&&byte| byte == 1).count();
        assert_eq!(cells, 1 + 3_115 + 1);
    }
}
