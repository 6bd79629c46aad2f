//! What is left out of the last ring.

/// Words that are looked at together.
const BLOCK: usize = 8;

/// The sums of people that cells of the last ring come to, up to the slack.
struct Sums<'a> {
    /// A bit for each sum, 64 in a word. Bits past the slack may be set and mean nothing.
    reached: Vec<u64>,
    /// The sums that are reached with one cell more.
    moved: Vec<u64>,
    /// For each sum that is reached, the cell with which it was first reached.
    first: &'a mut [u16],
}

impl Sums<'_> {
    /// The sum 0, which no cell comes to. The table has an entry for each sum up to the slack.
    fn of_nothing(table: &mut [u16]) -> Sums<'_> {
        let mut sums = Sums { reached: vec![0; table.len().div_ceil(64)], moved: Vec::new(), first: table };
        sums.reached[0] = 1;
        sums
    }

    fn has(&self, sum: usize) -> bool {
        self.reached[sum / 64] >> (sum % 64) & 1 == 1
    }

    /// One cell more: each sum that is `people` above one that is reached is reached too.
    fn add(&mut self, people: usize, cell: u16, top: usize) {
        let (words, bits) = (people / 64, people % 64);
        let reached = &mut self.reached[..=top / 64];
        let last = reached.len() - words;
        self.moved.clear();
        self.moved.push(reached[0] << bits);
        // The bits from the word below come by two shifts, since one by 64 is none.
        let pairs = reached[1..last].iter().zip(&reached[..last - 1]);
        self.moved.extend(pairs.map(|(word, below)| word << bits | below >> 1 >> (63 - bits)));
        let blocks = reached[words..].chunks_mut(BLOCK).zip(self.moved.chunks(BLOCK));
        for (block, (reached, moved)) in blocks.enumerate() {
            // Most blocks have nothing fresh.
            if reached.iter().zip(moved).fold(0, |fresh, (reached, moved)| fresh | moved & !reached) != 0 {
                for (at, (reached, moved)) in (words + BLOCK * block..).zip(reached.iter_mut().zip(moved)) {
                    record(self.first, 64 * at, moved & !*reached, cell);
                    *reached |= moved;
                }
            }
        }
    }
}

/// Records the cell for sums that are reached with it, given as bits from a sum on.
fn record(first: &mut [u16], from: usize, mut fresh: u64, cell: u16) {
    while fresh != 0 {
        if let Some(entry) = first.get_mut(from + fresh.trailing_zeros() as usize) {
            *entry = cell;
        }
        fresh &= fresh - 1;
    }
}

/// Which cells of the last ring are left out: those of greatest total within the slack, then of smallest set number.
/// The table has an entry for each sum up to the slack.
pub fn leave_out(people: &[usize], table: &mut [u16]) -> Vec<usize> {
    let slack = table.len() - 1;
    let mut sums = Sums::of_nothing(table);
    let mut top = 0;
    for (cell, &people) in people.iter().enumerate().filter(|&(_, &people)| 0 < people && people <= slack) {
        top = slack.min(top + people);
        sums.add(people, cell as u16, top);
        if sums.has(slack) {
            break;
        }
    }
    let mut left_out = Vec::new();
    let mut sum = (0..=top).rev().find(|&sum| sums.has(sum)).unwrap_or(0);
    while sum > 0 {
        let cell = usize::from(sums.first[sum]);
        left_out.push(cell);
        sum -= people[cell];
    }
    left_out
}
