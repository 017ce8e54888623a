//! Times the library's `qb_filter` and the reference's `filter` on the same calls, the best of RUNS batches of each. Built with
//! `--cfg before`, it times an earlier library's `qb_filter_before` in the reference's place.
mod batches;
mod cases;
mod packets;
mod report;
mod tables;

use batches::rounds_needed;
use cases::Case;
use reference::filter::NO_PLACE;
use report::{each, report};
use std::hint::black_box;
use std::time::{Duration, Instant};
use tables::CLOCK;

extern "C" {
    fn qb_filter(
        side: u32,
        clock: u64,
        table: *mut u8,
        table_len: usize,
        packet: *const u8,
        packet_len: usize,
    ) -> u32;
    #[cfg(before)]
    fn qb_filter_before(
        side: u32,
        clock: u64,
        table: *mut u8,
        table_len: usize,
        packet: *const u8,
        packet_len: usize,
    ) -> u32;
}

/// The copies of a table together fit the first-level cache. There are several, so that no call waits for what the last one wrote.
const CACHED: usize = 32 << 10;
/// Tables begin with a cache line, whichever implementation they are lent to.
const LINE: usize = 64;

/// An implementation, called in its own shape, so that neither pays for the other's.
trait Filter {
    /// Whether 5 to 10 may still have no place, as before they told an offset.
    const EARLIER: bool = false;
    type Given;
    fn call(side: u32, clock: u64, table: &mut [u8], packet: &[u8]) -> Self::Given;
    fn answer_and_place(given: Self::Given) -> (u32, u32);
}

struct Ours;
struct Reference;

impl Filter for Ours {
    type Given = u32;

    fn call(side: u32, clock: u64, table: &mut [u8], packet: &[u8]) -> u32 {
        // The two slices are valid for their lengths and do not overlap.
        unsafe {
            qb_filter(
                side,
                clock,
                table.as_mut_ptr(),
                table.len(),
                packet.as_ptr(),
                packet.len(),
            )
        }
    }

    fn answer_and_place(given: u32) -> (u32, u32) {
        (given / 65536, given % 65536)
    }
}

#[cfg(before)]
impl Filter for Reference {
    const EARLIER: bool = true;
    type Given = u32;

    fn call(side: u32, clock: u64, table: &mut [u8], packet: &[u8]) -> u32 {
        // As above.
        unsafe {
            qb_filter_before(
                side,
                clock,
                table.as_mut_ptr(),
                table.len(),
                packet.as_ptr(),
                packet.len(),
            )
        }
    }

    fn answer_and_place(given: u32) -> (u32, u32) {
        Ours::answer_and_place(given)
    }
}

#[cfg(not(before))]
impl Filter for Reference {
    type Given = (u32, u32);

    fn call(side: u32, clock: u64, table: &mut [u8], packet: &[u8]) -> (u32, u32) {
        reference::filter::filter(side, clock, table, packet)
    }

    fn answer_and_place(given: (u32, u32)) -> (u32, u32) {
        given
    }
}

/// Copies of a case's table in one piece of memory, the same for both implementations.
struct Copies {
    memory: Vec<u8>,
    start: usize,
    end: usize,
    length: usize,
}

impl Copies {
    fn of(table: &[u8]) -> Copies {
        let count = (CACHED / table.len()).max(1);
        let memory = vec![0; count * table.len() + LINE];
        let start = memory.as_ptr().align_offset(LINE);
        Copies {
            end: start + count * table.len(),
            length: table.len(),
            memory,
            start,
        }
    }

    fn count(&self) -> usize {
        (self.end - self.start) / self.length
    }

    fn each(&mut self) -> impl Iterator<Item = &mut [u8]> {
        self.memory[self.start..self.end].chunks_exact_mut(self.length)
    }

    fn restore(&mut self, table: &[u8]) {
        self.each().for_each(|copy| copy.copy_from_slice(table));
    }
}

/// Both give the expected answer and leave the same table; a second call finds all as it was, unless the first opened a connection.
fn check(case: &Case) {
    let ours = table_after::<Ours>(case);
    let reference = table_after::<Reference>(case);
    assert!(ours == reference, "{}: the tables differ", case.name);
    assert_eq!(ours != case.table, case.answer == 0, "{}", case.name);
}

fn table_after<F: Filter>(case: &Case) -> Vec<u8> {
    let mut table = case.table.clone();
    call_checked::<F>(case, &mut table);
    if !case.opens {
        let settled = table.clone();
        call_checked::<F>(case, &mut table);
        assert!(table == settled, "{}: another table", case.name);
    }
    table
}

fn call_checked<F: Filter>(case: &Case, table: &mut [u8]) {
    let given = F::answer_and_place(F::call(0, CLOCK, table, &case.packet));
    let without_offset = F::EARLIER && (5..=10).contains(&case.answer) && given.1 == NO_PLACE;
    let place = if without_offset { NO_PLACE } else { case.place };
    assert_eq!(given, (case.answer, place), "{}", case.name);
}

/// One call on each copy.
fn round<F: Filter>(case: &Case, copies: &mut Copies) {
    for table in copies.each() {
        black_box(F::call(
            black_box(0),
            black_box(CLOCK),
            black_box(table),
            black_box(&case.packet),
        ));
    }
}

/// The time of so many rounds, each copy of the table restored before: once, or before every round if a call opens a connection. A
/// table of 512 places has one copy, so an opening there is timed by itself, with the reading of the clock, for both alike.
fn batch<F: Filter>(case: &Case, copies: &mut Copies, rounds: usize) -> Duration {
    let (parts, rounds) = if case.opens { (rounds, 1) } else { (1, rounds) };
    let mut total = Duration::ZERO;
    for _ in 0..parts {
        copies.restore(&case.table);
        let began = Instant::now();
        for _ in 0..rounds {
            round::<F>(case, copies);
        }
        total += began.elapsed();
    }
    total
}

/// A case with the best times so far.
struct Timed<'a> {
    case: &'a Case,
    copies: Copies,
    rounds: (usize, usize),
    best: (Duration, Duration),
}

impl<'a> Timed<'a> {
    fn new(case: &'a Case) -> Timed<'a> {
        let mut copies = Copies::of(&case.table);
        let rounds = (
            rounds_needed(|rounds| batch::<Ours>(case, &mut copies, rounds)),
            rounds_needed(|rounds| batch::<Reference>(case, &mut copies, rounds)),
        );
        Timed {
            case,
            copies,
            rounds,
            best: (Duration::MAX, Duration::MAX),
        }
    }

    /// A batch of each, one after the other, so that noise meets both.
    fn run(&mut self) {
        let (ours, reference) = self.rounds;
        let ours = batch::<Ours>(self.case, &mut self.copies, ours);
        let reference = batch::<Reference>(self.case, &mut self.copies, reference);
        self.best = (self.best.0.min(ours), self.best.1.min(reference));
    }

    fn report(&self) {
        let count = self.copies.count();
        report(
            &self.case.name,
            each(self.best.0, self.rounds.0 * count),
            each(self.best.1, self.rounds.1 * count),
            &[],
        );
    }
}

fn main() {
    let runs = std::env::args().nth(1).and_then(|word| word.parse().ok());
    let runs: usize = runs.expect("RUNS");
    let cases = cases::cases();
    cases.iter().for_each(check);
    let mut timed: Vec<Timed> = cases.iter().map(Timed::new).collect();
    // A case's runs are far apart: a disturbance that lasts does not meet all of them.
    for _ in 0..runs {
        timed.iter_mut().for_each(Timed::run);
    }
    timed.iter().for_each(Timed::report);
}
