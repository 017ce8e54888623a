//! Holds the library's `qb_filter` to the reference: answer, place and every byte of the table, for COUNT random calls of SEED.
//! At the first difference it prints all that the call was given, so that it can be replayed by hand, and both results.
use reference::filter::filter;
use reference::table::ENTRY;
use reference::traffic::{calls, Call};

extern "C" {
    fn qb_filter(
        side: u32,
        clock: u64,
        table: *mut u8,
        table_len: usize,
        packet: *const u8,
        packet_len: usize,
    ) -> u32;
}

/// What a call gives.
#[derive(PartialEq, Eq)]
struct Outcome {
    answer: u32,
    place: u32,
    /// The table after the call.
    table: Vec<u8>,
}

fn library(call: &Call) -> Outcome {
    let mut table = call.table.clone();
    // The two slices are valid for their lengths and do not overlap.
    let result = unsafe {
        qb_filter(
            call.side,
            call.clock,
            table.as_mut_ptr(),
            table.len(),
            call.packet.as_ptr(),
            call.packet.len(),
        )
    };
    Outcome {
        answer: result / 65536,
        place: result % 65536,
        table,
    }
}

fn reference(call: &Call) -> Outcome {
    let mut table = call.table.clone();
    let (answer, place) = filter(call.side, call.clock, &mut table, &call.packet);
    Outcome {
        answer,
        place,
        table,
    }
}

fn hex(bytes: &[u8]) -> String {
    bytes.iter().map(|byte| format!("{byte:02x}")).collect()
}

fn print_packet(packet: &[u8]) {
    println!("packet, {} bytes", packet.len());
    for line in packet.chunks(64) {
        println!("{}", hex(line));
    }
}

/// A line for the header and one for each entry, the last cut short where the length is illegal. Zero entries in a row share a line without
/// their bytes, as they can be most of the table.
fn print_table(table: &[u8]) {
    println!("table before, {} bytes", table.len());
    let (header, entries) = table.split_at(table.len().min(ENTRY));
    println!("header: {}", hex(header));
    let entries: Vec<&[u8]> = entries.chunks(ENTRY).collect();
    let is_zero = |entry: &[u8]| entry.iter().all(|&byte| byte == 0);
    let mut place = 0;
    for run in entries.chunk_by(|one, next| is_zero(one) == is_zero(next)) {
        if is_zero(run[0]) {
            let last = place + run.len() - 1;
            println!("places {place} to {last} left out: zeros");
        } else {
            for (step, entry) in run.iter().enumerate() {
                println!("place {}: {}", place + step, hex(entry));
            }
        }
        place += run.len();
    }
}

/// Where a byte lies in the table.
fn position(at: usize) -> String {
    match (at / ENTRY).checked_sub(1) {
        None => format!("byte {at}, in the header"),
        Some(place) => format!("byte {at}, byte {} of place {place}", at % ENTRY),
    }
}

fn print_first_difference(before: &[u8], ours: &[u8], theirs: &[u8]) {
    match (0..before.len()).find(|&at| ours[at] != theirs[at]) {
        None => println!("tables after: the same"),
        Some(at) => println!(
            "tables after: first different at {}: before {:02x}, library {:02x}, reference {:02x}",
            position(at),
            before[at],
            ours[at],
            theirs[at]
        ),
    }
}

fn print_difference(seed: u64, number: usize, call: &Call, ours: &Outcome, theirs: &Outcome) {
    println!("seed {seed}, call {number} counted from 0");
    println!("side {}", call.side);
    println!("clock {}", call.clock);
    print_packet(&call.packet);
    print_table(&call.table);
    println!("library: answer {}, place {}", ours.answer, ours.place);
    println!(
        "reference: answer {}, place {}",
        theirs.answer, theirs.place
    );
    print_first_difference(&call.table, &ours.table, &theirs.table);
}

fn main() {
    let numbers: Vec<u64> = std::env::args()
        .skip(1)
        .map(|word| word.parse().expect("SEED COUNT"))
        .collect();
    let [seed, count] = numbers[..] else {
        panic!("SEED COUNT");
    };
    let mut done = 0u64;
    let mut passed = 0u64;
    for (number, call) in calls(seed, count as usize).enumerate() {
        let ours = library(&call);
        let theirs = reference(&call);
        if ours != theirs {
            print_difference(seed, number, &call, &ours, &theirs);
            std::process::exit(1);
        }
        done += 1;
        passed += u64::from(theirs.answer == 0);
    }
    println!("{done} calls, {passed} passed");
}
