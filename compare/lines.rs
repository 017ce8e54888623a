//! Holds the library's `qb_read_line` and `qb_write_line` to the reference: every answer, every number stored and every byte of the
//! output, for COUNT random lines and COUNT random packets of SEED.
use std::collections::BTreeMap;
use std::fmt::Debug;

use reference::trace::{read_line, write_line, LineRead, LineWrite, LONGEST_LINE, LONGEST_PACKET};

// The reference's random numbers, which its library keeps to itself.
#[allow(dead_code)]
#[path = "../reference/src/traffic/random.rs"]
mod random;
use random::Random;

extern "C" {
    fn qb_read_line(
        line: *const u8,
        line_len: usize,
        packet: *mut u8,
        room: usize,
        side: *mut u8,
        clock: *mut u64,
        length: *mut usize,
        offset: *mut usize,
    ) -> u32;
    fn qb_write_line(
        side: u32,
        clock: u64,
        packet: *const u8,
        packet_len: usize,
        line: *mut u8,
        room: usize,
        length: *mut usize,
    ) -> u32;
}

/// Characters before the packet.
const PREFIX: usize = LONGEST_LINE - 2 * LONGEST_PACKET;
/// Bytes past the room, which must stay as they were too.
const BEYOND: usize = 16;

/// The numbers start as others than any call stores, so that one not stored is seen.
fn library_read(line: &[u8], packet: &mut [u8]) -> LineRead {
    let mut read = LineRead {
        answer: u32::MAX,
        side: u8::MAX,
        clock: u64::MAX,
        length: usize::MAX,
        offset: usize::MAX,
    };
    // The references are valid for their lengths and do not overlap.
    read.answer = unsafe {
        qb_read_line(
            line.as_ptr(),
            line.len(),
            packet.as_mut_ptr(),
            packet.len(),
            &mut read.side,
            &mut read.clock,
            &mut read.length,
            &mut read.offset,
        )
    };
    read
}

fn library_write(side: u32, clock: u64, packet: &[u8], line: &mut [u8]) -> LineWrite {
    let mut length = usize::MAX;
    // The references are valid for their lengths and do not overlap.
    let answer = unsafe {
        qb_write_line(
            side,
            clock,
            packet.as_ptr(),
            packet.len(),
            line.as_mut_ptr(),
            line.len(),
            &mut length,
        )
    };
    LineWrite { answer, length }
}

/// Packet lengths at the limits, and most of them short.
fn random_length(random: &mut Random) -> usize {
    match random.below(16) {
        0 => 1,
        1 => LONGEST_PACKET,
        2 => random.between(1, LONGEST_PACKET as u64) as usize,
        _ => random.between(1, 80) as usize,
    }
}

/// Room about what is needed, none, or enough for any.
fn random_room(random: &mut Random, needed: usize, most: usize) -> usize {
    match random.below(10) {
        0 => 0,
        1 => needed.saturating_sub(1),
        2 => needed,
        3 => needed + 1,
        4 => random.index(needed + 1),
        _ => most,
    }
}

/// A legal line, or one like it.
fn random_line(random: &mut Random) -> Vec<u8> {
    let side = random.below(2);
    let clock = random.below(1 << 48);
    let mut line = format!("{side} {clock:012x} ").into_bytes();
    for _ in 0..2 * random_length(random) {
        line.push(random.pick(b"0123456789abcdef"));
    }
    let at = random.index(line.len());
    match random.below(16) {
        0 => line[at] = random.next() as u8,
        1 => line[random.index(PREFIX + 2)] = random.next() as u8,
        2 => line[random.index(PREFIX + 2)] = random.pick(b"012 /:`agAFG\n\r\0"),
        3 => line.truncate(at),
        4 => line.truncate(random.index(PREFIX + 3)),
        // An odd digit.
        5 => line.push(b'0'),
        6 => line.push(random.pick(b"\n\r \0g")),
        7 => line.insert(at, random.pick(b"0 f")),
        8 => line[at].make_ascii_uppercase(),
        9 => line.make_ascii_uppercase(),
        // Over-long, and just not.
        10 => {
            let over = random.between(0, 3) as usize;
            line.resize(LONGEST_LINE - 1 + over, b'0');
        }
        _ => {}
    }
    line
}

/// Asks both with outputs of the same bytes, and gives the answer that they agree on.
fn agreed<T: PartialEq + Debug>(
    call: &str,
    room: usize,
    fill: u8,
    library: impl Fn(&mut [u8]) -> T,
    reference: impl Fn(&mut [u8]) -> T,
) -> T {
    let mut ours = vec![fill; room + BEYOND];
    let mut theirs = ours.clone();
    let got = library(&mut ours[..room]);
    let expected = reference(&mut theirs[..room]);
    if got != expected || ours != theirs {
        println!("{call}, room {room}");
        println!("library {got:?}");
        println!("reference {expected:?}");
        println!("outputs after are equal: {}", ours == theirs);
        std::process::exit(1);
    }
    expected
}

fn compare_read(random: &mut Random) -> u32 {
    let line = random_line(random);
    let needed = line.len().saturating_sub(PREFIX) / 2;
    let read = agreed(
        &format!("line \"{}\"", line.escape_ascii()),
        random_room(random, needed, LONGEST_PACKET),
        random.next() as u8,
        |packet| library_read(&line, packet),
        |packet| read_line(&line, packet),
    );
    read.answer
}

fn compare_write(random: &mut Random) -> u32 {
    let side = match random.below(16) {
        0 => random.pick(&[2, 3, 255, 256, 257, 65_536, 65_537, u32::MAX]),
        1 => random.next() as u32,
        other => (other % 2) as u32,
    };
    let clock = match random.below(16) {
        0 => 1 << 48,
        1 => random.next(),
        2 => (1 << 48) - 1,
        3 => 0,
        _ => random.below(1 << 48),
    };
    let length = match random.below(16) {
        0 => 0,
        1 => LONGEST_PACKET + 1,
        2 => LONGEST_PACKET + random.index(LONGEST_PACKET),
        _ => random_length(random),
    };
    let packet: Vec<u8> = (0..length).map(|_| random.next() as u8).collect();
    let written = agreed(
        &format!("side {side}, clock {clock}, packet {packet:02x?}"),
        random_room(random, PREFIX + 2 * length, LONGEST_LINE),
        random.next() as u8,
        |line| library_write(side, clock, &packet, line),
        |line| write_line(side, clock, &packet, line),
    );
    written.answer
}

/// How many calls had each answer.
type Counts = BTreeMap<u32, u64>;

fn print_total(what: &str, counts: &Counts) {
    let calls: u64 = counts.values().sum();
    let each: Vec<String> = counts
        .iter()
        .map(|(answer, count)| format!("{count} answered {answer}"))
        .collect();
    println!("{calls} {what}: {}", each.join(", "));
}

fn main() {
    let numbers: Vec<u64> = std::env::args()
        .skip(1)
        .map(|word| word.parse().expect("SEED COUNT"))
        .collect();
    let [seed, count] = numbers[..] else {
        panic!("SEED COUNT");
    };
    let mut random = Random::new(seed);
    let mut read = Counts::new();
    let mut written = Counts::new();
    for _ in 0..count {
        *read.entry(compare_read(&mut random)).or_default() += 1;
        *written.entry(compare_write(&mut random)).or_default() += 1;
    }
    print_total("lines read", &read);
    print_total("packets written", &written);
}
