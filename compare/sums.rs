//! Holds the two proved sums to the reference's: for COUNT random lists of octets of SEED, of every short length, up to the longest and past it.
use reference::checksum::ones_complement_sum;

#[path = "sums/library.rs"]
mod library;
use library::{sum_by_groups, sum_by_words};

// The reference's random numbers, which its library keeps to itself.
#[allow(dead_code)]
#[path = "../reference/src/traffic/random.rs"]
mod random;
use random::Random;

const LONGEST: usize = 65_535;
/// What the library gives of more octets than the longest.
const NO_SUM: u32 = 65_536;
/// Octets before and after those that are summed; a sum that took one of them in would differ as a rule.
const AROUND: usize = 16;

/// Most are about as long as a header; some are at the limit.
fn random_length(random: &mut Random) -> usize {
    match random.below(256) {
        0 => LONGEST - random.index(8),
        1 => LONGEST + 1 + random.index(8),
        2 => random.index(LONGEST),
        3..=31 => random.index(2_000),
        _ => random.index(130),
    }
}

/// Octets of every kind: random, all alike, and a few among equal ones.
fn random_octets(random: &mut Random, length: usize) -> Vec<u8> {
    let fill = random.pick(&[0, 0xff, 1, 0x80]);
    let mut octets = vec![fill; length];
    match random.below(4) {
        0 => {}
        1 => {
            for _ in 0..random.between(1, 4) {
                let at = random.index(length);
                octets[at] = random.next() as u8;
            }
        }
        _ => octets.fill_with(|| random.next() as u8),
    }
    octets
}

fn main() {
    let numbers: Vec<u64> = std::env::args()
        .skip(1)
        .map(|word| word.parse().expect("SEED COUNT"))
        .collect();
    let [seed, count] = numbers[..] else {
        panic!("SEED COUNT");
    };
    let mut random = Random::new(seed);
    let (mut odd, mut longest, mut too_long) = (0, 0, 0);
    for _ in 0..count {
        let length = random_length(&mut random);
        let start = random.index(AROUND);
        let memory = random_octets(&mut random, start + length + AROUND);
        let octets = &memory[start..start + length];
        let expected = match length {
            ..=LONGEST => u32::from(ones_complement_sum(octets)),
            _ => NO_SUM,
        };
        let given = (sum_by_groups(octets), sum_by_words(octets));
        if given != (expected, expected) {
            println!("octets {octets:02x?}");
            println!("by groups and by words {given:04x?}, the reference {expected:04x}");
            std::process::exit(1);
        }
        odd += length % 2;
        longest += usize::from(length == LONGEST);
        too_long += usize::from(length > LONGEST);
    }
    println!(
        "{count} sums: {odd} of odd lengths, {longest} of {LONGEST} octets, {too_long} of more"
    );
}
