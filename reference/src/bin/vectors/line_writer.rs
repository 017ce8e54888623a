//! Vectors of the trace line writer.

use crate::{Call, Vector};

/// The first clock that is refused, 2^48.
const CLOCK_LIMIT: u64 = 0x0001_0000_0000_0000;

struct Table(Vec<Vector>);

impl Table {
    fn add(
        &mut self,
        label: impl AsRef<str>,
        (side, clock): (u8, u64),
        packet: impl AsRef<[u8]>,
        room: usize,
        expected: impl Into<String>,
    ) {
        self.0.push(Vector {
            label: format!("write: {}", label.as_ref()),
            buffer: packet.as_ref().to_vec(),
            call: Call::WriteLine { side, clock, room },
            expected: expected.into(),
        });
    }
}

/// "a refusal writes nothing and gives length 0"
fn refused(answer: u32, room: usize) -> String {
    let output = match room {
        0 => "-".to_string(),
        _ => ".".repeat(room),
    };
    format!("{answer} 0 {output}")
}

pub fn vectors() -> Vec<Vector> {
    let mut table = Table(Vec::new());
    document_examples(&mut table);
    sides(&mut table);
    clocks(&mut table);
    packet_lengths(&mut table);
    rooms(&mut table);
    several_causes(&mut table);
    all_bytes(&mut table);
    table.0
}

/// The three lines of document 01's example trace, 15 + 2 * 40 characters each.
fn document_examples(table: &mut Table) {
    let first = [
        0x45, 0x00, 0x00, 0x28, 0x00, 0x00, 0x00, 0x00, 0x40, 0x06, 0x66, 0xce, 0x0a, 0x00, 0x00,
        0x01, 0x0a, 0x00, 0x00, 0x02, 0x04, 0x00, 0x00, 0x50, 0x00, 0x00, 0x00, 0x64, 0x00, 0x00,
        0x00, 0x00, 0x50, 0x02, 0x03, 0xe8, 0x93, 0x44, 0x00, 0x00,
    ];
    table.add(
        "document example 1",
        (0, 0),
        first,
        95,
        "0 95 0 000000000000 4500002800000000400666ce0a0000010a000002040000500000006400000000\
         500203e893440000",
    );
    let second = [
        0x45, 0x00, 0x00, 0x28, 0x00, 0x00, 0x00, 0x00, 0x40, 0x06, 0x66, 0xce, 0x0a, 0x00, 0x00,
        0x02, 0x0a, 0x00, 0x00, 0x01, 0x00, 0x50, 0x04, 0x00, 0x00, 0x00, 0x01, 0xf4, 0x00, 0x00,
        0x00, 0x65, 0x50, 0x12, 0x07, 0xd0, 0x8d, 0x57, 0x00, 0x00,
    ];
    table.add(
        "document example 2",
        (1, 100),
        second,
        95,
        "0 95 1 000000000064 4500002800000000400666ce0a0000020a00000100500400000001f400000065\
         501207d08d570000",
    );
    let third = [
        0x45, 0x00, 0x00, 0x28, 0x00, 0x00, 0x00, 0x00, 0x40, 0x06, 0x66, 0xce, 0x0a, 0x00, 0x00,
        0x01, 0x0a, 0x00, 0x00, 0x02, 0x04, 0x00, 0x00, 0x50, 0x00, 0x00, 0x00, 0x65, 0x00, 0x00,
        0x01, 0xf6, 0x50, 0x10, 0x03, 0xe8, 0x91, 0x3f, 0x00, 0x00,
    ];
    table.add(
        "document example 3",
        (0, 200),
        third,
        95,
        "0 95 0 0000000000c8 4500002800000000400666ce0a0000010a0000020400005000000065000001f6\
         501003e8913f0000",
    );
    table.add(
        "document example 3, room 94",
        (0, 200),
        third,
        94,
        refused(23, 94),
    );
    table.add(
        "document example 3, room 96",
        (0, 200),
        third,
        96,
        "0 95 0 0000000000c8 4500002800000000400666ce0a0000010a0000020400005000000065000001f6\
         501003e8913f0000.",
    );
}

/// Answer 1, "side is not 0 or 1".
fn sides(table: &mut Table) {
    let clock = 0x0123_4567_89ab;
    table.add("side 0", (0, clock), [0x45], 17, "0 17 0 0123456789ab 45");
    table.add("side 1", (1, clock), [0x45], 17, "0 17 1 0123456789ab 45");
    for side in [2, 3, 4, 10, 0x30, 0x31, 127, 128, 129, 254, 255] {
        table.add(
            format!("side {side}"),
            (side, clock),
            [0x45],
            17,
            "1 0 .................",
        );
    }
}

/// Answer 2, "clock is 2^48 ms or more".
fn clocks(table: &mut Table) {
    for (clock, expected) in [
        (0, "0 17 1 000000000000 45"),
        (1, "0 17 1 000000000001 45"),
        (10, "0 17 1 00000000000a 45"),
        (16, "0 17 1 000000000010 45"),
        (200, "0 17 1 0000000000c8 45"),
        (65_535, "0 17 1 00000000ffff 45"),
        (4_294_967_295, "0 17 1 0000ffffffff 45"),
        (4_294_967_296, "0 17 1 000100000000 45"),
        (1_250_999_896_491, "0 17 1 0123456789ab 45"),
        (140_737_488_355_328, "0 17 1 800000000000 45"),
        (280_223_976_814_164, "0 17 1 fedcba987654 45"),
        (281_474_976_710_654, "0 17 1 fffffffffffe 45"),
        (281_474_976_710_655, "0 17 1 ffffffffffff 45"),
        (281_474_976_710_656, "2 0 ................."),
        (281_474_976_710_657, "2 0 ................."),
        (562_949_953_421_312, "2 0 ................."),
        (0x8000_0000_0000_0000, "2 0 ................."),
        (0xffff_0000_0000_0000, "2 0 ................."),
        (0xffff_ffff_ffff_ffff, "2 0 ................."),
    ] {
        table.add(format!("clock {clock}"), (1, clock), [0x45], 17, expected);
    }
}

/// Answer 24, "packet empty or over 2,048".
fn packet_lengths(table: &mut Table) {
    let at = (1, 0x0123_4567_89ab);
    table.add("no packet bytes", at, [], 17, refused(24, 17));
    table.add("no packet bytes, room 15", at, [], 15, refused(24, 15));
    table.add("1 packet byte", at, [0x4f], 17, "0 17 1 0123456789ab 4f");
    table.add(
        "2 packet bytes",
        at,
        [0x4f, 0x0a],
        19,
        "0 19 1 0123456789ab 4f0a",
    );
    table.add(
        "3 packet bytes",
        at,
        [0x4f, 0x0a, 0x9e],
        21,
        "0 21 1 0123456789ab 4f0a9e",
    );
    table.add(
        "2047 packet bytes",
        at,
        [0xe1; 2047],
        4109,
        format!("0 4109 1 0123456789ab {}", "e1".repeat(2047)),
    );
    table.add(
        "2048 packet bytes",
        at,
        [0xe1; 2048],
        4111,
        format!("0 4111 1 0123456789ab {}", "e1".repeat(2048)),
    );
    table.add(
        "2049 packet bytes",
        at,
        [0xe1; 2049],
        4113,
        refused(24, 4113),
    );
    for length in [2050, 4096, 65_535, 65_536, 65_537, 66_000] {
        table.add(
            format!("{length} packet bytes"),
            at,
            vec![0xe1; length],
            17,
            refused(24, 17),
        );
    }
}

/// Answer 23, by the length of this line, 15 + 2n; "Output bytes past the
/// length stay as they were."
fn rooms(table: &mut Table) {
    let at = (1, 0x0123_4567_89ab);
    for (room, expected) in [
        (0, "23 0 -"),
        (1, "23 0 ."),
        (14, "23 0 .............."),
        (15, "23 0 ..............."),
        (16, "23 0 ................"),
        (17, "0 17 1 0123456789ab 4f"),
        (18, "0 17 1 0123456789ab 4f."),
        (25, "0 17 1 0123456789ab 4f........"),
    ] {
        table.add(format!("1 byte, room {room}"), at, [0x4f], room, expected);
    }
    for (room, expected) in [
        (0, "23 0 -"),
        (17, "23 0 ................."),
        (18, "23 0 .................."),
        (19, "0 19 1 0123456789ab 4f0a"),
        (20, "0 19 1 0123456789ab 4f0a."),
    ] {
        table.add(
            format!("2 bytes, room {room}"),
            at,
            [0x4f, 0x0a],
            room,
            expected,
        );
    }
    let longest = [0x00; 2048];
    table.add("2048 bytes, room 0", at, longest, 0, "23 0 -");
    table.add("2048 bytes, room 17", at, longest, 17, refused(23, 17));
    table.add(
        "2048 bytes, room 4110",
        at,
        longest,
        4110,
        refused(23, 4110),
    );
    table.add(
        "2048 bytes, room 4112",
        at,
        longest,
        4112,
        format!("0 4111 1 0123456789ab {}.", "00".repeat(2048)),
    );
    table.add(
        "1 byte, room 4200",
        at,
        [0x4f],
        4200,
        format!("0 17 1 0123456789ab 4f{}", ".".repeat(4183)),
    );
}

/// "Writing refuses: 1, 2, then 24 [...], then 23. In this order".
fn several_causes(table: &mut Table) {
    let one = [0x45].as_slice();
    let none = [].as_slice();
    let too_many = [0x45; 2049].as_slice();
    let fine = 0x0123_4567_89ab;
    let late = CLOCK_LIMIT;
    for (name, side, clock, packet, room, answer) in [
        ("side and clock", 2, late, one, 17, 1),
        ("side and no packet", 2, fine, none, 17, 1),
        ("side and too long a packet", 2, fine, too_many, 17, 1),
        ("side and no room", 2, fine, one, 0, 1),
        ("side and one too little room", 2, fine, one, 16, 1),
        ("side, clock, no packet, no room", 255, u64::MAX, none, 0, 1),
        ("clock and no packet", 1, late, none, 17, 2),
        ("clock and too long a packet", 1, late, too_many, 17, 2),
        ("clock and no room", 1, late, one, 0, 2),
        ("clock and one too little room", 1, late, one, 16, 2),
        ("clock, no packet, no room", 1, u64::MAX, none, 0, 2),
        ("no packet and no room", 1, fine, none, 0, 24),
        ("no packet and room 14", 1, fine, none, 14, 24),
        ("no packet and room 16", 1, fine, none, 16, 24),
        ("too long a packet and no room", 1, fine, too_many, 0, 24),
        (
            "too long a packet and room 4112",
            1,
            fine,
            too_many,
            4112,
            24,
        ),
        (
            "too long a packet and room 4200",
            1,
            fine,
            too_many,
            4200,
            24,
        ),
    ] {
        table.add(name, (side, clock), packet, room, refused(answer, room));
    }
}

/// Every value of a packet byte: 15 + 2 * 256 = 527 characters.
fn all_bytes(table: &mut Table) {
    let up: Vec<u8> = (0x00..=0xff).collect();
    let down: Vec<u8> = (0x00..=0xff).rev().collect();
    let text = "\
        000102030405060708090a0b0c0d0e0f101112131415161718191a1b1c1d1e1f\
        202122232425262728292a2b2c2d2e2f303132333435363738393a3b3c3d3e3f\
        404142434445464748494a4b4c4d4e4f505152535455565758595a5b5c5d5e5f\
        606162636465666768696a6b6c6d6e6f707172737475767778797a7b7c7d7e7f\
        808182838485868788898a8b8c8d8e8f909192939495969798999a9b9c9d9e9f\
        a0a1a2a3a4a5a6a7a8a9aaabacadaeafb0b1b2b3b4b5b6b7b8b9babbbcbdbebf\
        c0c1c2c3c4c5c6c7c8c9cacbcccdcecfd0d1d2d3d4d5d6d7d8d9dadbdcdddedf\
        e0e1e2e3e4e5e6e7e8e9eaebecedeeeff0f1f2f3f4f5f6f7f8f9fafbfcfdfeff";
    table.add(
        "all 256 bytes",
        (0, 0xffff_ffff_ffff),
        &up,
        527,
        format!("0 527 0 ffffffffffff {text}"),
    );
    table.add(
        "all 256 bytes, room 530",
        (1, 0),
        &up,
        530,
        format!("0 527 1 000000000000 {text}..."),
    );
    table.add(
        "all 256 bytes 8 times",
        (0, 0x0123_4567_89ab),
        up.repeat(8),
        4111,
        format!("0 4111 0 0123456789ab {}", text.repeat(8)),
    );
    table.add(
        "all 256 bytes downwards, room 526",
        (0, 0),
        down,
        526,
        refused(23, 526),
    );
}
