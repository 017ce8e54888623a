//! Vectors of the trace line reader.

use crate::{Call, Vector};

/// Clock 0123456789ab is 1250999896491.
const LINE: &str = "1 0123456789ab 4f0a";

/// The last packet byte of the longest line has the characters 4,109 and 4,110.
const LONGEST_LINE: usize = 4111;

/// Bytes at the borders of the classes of hex digits, and what is beside them;
/// with a value where the byte is a digit.
const DIGIT_BORDERS: [(u8, Option<u64>); 24] = [
    (0x00, None),
    (0x0a, None),
    (0x0d, None),
    (0x10, None),
    (b' ', None),
    (b'/', None),
    (b'0', Some(0)),
    (b'1', Some(1)),
    (b'9', Some(9)),
    (b':', None),
    (b'@', None),
    (b'A', None),
    (b'F', None),
    (b'G', None),
    (b'`', None),
    (b'a', Some(10)),
    (b'f', Some(15)),
    (b'g', None),
    (b'x', None),
    (0x7f, None),
    (0x80, None),
    (0xb0, None),
    (0xe1, None),
    (0xff, None),
];

/// All 16 digits; every other byte is none.
const DIGITS: &[u8; 16] = b"0123456789abcdef";

/// What a digit 1 counts at each place of the clock, from offset 2.
const CLOCK_UNITS: [u64; 12] = [
    17_592_186_044_416,
    1_099_511_627_776,
    68_719_476_736,
    4_294_967_296,
    268_435_456,
    16_777_216,
    1_048_576,
    65_536,
    4_096,
    256,
    16,
    1,
];

struct Table(Vec<Vector>);

impl Table {
    fn add(
        &mut self,
        label: impl AsRef<str>,
        line: impl AsRef<[u8]>,
        room: usize,
        expected: impl Into<String>,
    ) {
        self.0.push(Vector {
            label: format!("read: {}", label.as_ref()),
            buffer: line.as_ref().to_vec(),
            call: Call::ReadLine { room },
            expected: expected.into(),
        });
    }
}

/// "a refusal writes nothing and gives length 0 (in reading side and clock 0
/// too, and offset 0 but for 22)"
fn refused(answer: u32, offset: usize, room: usize) -> String {
    let output = match room {
        0 => "-".to_string(),
        _ => "2e".repeat(room),
    };
    format!("{answer} 0 0 0 {offset} {output}")
}

/// The line with another byte at the offset.
fn put(line: impl AsRef<[u8]>, offset: usize, byte: u8) -> Vec<u8> {
    let mut line = line.as_ref().to_vec();
    line[offset] = byte;
    line
}

/// Side 1, clock 0123456789ab and this many digits 0.
fn line_of_zeros(digits: usize) -> Vec<u8> {
    format!("1 0123456789ab {}", "0".repeat(digits)).into_bytes()
}

pub fn vectors() -> Vec<Vector> {
    let mut table = Table(Vec::new());
    document_examples(&mut table);
    sides(&mut table);
    spaces(&mut table);
    clock_digits(&mut table);
    packet_digits(&mut table);
    middle_digits(&mut table);
    last_digits(&mut table);
    clocks(&mut table);
    short_lines(&mut table);
    first_fault_wins(&mut table);
    other_shapes(&mut table);
    long_lines(&mut table);
    rooms(&mut table);
    all_bytes(&mut table);
    table.0
}

/// The three lines of document 01's example trace.
fn document_examples(table: &mut Table) {
    let first = "4500002800000000400666ce0a0000010a000002040000500000006400000000500203e893440000";
    let second = "4500002800000000400666ce0a0000020a00000100500400000001f400000065501207d08d570000";
    let third = "4500002800000000400666ce0a0000010a0000020400005000000065000001f6501003e8913f0000";
    table.add(
        "document example 1",
        format!("0 000000000000 {first}"),
        40,
        format!("0 0 0 40 0 {first}"),
    );
    table.add(
        "document example 2",
        format!("1 000000000064 {second}"),
        40,
        format!("0 1 100 40 0 {second}"),
    );
    table.add(
        "document example 3",
        format!("0 0000000000c8 {third}"),
        40,
        format!("0 0 200 40 0 {third}"),
    );
    table.add(
        "document example 3, room 39",
        format!("0 0000000000c8 {third}"),
        39,
        refused(23, 0, 39),
    );
    table.add(
        "document example 3, room 41",
        format!("0 0000000000c8 {third}"),
        41,
        format!("0 0 200 40 0 {third}2e"),
    );
}

/// Offset 0: "Side `0` or `1`".
fn sides(table: &mut Table) {
    for byte in 0..=255 {
        let expected = match byte {
            b'0' => "0 0 1250999896491 2 0 4f0a".to_string(),
            b'1' => "0 1 1250999896491 2 0 4f0a".to_string(),
            _ => refused(22, 0, 2),
        };
        table.add(
            format!("offset 0 byte {byte:02x}"),
            put(LINE, 0, byte),
            2,
            expected,
        );
    }
}

/// Offsets 1 and 14: "space".
fn spaces(table: &mut Table) {
    for offset in [1, 14] {
        for byte in [
            0x00, 0x09, 0x0a, 0x0d, 0x1f, b' ', b'!', b'-', b'0', b'1', b'9', b'a', b'f', b'_',
            b'`', 0x7f, 0x80, 0xa0, 0xff,
        ] {
            let expected = match byte {
                b' ' => "0 1 1250999896491 2 0 4f0a".to_string(),
                _ => refused(22, offset, 2),
            };
            table.add(
                format!("offset {offset} byte {byte:02x}"),
                put(LINE, offset, byte),
                2,
                expected,
            );
        }
    }
}

/// Offsets 2 to 13: "12 hex digits of clock".
fn clock_digits(table: &mut Table) {
    let line = "1 000000000000 4f0a";
    for byte in 0..=255 {
        let expected = match DIGITS.iter().position(|&digit| digit == byte) {
            Some(value) => {
                let clock = value as u64 * CLOCK_UNITS[0];
                format!("0 1 {clock} 2 0 4f0a")
            }
            None => refused(22, 2, 2),
        };
        table.add(
            format!("offset 2 byte {byte:02x}"),
            put(line, 2, byte),
            2,
            expected,
        );
    }
    for (place, unit) in CLOCK_UNITS.into_iter().enumerate().skip(1) {
        let offset = 2 + place;
        for (byte, value) in DIGIT_BORDERS {
            // Between the first and the last digit, printed characters only.
            if offset < 13 && !byte.is_ascii_graphic() {
                continue;
            }
            let expected = match value {
                Some(value) => format!("0 1 {} 2 0 4f0a", value * unit),
                None => refused(22, offset, 2),
            };
            table.add(
                format!("offset {offset} byte {byte:02x}"),
                put(line, offset, byte),
                2,
                expected,
            );
        }
    }
}

/// Offsets 15 to 18: "packet bytes as hex pairs, lower case only".
fn packet_digits(table: &mut Table) {
    let line = line_of_zeros(4);
    for byte in 0..=255 {
        let expected = if DIGITS.contains(&byte) {
            format!("0 1 1250999896491 2 0 {}000", char::from(byte))
        } else {
            refused(22, 15, 2)
        };
        table.add(
            format!("offset 15 byte {byte:02x}"),
            put(&line, 15, byte),
            2,
            expected,
        );
    }
    for (offset, before, after) in [(16, "0", "00"), (17, "00", "0"), (18, "000", "")] {
        for (byte, value) in DIGIT_BORDERS {
            let expected = match value {
                Some(_) => {
                    let digit = char::from(byte);
                    format!("0 1 1250999896491 2 0 {before}{digit}{after}")
                }
                None => refused(22, offset, 2),
            };
            table.add(
                format!("offset {offset} byte {byte:02x}"),
                put(&line, offset, byte),
                2,
                expected,
            );
        }
    }
}

/// Offsets 19 to 144, and beside each multiple of 128 up to 4,096: a byte that
/// is no digit, and a digit other than those around it.
fn middle_digits(table: &mut Table) {
    let line = line_of_zeros(4096);
    let near = (2..=32).flat_map(|block| [128 * block - 1, 128 * block, 128 * block + 1]);
    let bad = [b'g', b'/', b':', b'`', b'F', b' ', 0x00, 0xff];
    for (turn, offset) in (19..=144).chain(near).enumerate() {
        let byte = bad[turn % bad.len()];
        table.add(
            format!("offset {offset} byte {byte:02x}"),
            put(&line, offset, byte),
            3,
            refused(22, offset, 3),
        );
    }
    // Digit 5 at an even offset is the second of its pair, as offset 15 is a first.
    for (offset, pair) in [
        (32, "05"),
        (33, "50"),
        (2046, "05"),
        (2047, "50"),
        (4096, "05"),
    ] {
        let before = "00".repeat((offset - 15) / 2);
        let after = "00".repeat(2047 - (offset - 15) / 2);
        table.add(
            format!("offset {offset} byte 35"),
            put(&line, offset, b'5'),
            2048,
            format!("0 1 1250999896491 2048 0 {before}{pair}{after}"),
        );
    }
}

/// Offsets 4,109 and 4,110, the last ones of the longest line.
fn last_digits(table: &mut Table) {
    let line = line_of_zeros(4096);
    for (offset, before, after) in [(4109, "", "0"), (4110, "0", "")] {
        for (byte, value) in DIGIT_BORDERS {
            // A malformed line is refused before the room is looked at.
            let (room, expected) = match value {
                Some(1) => continue,
                Some(_) => {
                    let zeros = "00".repeat(2047);
                    let digit = char::from(byte);
                    let packet = format!("{zeros}{before}{digit}{after}");
                    (2048, format!("0 1 1250999896491 2048 0 {packet}"))
                }
                None => (3, refused(22, offset, 3)),
            };
            table.add(
                format!("offset {offset} byte {byte:02x}"),
                put(&line, offset, byte),
                room,
                expected,
            );
        }
    }
    table.add(
        "offset 4110 byte 67, room 2048",
        put(&line, 4110, b'g'),
        2048,
        refused(22, 4110, 2048),
    );
}

fn clocks(table: &mut Table) {
    for (digits, clock) in [
        ("000000000000", "0"),
        ("000000000001", "1"),
        ("00000000ffff", "65535"),
        ("0000ffffffff", "4294967295"),
        ("000100000000", "4294967296"),
        ("0123456789ab", "1250999896491"),
        ("7fffffffffff", "140737488355327"),
        ("800000000000", "140737488355328"),
        ("fedcba987654", "280223976814164"),
        ("ffffffffffff", "281474976710655"),
    ] {
        for side in ["0", "1"] {
            table.add(
                format!("side {side} clock {digits}"),
                format!("{side} {digits} 45"),
                1,
                format!("0 {side} {clock} 1 0 45"),
            );
        }
    }
}

/// "or the length if the line stops early (an odd digit counts as early)"
fn short_lines(table: &mut Table) {
    let line = "1 0123456789ab 4f0a9e";
    for (length, expected) in [
        (0, "22 0 0 0 0 2e2e2e"),
        (1, "22 0 0 0 1 2e2e2e"),
        (2, "22 0 0 0 2 2e2e2e"),
        (3, "22 0 0 0 3 2e2e2e"),
        (4, "22 0 0 0 4 2e2e2e"),
        (5, "22 0 0 0 5 2e2e2e"),
        (6, "22 0 0 0 6 2e2e2e"),
        (7, "22 0 0 0 7 2e2e2e"),
        (8, "22 0 0 0 8 2e2e2e"),
        (9, "22 0 0 0 9 2e2e2e"),
        (10, "22 0 0 0 10 2e2e2e"),
        (11, "22 0 0 0 11 2e2e2e"),
        (12, "22 0 0 0 12 2e2e2e"),
        (13, "22 0 0 0 13 2e2e2e"),
        (14, "22 0 0 0 14 2e2e2e"),
        (15, "22 0 0 0 15 2e2e2e"),
        (16, "22 0 0 0 16 2e2e2e"),
        (17, "0 1 1250999896491 1 0 4f2e2e"),
        (18, "22 0 0 0 18 2e2e2e"),
        (19, "0 1 1250999896491 2 0 4f0a2e"),
        (20, "22 0 0 0 20 2e2e2e"),
        (21, "0 1 1250999896491 3 0 4f0a9e"),
    ] {
        table.add(format!("{length} characters"), &line[..length], 3, expected);
    }
    for (length, offset) in [
        (0, 0),
        (1, 1),
        (14, 14),
        (15, 15),
        (16, 16),
        (18, 18),
        (20, 20),
    ] {
        table.add(
            format!("{length} characters, room 0"),
            &line[..length],
            0,
            refused(22, offset, 0),
        );
    }
}

/// "the offset of the first byte that no legal line has there after the bytes
/// before it": neither a later byte nor the end of the line counts then.
fn first_fault_wins(table: &mut Table) {
    for (name, line, offset) in [
        ("only a bad side", "2", 0),
        ("only a space", " ", 0),
        ("bad byte for a space, then the end", "0-", 1),
        ("bad first clock digit, then the end", "0 g", 2),
        ("bad last clock digit, then the end", "0 00000000000g", 13),
        (
            "digit for the second space, then the end",
            "0 0000000000000",
            14,
        ),
        (
            "bad first packet digit, then the end",
            "0 000000000000 g",
            15,
        ),
        (
            "bad second packet digit, then the end",
            "0 000000000000 4g",
            16,
        ),
        (
            "bad third packet digit, then the end",
            "0 000000000000 45g",
            17,
        ),
        (
            "bad fourth packet digit, then the end",
            "0 000000000000 450g",
            18,
        ),
        (
            "bad fifth packet digit, then the end",
            "0 000000000000 4500g",
            19,
        ),
        ("all bytes bad", "xxxxxxxxxxxxxxxxxxx", 0),
        ("bad from offset 1", "0xxxxxxxxxxxxxxxxxx", 1),
        ("bad from offset 2", "0 xxxxxxxxxxxxxxxxx", 2),
        ("bad from offset 13", "0 01234567890xxxxxx", 13),
        ("bad from offset 14", "0 012345678901xxxxx", 14),
        ("bad from offset 15", "0 012345678901 xxxx", 15),
        ("bad from offset 16", "0 012345678901 4xxx", 16),
        ("bad from offset 17", "0 012345678901 45xx", 17),
        ("bad from offset 18", "0 012345678901 450x", 18),
        ("bad side and bad last digit", "2 012345678901 450x", 0),
        ("bad clock digit and an odd digit", "0 0123456A8901 450", 9),
        (
            "bad packet digit and an odd digit",
            "0 012345678901 4G0",
            16,
        ),
    ] {
        table.add(name, line, 2, refused(22, offset, 2));
        table.add(format!("{name}, room 0"), line, 0, refused(22, offset, 0));
    }
}

/// Lines that other forms of the format would have.
fn other_shapes(table: &mut Table) {
    for (name, line, offset) in [
        ("carriage return at the end", "0 000000000001 45\r", 17),
        ("newline at the end", "0 000000000001 45\n", 17),
        ("space at the end", "0 000000000001 45 ", 17),
        ("NUL at the end", "0 000000000001 45\0", 17),
        ("newline at the start", "\n0 000000000001 45", 0),
        ("newline between bytes", "0 000000000001 45\n00", 17),
        ("newline within a byte", "0 000000000001 4\n500", 16),
        ("newline alone", "\n", 0),
        ("carriage return alone", "\r", 0),
        ("newline for the packet", "0 000000000001 \n", 15),
        ("space at the start", " 0 000000000001 45", 0),
        ("two spaces after the side", "0  000000000001 45", 2),
        ("two spaces after the clock", "0 000000000001  45", 15),
        ("no space after the side", "0000000000001 45", 1),
        ("no space after the clock", "0 00000000000145", 14),
        ("tab after the side", "0\t000000000001 45", 1),
        ("tab after the clock", "0 000000000001\t45", 14),
        ("11 clock digits", "0 00000000001 4500", 13),
        ("13 clock digits", "0 0000000000001 45", 14),
        ("upper case clock", "0 0123456789AB 45", 12),
        ("upper case packet", "0 0123456789ab 4F", 16),
        ("0x before the clock", "0 0x0000000001 45", 3),
        ("0x before the packet", "0 000000000001 0x45", 16),
        ("sign before the clock", "0 +00000000001 45", 2),
        ("sign before the packet", "0 000000000001 -45", 15),
        ("space between bytes", "0 000000000001 45 00", 17),
        ("colon between bytes", "0 000000000001 45:00", 17),
        ("two-digit side", "01 000000000001 45", 1),
        ("comment", "# 000000000001 45", 0),
    ] {
        table.add(name, line, 4, refused(22, offset, 4));
    }
    // Nothing is written before the fault at the end is known.
    table.add(
        "20 bytes, the last digit bad",
        put(line_of_zeros(40), 54, b'g'),
        20,
        refused(22, 54, 20),
    );
    table.add(
        "20 bytes and an odd digit",
        line_of_zeros(41),
        21,
        refused(22, 56, 21),
    );
    table.add(
        "20 bytes and a carriage return",
        [line_of_zeros(40), vec![b'\r']].concat(),
        21,
        refused(22, 55, 21),
    );
}

/// "21 line over 4,111 characters"
fn long_lines(table: &mut Table) {
    let zeros = |digits: usize| line_of_zeros(digits);
    table.add(
        "4108 characters, odd digit",
        zeros(4093),
        2,
        refused(22, 4108, 2),
    );
    table.add(
        "4109 characters",
        zeros(4094),
        2047,
        format!("0 1 1250999896491 2047 0 {}", "00".repeat(2047)),
    );
    table.add(
        "4110 characters, odd digit",
        zeros(4095),
        2,
        refused(22, 4110, 2),
    );
    table.add(
        "4110 characters, odd digit, room 2048",
        zeros(4095),
        2048,
        refused(22, 4110, 2048),
    );
    table.add(
        "4110 characters, bad first byte",
        put(zeros(4095), 0, b'2'),
        2,
        refused(22, 0, 2),
    );
    table.add(
        "4111 characters, bad first byte",
        put(zeros(4096), 0, b'2'),
        2,
        refused(22, 0, 2),
    );
    table.add(
        "4111 characters, bad byte at offset 2000",
        put(zeros(4096), 2000, b'A'),
        2,
        refused(22, 2000, 2),
    );
    table.add(
        "4111 bytes ff",
        vec![0xff; LONGEST_LINE],
        2,
        refused(22, 0, 2),
    );
    for length in [4112, 4113, 5000, 8192, 65_536, 65_553, 66_000] {
        table.add(
            format!("{length} characters"),
            zeros(length - 15),
            2,
            refused(21, 0, 2),
        );
        table.add(
            format!("{length} characters, bad first byte"),
            put(zeros(length - 15), 0, b'2'),
            2,
            refused(21, 0, 2),
        );
        table.add(
            format!("{length} characters, room 0"),
            zeros(length - 15),
            0,
            refused(21, 0, 0),
        );
    }
    table.add(
        "4112 characters, the last a carriage return",
        put(zeros(4097), 4111, b'\r'),
        2,
        refused(21, 0, 2),
    );
    table.add(
        "4112 characters, bad byte at offset 4110",
        put(zeros(4097), 4110, b'g'),
        2,
        refused(21, 0, 2),
    );
    table.add(
        "4112 bytes 00",
        vec![0x00; LONGEST_LINE + 1],
        2,
        refused(21, 0, 2),
    );
    table.add(
        "4113 characters, room 2100",
        zeros(4098),
        2100,
        refused(21, 0, 2100),
    );
}

/// "23 output too small", by the length of this line's packet; "Output bytes
/// past the length stay as they were."
fn rooms(table: &mut Table) {
    for (line, room, expected) in [
        ("1 0123456789ab 4f", 0, "23 0 0 0 0 -"),
        ("1 0123456789ab 4f", 1, "0 1 1250999896491 1 0 4f"),
        ("1 0123456789ab 4f", 2, "0 1 1250999896491 1 0 4f2e"),
        ("1 0123456789ab 4f0a", 0, "23 0 0 0 0 -"),
        ("1 0123456789ab 4f0a", 1, "23 0 0 0 0 2e"),
        ("1 0123456789ab 4f0a", 2, "0 1 1250999896491 2 0 4f0a"),
        ("1 0123456789ab 4f0a", 3, "0 1 1250999896491 2 0 4f0a2e"),
        ("1 0123456789ab 4f0a9e", 2, "23 0 0 0 0 2e2e"),
        ("1 0123456789ab 4f0a9e", 3, "0 1 1250999896491 3 0 4f0a9e"),
        (
            "1 0123456789ab 4f0a9e",
            5,
            "0 1 1250999896491 3 0 4f0a9e2e2e",
        ),
    ] {
        table.add(
            format!("{} characters with room {room}", line.len()),
            line,
            room,
            expected,
        );
    }
    let longest = || line_of_zeros(4096);
    table.add("2048 bytes, room 0", longest(), 0, refused(23, 0, 0));
    table.add("2048 bytes, room 1", longest(), 1, refused(23, 0, 1));
    table.add(
        "2048 bytes, room 2047",
        longest(),
        2047,
        refused(23, 0, 2047),
    );
    table.add(
        "2048 bytes, room 2049",
        longest(),
        2049,
        format!("0 1 1250999896491 2048 0 {}2e", "00".repeat(2048)),
    );
    table.add(
        "1 byte, room 2048",
        line_of_zeros(2),
        2048,
        format!("0 1 1250999896491 1 0 00{}", "2e".repeat(2047)),
    );
    table.add(
        "bad last digit and no room",
        "1 0123456789ab 4f0g",
        1,
        "22 0 0 0 18 2e",
    );
    table.add(
        "odd digit and no room",
        "1 0123456789ab 4f0",
        0,
        "22 0 0 0 18 -",
    );
}

/// Every value of a packet byte, and the longest packet.
fn all_bytes(table: &mut Table) {
    let up = "\
        000102030405060708090a0b0c0d0e0f101112131415161718191a1b1c1d1e1f\
        202122232425262728292a2b2c2d2e2f303132333435363738393a3b3c3d3e3f\
        404142434445464748494a4b4c4d4e4f505152535455565758595a5b5c5d5e5f\
        606162636465666768696a6b6c6d6e6f707172737475767778797a7b7c7d7e7f\
        808182838485868788898a8b8c8d8e8f909192939495969798999a9b9c9d9e9f\
        a0a1a2a3a4a5a6a7a8a9aaabacadaeafb0b1b2b3b4b5b6b7b8b9babbbcbdbebf\
        c0c1c2c3c4c5c6c7c8c9cacbcccdcecfd0d1d2d3d4d5d6d7d8d9dadbdcdddedf\
        e0e1e2e3e4e5e6e7e8e9eaebecedeeeff0f1f2f3f4f5f6f7f8f9fafbfcfdfeff";
    table.add(
        "all 256 bytes",
        format!("0 ffffffffffff {up}"),
        257,
        format!("0 0 281474976710655 256 0 {up}2e"),
    );
    let longest = up.repeat(8);
    table.add(
        "all 256 bytes 8 times",
        format!("1 0123456789ab {longest}"),
        2050,
        format!("0 1 1250999896491 2048 0 {longest}2e2e"),
    );
}
