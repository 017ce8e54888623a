//! Vectors of the packet reader for document 02, item 2: the causes of one
//! answer are told apart by their offset, and "The first cause in document 01's
//! order counts."

use super::{base, with_header_length, Packet, Table, ACK, FIN, PSH, RST, SYN, URG};

/// An IP header length, in words, and what answers 9, 16 and 10 give after it.
pub struct Header {
    pub words: usize,
    /// "9: h if under 20 bytes follow"
    pub short: &'static str,
    /// "else h + 12"
    pub data_offset: &'static str,
    /// "16 where the whole sum isn't ffff, [..] offset h + 16"
    pub tcp_sum: &'static str,
    /// "10: h + 13"
    pub flags: &'static str,
}

const fn header(
    words: usize,
    short: &'static str,
    data_offset: &'static str,
    tcp_sum: &'static str,
    flags: &'static str,
) -> Header {
    Header {
        words,
        short,
        data_offset,
        tcp_sum,
        flags,
    }
}

/// From 20 to 60 bytes.
pub const HEADERS: [Header; 11] = [
    header(5, "9 20", "9 32", "16 36", "10 33"),
    header(6, "9 24", "9 36", "16 40", "10 37"),
    header(7, "9 28", "9 40", "16 44", "10 41"),
    header(8, "9 32", "9 44", "16 48", "10 45"),
    header(9, "9 36", "9 48", "16 52", "10 49"),
    header(10, "9 40", "9 52", "16 56", "10 53"),
    header(11, "9 44", "9 56", "16 60", "10 57"),
    header(12, "9 48", "9 60", "16 64", "10 61"),
    header(13, "9 52", "9 64", "16 68", "10 65"),
    header(14, "9 56", "9 68", "16 72", "10 69"),
    header(15, "9 60", "9 72", "16 76", "10 73"),
];

impl Header {
    /// In bytes.
    pub fn length(&self) -> usize {
        4 * self.words
    }

    /// The base packet with options that fill this header.
    pub fn packet(&self) -> Packet {
        with_header_length(self.words)
    }

    /// The same with payload.
    pub fn with_payload(&self, octets: usize) -> Packet {
        Packet::new(&self.options(), &[], &vec![0xa5; octets])
    }

    /// The same with 40 bytes of TCP options, too.
    fn with_tcp_options(&self, octets: usize) -> Packet {
        Packet::new(&self.options(), &[0x01; 40], &vec![0xa5; octets])
    }

    pub fn options(&self) -> Vec<u8> {
        vec![0x01; self.length() - 20]
    }

    /// All bytes given, but total length leaves no more than these after the
    /// header.
    pub fn followed_by(&self, bytes: usize) -> Packet {
        self.packet().total_length((self.length() + bytes) as u16)
    }
}

pub fn add(table: &mut Table) {
    under_20_bytes(table);
    version_and_header_length(table);
    header_past_the_bytes_given(table);
    total_length_about_longer_headers(table);
    for header in &HEADERS {
        short_segments(table, header);
        flags_and_tcp_options(table, header);
    }
    // The tables of the rows have these for a header of 20 bytes.
    for header in &HEADERS[1..] {
        rows_5_to_8(table, header);
        data_offsets(table, header);
        flags(table, header);
    }
    pairs_of_causes(table);
}

/// Answer 5, "under 20 bytes": what the bytes that are there say has no part.
fn under_20_bytes(table: &mut Table) {
    for length in 5..=18 {
        table.add(format!("{length} bytes"), base().given(length), "5 0");
    }
    for (name, first) in [
        ("version 6", 0x65),
        ("header length 4 words", 0x44),
        ("header length 15 words", 0x4f),
        ("a zero", 0x00),
    ] {
        let packet = || base().put(0, &[first]).fix();
        table.add(format!("1 byte, {name}"), packet().given(1), "5 0");
        table.add(format!("19 bytes, {name}"), packet().given(19), "5 0");
    }
    for total_length in [0, 18, 65_535] {
        for given in [4, 19] {
            table.add(
                format!("{given} bytes, total length {total_length}"),
                base().total_length(total_length).given(given),
                "5 0",
            );
        }
    }
}

/// Answer 5, "version not 4; header length under 20", before "total length
/// below header length or above the bytes given".
fn version_and_header_length(table: &mut Table) {
    for (name, first) in [
        ("version 6", 0x65),
        ("version 6 and header length 4 words", 0x64),
        ("version 6 and header length 15 words", 0x6f),
        ("header length 4 words", 0x44),
        ("header length 0 words", 0x40),
    ] {
        for total_length in [0, 15, 16, 19, 41, 65_535] {
            table.add(
                format!("{name}, total length {total_length}, 40 bytes"),
                base().put(0, &[first]).total_length(total_length),
                "5 0",
            );
        }
    }
}

/// Answer 5: a header length past the bytes given is no cause of its own, but
/// total length is then below the one, above the other, or both.
fn header_past_the_bytes_given(table: &mut Table) {
    let mut add = |words: usize, total_length: usize, given: usize| {
        table.add(
            format!("header length {words} words, total length {total_length}, {given} bytes"),
            with_header_length(words)
                .total_length(total_length as u16)
                .given(given),
            "5 2",
        );
    };
    for words in 6..=14 {
        let length = 4 * words;
        add(words, length - 1, length - 1);
        add(words, length, length - 1);
    }
    for words in 7..=15 {
        add(words, 20, 20);
        add(words, 4 * words, 20);
    }
    // Below the header length and above the bytes given.
    for words in 6..=15 {
        add(words, 4 * words - 1, 20);
    }
    add(11, 43, 42);
    add(15, 41, 40);
    add(15, 59, 40);
    add(15, 59, 58);
}

/// Answer 5, "total length below header length or above the bytes given", for
/// the headers between the shortest two and the longest.
fn total_length_about_longer_headers(table: &mut Table) {
    for words in 7..=14 {
        let length = 4 * words;
        for total_length in [0, 20, length - 1, length + 21, 65_535] {
            table.add(
                format!(
                    "total length {total_length}, header {length}, {} bytes",
                    length + 20
                ),
                with_header_length(words).total_length(total_length as u16),
                "5 2",
            );
        }
    }
}

/// Answers 5 to 8 point into the first 20 bytes, however long the header is.
fn rows_5_to_8(table: &mut Table, header: &Header) {
    let h = header.length();
    for (name, packet, expected) in [
        ("19 bytes", header.packet().given(19), "5 0"),
        (
            "version 6",
            header.packet().put(0, &[0x60 | header.words as u8]).fix(),
            "5 0",
        ),
        ("sum one up", header.packet().checksum_plus(1), "6 10"),
        (
            "more fragments",
            header.packet().put(6, &[0x20]).fix(),
            "7 6",
        ),
        (
            "fragment offset 1",
            header.packet().put(7, &[0x01]).fix(),
            "7 6",
        ),
        ("protocol 17", header.packet().put(9, &[17]).fix(), "8 9"),
    ] {
        table.add(format!("{name}, header {h}"), packet, expected);
    }
}

/// Answer 9, "under 20 bytes follow the IP header within total length", before
/// "TCP data offset under 5 words or past total length".
fn short_segments(table: &mut Table, header: &Header) {
    let h = header.length();
    // The tables of the rows have these for 20 and 60 bytes.
    if 20 < h && h < 60 {
        for bytes in [0, 19] {
            table.add(
                format!("{bytes} bytes after a {h}-byte header"),
                header.followed_by(bytes).given(h + bytes),
                header.short,
            );
        }
        table.add(
            format!("19 bytes after a {h}-byte header, {} given", h + 20),
            header.followed_by(19),
            header.short,
        );
    }
    for bytes in [0, 19] {
        table.add(
            format!("{bytes} bytes after a {h}-byte header, 1500 given"),
            header.followed_by(bytes).given(1500),
            header.short,
        );
    }
    // The data offset is the 13th byte: given past total length, the last one
    // within, or one of more.
    let data_offset = |bytes, words: u8| header.followed_by(bytes).tcp(12, &[words << 4]);
    for (bytes, words) in [
        (12, 4),
        (12, 15),
        (13, 4),
        (13, 15),
        (19, 0),
        (19, 4),
        (19, 6),
        (19, 15),
    ] {
        table.add(
            format!("{bytes} bytes after a {h}-byte header, data offset {words} words"),
            data_offset(bytes, words),
            header.short,
        );
    }
    for words in [4, 15] {
        table.add(
            format!("19 bytes after a {h}-byte header, data offset {words} words, no more given"),
            data_offset(19, words).given(h + 19),
            header.short,
        );
    }
    table.add(
        format!("19 bytes after a {h}-byte header, SYN RST"),
        header.followed_by(19).flags(SYN | RST),
        header.short,
    );
    table.add(
        format!("19 bytes after a {h}-byte header, data offset 4 words, no flags"),
        header.followed_by(19).tcp(12, &[0x40, 0]),
        header.short,
    );
}

/// Answer 9, "TCP data offset under 5 words or past total length", alone and
/// before the causes of answer 10.
fn data_offsets(table: &mut Table, header: &Header) {
    let h = header.length();
    // Words, TCP bytes.
    for (words, bytes) in [(0, 20), (4, 20), (4, 60), (6, 20), (6, 23), (15, 59)] {
        table.add(
            format!("data offset {words} words of {bytes} TCP bytes, header {h}"),
            header.with_payload(bytes - 20).tcp(12, &[words << 4]),
            header.data_offset,
        );
    }
    // The bytes that it points past are given, but past total length.
    for (words, bytes) in [(6, 20), (15, 59)] {
        table.add(
            format!("data offset {words} words of {bytes} TCP bytes, header {h}, 80 more given"),
            header
                .with_payload(bytes - 20)
                .tcp(12, &[words << 4])
                .given(h + bytes + 80),
            header.data_offset,
        );
    }
    for (name, flags, octets) in [
        ("SYN FIN", SYN | FIN, 0),
        ("SYN RST", SYN | RST, 0),
        ("no flags", 0, 0),
        ("FIN", FIN, 0),
        ("SYN with payload", SYN, 1),
    ] {
        for words in [4, 15] {
            table.add(
                format!("data offset {words} words and {name}, header {h}"),
                header.with_payload(octets).tcp(12, &[words << 4, flags]),
                header.data_offset,
            );
        }
    }
}

/// Answer 10, "SYN with FIN or RST; none of SYN, ACK, RST; SYN with payload",
/// one or several of them.
fn flags(table: &mut Table, header: &Header) {
    let h = header.length();
    for (name, flags, octets) in [
        ("SYN FIN", SYN | FIN, 0),
        ("SYN RST", SYN | RST, 0),
        ("SYN ACK RST FIN", SYN | ACK | RST | FIN, 0),
        ("no flags", 0, 0),
        ("no flags", 0, 1),
        ("FIN", FIN, 0),
        ("PSH URG", PSH | URG, 0),
        ("SYN", SYN, 1),
        ("SYN ACK", SYN | ACK, 1),
        ("SYN FIN", SYN | FIN, 1),
        ("SYN RST", SYN | RST, 1),
    ] {
        table.add(
            format!("{name}, payload {octets}, header {h}"),
            header.with_payload(octets).flags(flags),
            header.flags,
        );
    }
}

/// Answer 10 points past the IP header by 13, however long the TCP header is.
fn flags_and_tcp_options(table: &mut Table, header: &Header) {
    let h = header.length();
    for (name, flags, octets) in [
        ("SYN FIN", SYN | FIN, 0),
        ("no flags", 0, 0),
        ("SYN", SYN, 2),
    ] {
        table.add(
            format!("{name}, payload {octets}, headers {h} and 60"),
            header.with_tcp_options(octets).flags(flags),
            header.flags,
        );
    }
}

/// A cause of one of the answers, to be met together with another.
struct Cause {
    name: &'static str,
    /// The fields that decide, or that are cut off. Two causes that share one
    /// are not put together.
    fields: &'static [&'static str],
    /// Changes bytes that the sum covers, or TCP bytes.
    change: fn(Packet) -> Packet,
    /// What is left to do once the sum was made right.
    finish: fn(Packet) -> Packet,
    /// What it gives with an IP header of 24 and of 60 bytes.
    expected: [&'static str; 2],
}

fn as_it_is(packet: Packet) -> Packet {
    packet
}

/// In document 01's order, with "16 [..], after 9 and before 10", for packets of
/// 24 or 60 bytes of IP header, 20 of TCP header and one of payload.
const CAUSES: [Cause; 17] = [
    Cause {
        name: "19 bytes",
        fields: &["data offset", "flags"],
        change: as_it_is,
        finish: |packet| packet.given(19),
        expected: ["5 0", "5 0"],
    },
    Cause {
        name: "version 6",
        fields: &[],
        change: |packet| {
            let first = packet.0[0] & 0x0f | 0x60;
            packet.put(0, &[first])
        },
        finish: as_it_is,
        expected: ["5 0", "5 0"],
    },
    Cause {
        name: "header length 4 words",
        fields: &[],
        change: |packet| {
            let first = packet.0[0] & 0xf0 | 0x04;
            packet.put(0, &[first])
        },
        finish: as_it_is,
        expected: ["5 0", "5 0"],
    },
    Cause {
        name: "total length below the header",
        fields: &["total length"],
        change: |packet| {
            let total_length = packet.header_length() - 1;
            packet.total_length(total_length as u16)
        },
        finish: as_it_is,
        expected: ["5 2", "5 2"],
    },
    Cause {
        name: "total length above the bytes given",
        fields: &["total length"],
        change: |packet| {
            let total_length = packet.0.len() + 1;
            packet.total_length(total_length as u16)
        },
        finish: as_it_is,
        expected: ["5 2", "5 2"],
    },
    Cause {
        name: "sum one up",
        fields: &[],
        change: as_it_is,
        finish: |packet| packet.checksum_plus(1),
        expected: ["6 10", "6 10"],
    },
    Cause {
        name: "more fragments",
        fields: &[],
        change: |packet| packet.put(6, &[0x20]),
        finish: as_it_is,
        expected: ["7 6", "7 6"],
    },
    Cause {
        name: "fragment offset 1",
        fields: &[],
        change: |packet| packet.put(7, &[0x01]),
        finish: as_it_is,
        expected: ["7 6", "7 6"],
    },
    Cause {
        name: "protocol 17",
        fields: &[],
        change: |packet| packet.put(9, &[17]),
        finish: as_it_is,
        expected: ["8 9", "8 9"],
    },
    Cause {
        name: "19 bytes after the header",
        fields: &["total length"],
        change: |packet| {
            let total_length = packet.header_length() + 19;
            packet.total_length(total_length as u16)
        },
        finish: as_it_is,
        expected: ["9 24", "9 60"],
    },
    Cause {
        name: "data offset 4 words",
        fields: &["data offset"],
        change: |packet| packet.tcp(12, &[0x40]),
        finish: as_it_is,
        expected: ["9 36", "9 72"],
    },
    Cause {
        name: "data offset past total length",
        fields: &["data offset"],
        change: |packet| packet.tcp(12, &[0x60]),
        finish: as_it_is,
        expected: ["9 36", "9 72"],
    },
    Cause {
        name: "TCP sum one up",
        fields: &[],
        change: |packet| packet.fix_tcp().tcp_checksum_plus(1),
        finish: as_it_is,
        expected: ["16 40", "16 76"],
    },
    Cause {
        name: "SYN with FIN",
        fields: &["flags"],
        change: |packet| packet.flags(SYN | FIN),
        finish: as_it_is,
        expected: ["10 37", "10 73"],
    },
    Cause {
        name: "SYN with RST",
        fields: &["flags"],
        change: |packet| packet.flags(SYN | RST),
        finish: as_it_is,
        expected: ["10 37", "10 73"],
    },
    Cause {
        name: "none of SYN, ACK, RST",
        fields: &["flags"],
        change: |packet| packet.flags(PSH),
        finish: as_it_is,
        expected: ["10 37", "10 73"],
    },
    Cause {
        name: "SYN with payload",
        fields: &["flags", "data offset", "total length"],
        change: |packet| packet.flags(SYN),
        finish: as_it_is,
        expected: ["10 37", "10 73"],
    },
];

impl Cause {
    fn shares_a_field(&self, other: &Cause) -> bool {
        self.fields.iter().any(|field| other.fields.contains(field))
    }
}

/// Every two causes that a packet can have at once give what the first of them
/// gives alone.
fn pairs_of_causes(table: &mut Table) {
    for (at, words) in [6, 15].into_iter().enumerate() {
        let options = vec![0x01; 4 * words - 20];
        for (place, first) in CAUSES.iter().enumerate() {
            for second in &CAUSES[place + 1..] {
                if first.shares_a_field(second) {
                    continue;
                }
                // The second is changed first: where the TCP header starts is
                // told from a header length that the first may spoil.
                let packet = (second.change)(Packet::new(&options, &[], &[0xa5]));
                let packet = (first.change)(packet).fix();
                let packet = (first.finish)((second.finish)(packet));
                table.add(
                    format!("{} and {}, header {}", first.name, second.name, 4 * words),
                    packet,
                    first.expected[at],
                );
            }
        }
    }
}
