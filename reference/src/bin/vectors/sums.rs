//! Vectors of the ones' complement sum.
//!
//! Sums are in hex. A plain sum still has its carries, the digits above the
//! last four: 2479c is 479c with two carries, so 479e. Thus 10000 counts as
//! 0001, and ffff for nothing beside any word but 0000. Words of ffff alone
//! come to ffff: only zeros come to 0000.

use crate::{Call, Vector};
use std::ops::Range;

/// Where a header has its checksum.
const FIELD: Range<usize> = 10..12;

struct Table(Vec<Vector>);

impl Table {
    fn add(
        &mut self,
        label: impl AsRef<str>,
        buffer: impl AsRef<[u8]>,
        expected: impl Into<String>,
    ) {
        self.0.push(Vector {
            label: format!("sum: {}", label.as_ref()),
            buffer: buffer.as_ref().to_vec(),
            call: Call::Sum,
            expected: expected.into(),
        });
    }

    /// Words, their plain sum and their sum.
    fn add_words(&mut self, rows: &[(&str, &str, &str)]) {
        for (words, plain, sum) in rows {
            self.add(format!("{words}, plain sum {plain}"), octets(words), *sum);
        }
    }

    /// A header with the right checksum, and without it the plain sum and sum.
    fn add_header(&mut self, name: &str, header: &[u8], plain: &str, sum: &str) {
        self.add(name, header, "ffff");
        self.add(
            format!("{name}, field 0000, plain sum {plain}"),
            with_field(header, 0x0000),
            sum,
        );
    }
}

/// The octets that hex digits stand for; spaces only part them.
fn octets(text: &str) -> Vec<u8> {
    let digits = text.replace(' ', "");
    (0..digits.len())
        .step_by(2)
        .map(|at| u8::from_str_radix(&digits[at..at + 2], 16).expect("hex digits"))
        .collect()
}

/// The header with another checksum.
fn with_field(header: &[u8], checksum: u16) -> Vec<u8> {
    let mut header = header.to_vec();
    header[FIELD].copy_from_slice(&checksum.to_be_bytes());
    header
}

/// Equal octets, and another one at the offset.
fn all_but_one(octet: u8, length: usize, offset: usize, other: u8) -> Vec<u8> {
    let mut buffer = vec![octet; length];
    buffer[offset] = other;
    buffer
}

pub fn vectors() -> Vec<Vector> {
    let mut table = Table(Vec::new());
    rfc_1071(&mut table);
    published_headers(&mut table);
    document_examples(&mut table);
    header_lengths(&mut table);
    changed_headers(&mut table);
    byte_order(&mut table);
    carries(&mut table);
    carries_between_words(&mut table);
    zeros(&mut table);
    ones(&mut table);
    // These three from long to short: what one buffer leaves in memory past the
    // end of the next must not come into its sum.
    rising_octets(&mut table);
    octets_fe(&mut table);
    odd_lengths(&mut table);
    one_octet(&mut table);
    octets_01(&mut table);
    long_buffers(&mut table);
    table.0
}

/// The examples of RFC 1071, section 3.
fn rfc_1071(table: &mut Table) {
    for (name, words, plain, sum) in [
        ("example", "0001 f203 f4f5 f6f7", "2ddf0", "ddf2"),
        ("octets swapped", "0100 03f2 f5f4 f7f6", "1f2dc", "f2dd"),
        ("first group", "0001 f2", "f201", "f201"),
        ("second group", "03f4 f5f6 f7", "1f0ea", "f0eb"),
    ] {
        table.add(
            format!("RFC 1071, {name}, plain sum {plain}"),
            octets(words),
            sum,
        );
    }
}

/// Headers that are often worked out in print.
fn published_headers(table: &mut Table) {
    for (name, header, plain, sum) in [
        (
            "published header 1",
            "4500 0073 0000 4000 4011 b861 c0a8 0001 c0a8 00c7",
            "2479c",
            "479e",
        ),
        (
            "published header 2",
            "4500 003c 1c46 4000 4006 b1e6 ac10 0a63 ac10 0a0c",
            "24e17",
            "4e19",
        ),
        (
            "published header 3",
            "4500 0030 4422 4000 8006 442e 8c7c 19ac ae24 1e2b",
            "2bbcf",
            "bbd1",
        ),
    ] {
        let header = octets(header);
        table.add_header(name, &header, plain, sum);
        table.add(
            format!("{name}, field left out"),
            [&header[..FIELD.start], &header[FIELD.end..]].concat(),
            sum,
        );
    }
}

/// The packets of document 01's example trace. Their TCP checksums are right
/// too: each segment comes to ebe2, each pseudo-header to 141d.
fn document_examples(table: &mut Table) {
    table.add_header(
        "document header",
        &octets("4500 0028 0000 0000 4006 66ce 0a00 0001 0a00 0002"),
        "9931",
        "9931",
    );
    let there = "0a00 0001 0a00 0002 0006 0014";
    let back = "0a00 0002 0a00 0001 0006 0014";
    table.add("document pseudo-header", octets(there), "141d");
    for (name, pseudo_header, segment) in [
        (
            "document segment 1",
            there,
            "0400 0050 0000 0064 0000 0000 5002 03e8 9344 0000",
        ),
        (
            "document segment 2",
            back,
            "0050 0400 0000 01f4 0000 0065 5012 07d0 8d57 0000",
        ),
        (
            "document segment 3",
            there,
            "0400 0050 0000 0065 0000 01f6 5010 03e8 913f 0000",
        ),
    ] {
        table.add(name, octets(segment), "ebe2");
        table.add(
            format!("{name} after its pseudo-header"),
            [octets(pseudo_header), octets(segment)].concat(),
            "ffff",
        );
    }
    // The octet 61 adds 6100, and 0001 to the length: 913f - 6101 = 303e.
    table.add(
        "document segment 3 with an octet, after its pseudo-header",
        octets(
            "0a00 0001 0a00 0002 0006 0015 \
             0400 0050 0000 0065 0000 01f6 5010 03e8 303e 0000 61",
        ),
        "ffff",
    );
}

/// Headers of all eleven lengths, with the options of RFC 791 and RFC 2113.
fn header_lengths(table: &mut Table) {
    for (header, options, plain, sum) in [
        (
            "4500 0028 1c46 0000 4006 724e c000 0201 c633 6407",
            "",
            "28daf",
            "8db1",
        ),
        // Router alert.
        (
            "46c0 0020 0000 4000 0102 4258 c0a8 0101 e000 0016",
            "9404 0000",
            "2bda5",
            "bda7",
        ),
        // Loose source route of one address, end of the list.
        (
            "4700 0034 1234 0000 4006 ca7a 0a00 0002 0a00 0003",
            "8307 040a 0000 0100",
            "13584",
            "3585",
        ),
        // Timestamps, one of two entered.
        (
            "4800 0054 abcd 4000 4001 0c09 c000 0201 c633 6407",
            "440c 0900 0123 4567 0000 0000",
            "3f3f3",
            "f3f6",
        ),
        // Security, five times no operation.
        (
            "4900 0100 ffff 2000 ff11 a8a7 cb00 7101 cb00 71fe",
            "820b f135 0000 0000 0000 0001 0101 0101",
            "65752",
            "5758",
        ),
        // Stream identifier, record route with one of three addresses, end.
        (
            "4a00 0228 0001 0000 8006 2ea7 ac10 0a63 ac10 0a0c",
            "8804 007b 070f 080a 0000 0100 0000 0000 0000 0000",
            "2d156",
            "d158",
        ),
        // No operation, 24 times.
        (
            "4b00 05dc beef 4000 3f06 671e 7f00 0001 7f00 0001",
            "0101 0101 0101 0101 0101 0101 0101 0101 0101 0101 0101 0101",
            "298df",
            "98e1",
        ),
        // Strict source route of six addresses, end.
        (
            "4c00 0044 8000 0000 0106 8e03 c000 0201 cb00 7107",
            "891b 04c0 0002 01c0 0002 02c0 0002 03c0 0002 04c0 0002 05c0 0002 0600",
            "371f9",
            "71fc",
        ),
        // Timestamps with addresses, two of three entered, no operation.
        (
            "4d00 1000 7fff 4000 4006 3ed4 c612 0001 c613 fffe",
            "441c 1501 0a00 0001 0012 3456 0a00 0002 0012 3462 0000 0000 0000 0000 \
             0101 0101",
            "4c127",
            "c12b",
        ),
        // End of the list and padding: 2 + fffe carries once more.
        (
            "4e00 0038 f06d 0000 4006 fffe c0a8 0001 c0a8 0002",
            "0000 0000 0000 0000 0000 0000 0000 0000 0000 0000 0000 0000 0000 0000 \
             0000 0000 0000 0000",
            "2fffe",
            "0001",
        ),
        // Record route with all nine addresses, end.
        (
            "4f00 ffff 0001 0000 4006 006d 0a00 0001 0a00 0009",
            "0727 280a 0000 010a 0000 020a 0000 030a 0000 040a 0000 050a 0000 060a \
             0000 070a 0000 080a 0000 0900",
            "1ff91",
            "ff92",
        ),
    ] {
        let header = [octets(header), octets(options)].concat();
        let name = format!("header of {} bytes", header.len());
        table.add_header(&name, &header, plain, sum);
    }
    // 20 words ffff are 13ffec, the other ones 27b7d.
    table.add_header(
        "header of 60 bytes, options ff",
        &[
            octets("4f00 003c 0000 0000 4006 8480 c000 0201 c633 6407"),
            vec![0xff; 40],
        ]
        .concat(),
        "167b69",
        "7b7f",
    );
}

fn changed_headers(table: &mut Table) {
    let header = octets("4500 0073 0000 4000 4011 b861 c0a8 0001 c0a8 00c7");
    let unsummed = with_field(&header, 0x0000);
    // 479e and the field: b860 is one less than ffff needs, b862 one more.
    for (field, sum) in [
        (0xb860, "fffe"),
        (0xb862, "0001"),
        (0x0001, "479f"),
        (0xffff, "479e"),
        (0x61b8, "a956"),
        (0x479e, "8f3c"),
    ] {
        table.add(
            format!("header with field {field:04x} for b861"),
            with_field(&header, field),
            sum,
        );
    }
    // The other words are 2fffd, that is ffff, and ffff adds nothing.
    let full = octets("4500 0028 8e94 0000 4006 0000 c000 0201 c633 6407");
    table.add("header of ffff, field 0000", &full, "ffff");
    table.add(
        "header of ffff, field ffff",
        with_field(&full, 0xffff),
        "ffff",
    );
    table.add(
        "header of ffff, field 0001",
        with_field(&full, 0x0001),
        "0001",
    );

    // Words may stand in any order.
    table.add(
        "header with its words reversed",
        octets("00c7 c0a8 0001 c0a8 0000 4011 4000 0000 0073 4500"),
        "479e",
    );
    // Every octet moves to the other half of its word: the sum is swapped too.
    table.add(
        "header with the octets of each word swapped",
        octets("0045 7300 0000 0040 1140 0000 a8c0 0100 a8c0 c700"),
        "9e47",
    );
    table.add(
        "header after an octet 00",
        [&[0x00], &unsummed[..]].concat(),
        "9e47",
    );
    table.add(
        "header with its sum after an octet 00",
        [&[0x00], &header[..]].concat(),
        "ffff",
    );
    // 479e - 00c7, and 479e + 0100.
    table.add("header without its last octet", &unsummed[..19], "46d7");
    table.add(
        "header and an octet 01",
        [&unsummed[..], &[0x01]].concat(),
        "489e",
    );
}

/// The first octet of a word is the high one.
fn byte_order(table: &mut Table) {
    table.add_words(&[
        ("0001", "0001", "0001"),
        ("0100", "0100", "0100"),
        ("00ff", "00ff", "00ff"),
        ("ff00", "ff00", "ff00"),
        ("1234", "1234", "1234"),
        ("0102 0304", "0406", "0406"),
        ("0100 0020 0003", "0123", "0123"),
        ("1000 0200 0030 0004", "1234", "1234"),
        ("1234 5678", "68ac", "68ac"),
        ("1234 5678 9abc", "10368", "0369"),
        ("1234 5678 9abc def0", "1e258", "e259"),
    ]);
}

fn carries(table: &mut Table) {
    table.add_words(&[
        // None, up to ffff itself.
        ("7fff 7fff", "fffe", "fffe"),
        ("8000 7fff", "ffff", "ffff"),
        ("aaaa 5555", "ffff", "ffff"),
        ("0001 fffe", "ffff", "ffff"),
        ("0000 ffff", "ffff", "ffff"),
        ("ffff 0000", "ffff", "ffff"),
        // Added once.
        ("8000 8000", "10000", "0001"),
        ("ffff 0001", "10000", "0001"),
        ("0001 ffff", "10000", "0001"),
        ("ffff 8000", "17fff", "8000"),
        ("fffe fffe", "1fffc", "fffd"),
        ("8000 8000 8000 8000", "20000", "0002"),
        ("ffff ffff 0002", "20000", "0002"),
        ("ffff 0000 0000 0000 0000 0001", "10000", "0001"),
        // Added once, to ffff from above.
        ("ffff ffff", "1fffe", "ffff"),
        ("ffff 8000 7fff", "1fffe", "ffff"),
        ("ffff ffff ffff", "2fffd", "ffff"),
        ("fffe 0001 ffff 0000 ffff", "2fffd", "ffff"),
        // Added twice: the first time they carry again.
        ("8000 8000 ffff", "1ffff", "0001"),
        ("ffff ffff 0001", "1ffff", "0001"),
        ("ffff 0001 ffff", "1ffff", "0001"),
        ("0001 ffff ffff", "1ffff", "0001"),
        ("ffff ffff ffff 0001", "2fffe", "0001"),
        ("ffff ffff fffe 0002", "2fffe", "0001"),
        ("ffff ffff ffff 0002", "2ffff", "0002"),
        ("ffff ffff ffff ffff 0003", "3ffff", "0003"),
    ]);
}

/// What is added by more than 16 bits at a time carries from word to word.
fn carries_between_words(table: &mut Table) {
    table.add_words(&[
        // By 32 bits: within the group.
        ("0001 ffff 0000 0001", "10001", "0002"),
        ("fffe ffff 0000 0001", "1fffe", "ffff"),
        ("0000 8000 0000 8000", "10000", "0001"),
        // Out of the group.
        ("8000 0000 8000 0000", "10000", "0001"),
        ("ffff 0000 0001 0000", "10000", "0001"),
        ("ffff 0001 0000 ffff", "1ffff", "0001"),
        ("7fff ffff 8000 0001", "1ffff", "0001"),
        ("ffff ffff 0000 0001", "1ffff", "0001"),
        ("ffff fffe 0000 0001", "1fffe", "ffff"),
        ("ffff ffff ffff ffff", "3fffc", "ffff"),
        ("8000 0000 8000 0000 8000 0000", "18000", "8001"),
        // Out of the group once more as the carries are added.
        ("ffff ffff ffff ffff 0000 0001", "3fffd", "0001"),
        ("ffff fffe ffff ffff 0000 0003", "3fffe", "0002"),
        // Lowest octet first, the two groups come to 10000ffff: three rounds.
        ("ffff ffff 0000 0100", "200fe", "0100"),
        // By 64 bits: the same.
        ("ffff ffff ffff ffff 0000 0000 0000 0001", "3fffd", "0001"),
        ("8000 0000 0000 0000 8000 0000 0000 0000", "10000", "0001"),
        ("0000 0001 ffff ffff 0000 0000 0000 0001", "20000", "0002"),
        (
            "ffff ffff ffff ffff ffff ffff ffff ffff 0000 0000 0000 0001",
            "7fff9",
            "0001",
        ),
    ]);
}

fn zeros(table: &mut Table) {
    for length in [
        0, 1, 2, 3, 4, 5, 6, 7, 8, 19, 20, 21, 60, 1460, 65_534, 65_535,
    ] {
        table.add(format!("{length} octets 00"), vec![0x00; length], "0000");
    }
}

/// Only an odd length has another word than ffff: ff00, the padded one.
fn ones(table: &mut Table) {
    for length in [2, 4, 6, 8, 20, 60, 64, 1460, 65_534] {
        table.add(format!("{length} octets ff"), vec![0xff; length], "ffff");
    }
    for length in [65_535, 1459, 63, 61, 59, 21, 19, 7, 5, 3, 1] {
        table.add(format!("{length} octets ff"), vec![0xff; length], "ff00");
    }
}

/// The k high octets 1, 3, 5 .. add up to k * k and the l low ones 2, 4, 6 ..
/// to l * (l + 1). What k * k has above its last two digits are the carries.
fn rising_octets(table: &mut Table) {
    for length in (1..=64).rev() {
        let buffer: Vec<u8> = (1..=length).collect();
        let [k, l] = [length.div_ceil(2), length / 2].map(u32::from);
        let sum = k * k % 0x100 * 0x100 + k * k / 0x100 + l * (l + 1);
        table.add(
            format!("{length} octets from 01 up"),
            buffer,
            format!("{sum:04x}"),
        );
    }
}

/// As fefe is ffff less 0101, each word takes 0101 away: from ffff, or from the
/// padded word fe00. All but the first carry.
fn octets_fe(table: &mut Table) {
    for length in (1..=64).rev() {
        let full = if length % 2 == 0 { 0xffff } else { 0xfe00 };
        let sum = full - length as u32 / 2 * 0x0101;
        table.add(
            format!("{length} octets fe"),
            vec![0xfe; length],
            format!("{sum:04x}"),
        );
    }
}

/// The octet beside an odd last one is zero: neither the last one again nor
/// the first nor what follows in memory.
fn odd_lengths(table: &mut Table) {
    table.add_words(&[
        ("ffff ffff ffff ffff ffff ff", "5fefb", "ff00"),
        ("1234 5678 9abc de", "1e168", "e169"),
        ("ff01 0203 0405 06", "10b09", "0b0a"),
        ("ffff 0000 0000 01", "100ff", "0100"),
        ("0000 0000 0000 01", "0100", "0100"),
        ("0102 0304 05", "0906", "0906"),
        ("ffff 0100 ff", "1ffff", "0001"),
        ("ffff 00ff ff", "1fffe", "ffff"),
        ("ffff ffff 01", "200fe", "0100"),
        ("ff00 0000 ff", "1fe00", "fe01"),
        ("0000 0000 01", "0100", "0100"),
        ("0102 03", "0402", "0402"),
        ("ff00 01", "10000", "0001"),
        ("00ff ff", "ffff", "ffff"),
        ("8000 80", "10000", "0001"),
        ("ffff 01", "100ff", "0100"),
        ("ffff 00", "ffff", "ffff"),
        ("0001 00", "0001", "0001"),
        ("80", "8000", "8000"),
        ("01", "0100", "0100"),
    ]);
}

/// At an even offset an octet counts 256 times, at an odd one once.
fn one_octet(table: &mut Table) {
    for length in [12, 13, 63] {
        for offset in 0..length {
            table.add(
                format!("{length} octets 00 but a5 at offset {offset}"),
                all_but_one(0x00, length, offset, 0xa5),
                if offset % 2 == 0 { "a500" } else { "00a5" },
            );
        }
    }
    // The only word that isn't ffff is 00ff or ff00.
    for offset in 0..20 {
        table.add(
            format!("20 octets ff but 00 at offset {offset}"),
            all_but_one(0xff, 20, offset, 0x00),
            if offset % 2 == 0 { "00ff" } else { "ff00" },
        );
    }
    // Offset 65,534 is even: the padded word.
    for offset in [
        0, 1, 2, 3, 255, 256, 16_383, 16_384, 32_766, 32_767, 32_768, 32_769, 49_151, 49_152,
        65_531, 65_532, 65_533, 65_534,
    ] {
        table.add(
            format!("65535 octets 00 but a5 at offset {offset}"),
            all_but_one(0x00, 65_535, offset, 0xa5),
            if offset % 2 == 0 { "a500" } else { "00a5" },
        );
    }
}

/// As 255 words 0101 come to ffff, only the words above a multiple of 255 count;
/// the padded word of an odd length adds 0100.
fn octets_01(table: &mut Table) {
    for (length, sum) in [
        (127, "403f"),
        (128, "4040"),
        (129, "4140"),
        (255, "807f"),
        (256, "8080"),
        (257, "8180"),
        (509, "fffe"),
        (510, "ffff"),
        (511, "0100"),
        (512, "0101"),
        (513, "0201"),
        (1023, "0201"),
        (1024, "0202"),
        (1025, "0302"),
        (1459, "dcdb"),
        (1460, "dcdc"),
        (1500, "f0f0"),
        (2047, "0403"),
        (2048, "0404"),
        (2049, "0504"),
        (4095, "0807"),
        (4096, "0808"),
        (4097, "0908"),
        (8191, "100f"),
        (8192, "1010"),
        (8193, "1110"),
        (16_383, "201f"),
        (16_384, "2020"),
        (16_385, "2120"),
        (16_386, "2121"),
        (32_767, "403f"),
        (32_768, "4040"),
        (32_769, "4140"),
        (65_532, "7e7e"),
        (65_533, "7f7e"),
        (65_534, "7f7f"),
        (65_535, "807f"),
    ] {
        table.add(format!("{length} octets 01"), vec![0x01; length], sum);
    }
}

/// Large plain sums, by runs of equal octets. Runs of ffff count for nothing.
fn long_buffers(table: &mut Table) {
    let ones = |length: usize| vec![0xff; length];
    for (name, buffer, sum) in [
        // 7ffe * ffff + 0001, and 7ffd + 8003 = 10000.
        (
            "65532 octets ff, 0001, plain sum 7ffd8003",
            [ones(65_532), octets("0001")].concat(),
            "0001",
        ),
        // 7ffc * ffff + 0001, and 7ffb + 8005 = 10000.
        (
            "65528 octets ff, 0000 0001, plain sum 7ffb8005",
            [ones(65_528), octets("0000 0001")].concat(),
            "0001",
        ),
        (
            "0001, 65532 octets ff, plain sum 7ffd8003",
            [octets("0001"), ones(65_532)].concat(),
            "0001",
        ),
        // 7fff * ffff + 0100, and 7ffe + 8101 = 100ff.
        (
            "65534 octets ff, 01, plain sum 7ffe8101",
            [ones(65_534), octets("01")].concat(),
            "0100",
        ),
        // 01ff + 7ffe * ffff + ff00.
        (
            "01, 65534 octets ff, plain sum 7ffe8101",
            [octets("01"), ones(65_534)].concat(),
            "0100",
        ),
        // 4000 * ffff + 3fff * 0101 + 0100, and 403f + ffff = 1403e.
        (
            "32768 octets ff, 32767 octets 01, plain sum 403fffff",
            [ones(32_768), vec![0x01; 32_767]].concat(),
            "403f",
        ),
        // 3fff * 0101 + 01ff + 3fff * ffff + ff00.
        (
            "32767 octets 01, 32768 octets ff, plain sum 403fffff",
            [vec![0x01; 32_767], ones(32_768)].concat(),
            "403f",
        ),
        // 7fff * 8080 + 8000, and 403f + ff80 = 13fbf.
        (
            "65535 octets 80, plain sum 403fff80",
            vec![0x80; 65_535],
            "3fc0",
        ),
        // 7fff * fefe, and 7f7e + 0102.
        (
            "65534 octets fe, plain sum 7f7e0102",
            vec![0xfe; 65_534],
            "8080",
        ),
        // With fe00, and 7f7e + ff02 = 17e80.
        (
            "65535 octets fe, plain sum 7f7eff02",
            vec![0xfe; 65_535],
            "7e81",
        ),
        // 3fff * ffff + 00ff, for the word across the border, + ff00.
        (
            "32767 octets 00, 32768 octets ff, plain sum 3fffc000",
            [vec![0x00; 32_767], ones(32_768)].concat(),
            "ffff",
        ),
    ] {
        table.add(name, buffer, sum);
    }
}
