//! Reads and writes trace lines (document 01, "Trace lines"): "Side `0` or
//! `1`, space, 12 hex digits of clock, space, 1 to 2,048 packet bytes as hex
//! pairs, lower case only; no newline inside."

/// Side, space, 12 clock digits, space.
const PREFIX: usize = 15;
pub const LONGEST_PACKET: usize = 2048;
pub const LONGEST_LINE: usize = PREFIX + 2 * LONGEST_PACKET;
/// "clock is 2^48 ms or more" is refused.
const CLOCK_LIMIT: u64 = 1 << 48;

/// "side is not 0 or 1"
const BAD_SIDE: u32 = 1;
/// "clock is 2^48 ms or more"
const BAD_CLOCK: u32 = 2;
/// "line over 4,111 characters"
pub const LINE_TOO_LONG: u32 = 21;
/// "malformed, with the offset"
pub const MALFORMED: u32 = 22;
/// "output too small"
const OUTPUT_TOO_SMALL: u32 = 23;
/// "packet empty or over 2,048"
const BAD_PACKET_LENGTH: u32 = 24;

/// "lower case only"
const DIGITS: [u8; 16] = *b"0123456789abcdef";
/// The value of every byte as a hex digit.
const VALUES: [u8; 256] = values();
const NO_DIGIT: u8 = 0xff;

const fn values() -> [u8; 256] {
    let mut values = [NO_DIGIT; 256];
    let mut value = 0;
    while value < DIGITS.len() {
        values[DIGITS[value] as usize] = value as u8;
        value += 1;
    }
    values
}

/// What reading a line gives, beside the packet bytes.
#[derive(Clone, Copy, Debug, Default, PartialEq, Eq)]
pub struct LineRead {
    /// 0, 21, 22 or 23.
    pub answer: u32,
    pub side: u8,
    pub clock: u64,
    /// Packet bytes written to the output.
    pub length: usize,
    /// Where a malformed line goes wrong, else 0.
    pub offset: usize,
}

/// What writing a line gives, beside its characters.
#[derive(Clone, Copy, Debug, Default, PartialEq, Eq)]
pub struct LineWrite {
    /// 0, 1, 2, 24 or 23.
    pub answer: u32,
    /// Characters written to the output.
    pub length: usize,
}

/// Reads a line without its newline. "Reading refuses: 21 [...]; 22 [...]; 23
/// [...]. In this order; a refusal writes nothing and gives length 0 (in
/// reading side and clock 0 too, and offset 0 but for 22). Output bytes past
/// the length stay as they were."
pub fn read_line(line: &[u8], packet: &mut [u8]) -> LineRead {
    if line.len() > LONGEST_LINE {
        return LineRead {
            answer: LINE_TOO_LONG,
            ..LineRead::default()
        };
    }
    if let Some(offset) = first_fault(line) {
        return LineRead {
            answer: MALFORMED,
            offset,
            ..LineRead::default()
        };
    }
    let pairs = line[PREFIX..].chunks_exact(2);
    let length = pairs.len();
    if length > packet.len() {
        return LineRead {
            answer: OUTPUT_TOO_SMALL,
            ..LineRead::default()
        };
    }
    for (byte, pair) in packet.iter_mut().zip(pairs) {
        *byte = value(pair[0]) << 4 | value(pair[1]);
    }
    LineRead {
        answer: 0,
        side: number(&line[..1]) as u8,
        clock: number(&line[2..14]),
        length,
        offset: 0,
    }
}

/// Writes a line without a newline. "Writing refuses: 1, 2, then 24 packet
/// empty or over 2,048, then 23. In this order; a refusal writes nothing and
/// gives length 0 [...]. Output bytes past the length stay as they were."
pub fn write_line(side: u32, clock: u64, packet: &[u8], line: &mut [u8]) -> LineWrite {
    let refused = |answer| LineWrite { answer, length: 0 };
    if side > 1 {
        return refused(BAD_SIDE);
    }
    if clock >= CLOCK_LIMIT {
        return refused(BAD_CLOCK);
    }
    if packet.is_empty() || packet.len() > LONGEST_PACKET {
        return refused(BAD_PACKET_LENGTH);
    }
    let length = PREFIX + 2 * packet.len();
    if length > line.len() {
        return refused(OUTPUT_TOO_SMALL);
    }
    line[..PREFIX].copy_from_slice(format!("{side} {clock:012x} ").as_bytes());
    for (pair, byte) in line[PREFIX..].chunks_exact_mut(2).zip(packet) {
        pair[0] = DIGITS[usize::from(byte >> 4)];
        pair[1] = DIGITS[usize::from(byte & 0x0f)];
    }
    LineWrite { answer: 0, length }
}

/// "the offset of the first byte that no legal line has there after the bytes
/// before it, or the length if the line stops early"
fn first_fault(line: &[u8]) -> Option<usize> {
    let (prefix, packet) = line.split_at(line.len().min(PREFIX));
    let in_prefix = (0..prefix.len()).find(|&offset| !legal_at(offset, prefix[offset]));
    // Most of a line is here, so this search is kept plain.
    let in_packet = || packet.iter().position(|&byte| value(byte) == NO_DIGIT);
    in_prefix
        .or_else(|| in_packet().map(|at| PREFIX + at))
        .or_else(|| stops_early(line.len()).then_some(line.len()))
}

/// Whether a legal line may have the byte at the offset, before the packet.
fn legal_at(offset: usize, byte: u8) -> bool {
    match offset {
        0 => byte == b'0' || byte == b'1',
        1 | 14 => byte == b' ',
        _ => value(byte) != NO_DIGIT,
    }
}

/// The packet has a byte or more; "an odd digit counts as early".
fn stops_early(length: usize) -> bool {
    length < PREFIX + 2 || (length - PREFIX) % 2 == 1
}

/// The value of a hex digit.
fn value(byte: u8) -> u8 {
    VALUES[usize::from(byte)]
}

/// The number that hex digits write, highest first; the caller has checked
/// that they are digits.
fn number(digits: &[u8]) -> u64 {
    digits
        .iter()
        .fold(0, |number, &byte| number * 16 + u64::from(value(byte)))
}

#[cfg(test)]
mod tests {
    use super::*;

    #[test]
    fn written_lines_read_back() {
        let packet: Vec<u8> = (0..LONGEST_PACKET)
            .map(|i| (i * 7 + i / 256) as u8)
            .collect();
        let clocks = [0, 1, 0x0123_4567_89ab, CLOCK_LIMIT - 1];
        for (length, clock) in [1, 2, 255, LONGEST_PACKET].into_iter().zip(clocks) {
            for side in 0..=1 {
                let mut line = [b'.'; LONGEST_LINE];
                let written = write_line(side.into(), clock, &packet[..length], &mut line);
                assert_eq!(written.answer, 0);
                let mut back = [0; LONGEST_PACKET];
                let read = read_line(&line[..written.length], &mut back);
                let expected = LineRead {
                    answer: 0,
                    side,
                    clock,
                    length,
                    offset: 0,
                };
                assert_eq!(read, expected);
                assert_eq!(back[..length], packet[..length]);
            }
        }
    }

    #[test]
    fn read_lines_write_back() {
        // Every line that differs from a legal one in one byte.
        let legal = *b"1 0123456789ab 4f0a";
        for offset in 0..legal.len() {
            for byte in 0..=255 {
                let mut line = legal;
                line[offset] = byte;
                let mut packet = [0; 2];
                let read = read_line(&line, &mut packet);
                let mut back = [0; 19];
                let written = write_line(read.side.into(), read.clock, &packet, &mut back);
                assert_eq!(written.answer, 0);
                assert_eq!(read.answer == 0, back == line);
                if read.answer != 0 {
                    assert_eq!((read.answer, read.offset), (MALFORMED, offset));
                }
            }
        }
    }

    #[test]
    fn prefixes_of_a_legal_line() {
        let line = [b'0', b' ']
            .into_iter()
            .chain([b'0'; 12])
            .chain([b' '])
            .chain([b'0'; 2 * LONGEST_PACKET])
            .collect::<Vec<u8>>();
        for length in 0..=line.len() {
            let whole = length >= 17 && length % 2 == 1;
            let expected = if whole { None } else { Some(length) };
            assert_eq!(first_fault(&line[..length]), expected);
        }
    }
}
