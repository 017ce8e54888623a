//! The sums that the checksums of RFC 791 and RFC 9293 are made of.

use std::ops::Range;

/// Where an IP header has the protocol, and where both addresses.
const PROTOCOL: usize = 9;
const ADDRESSES: Range<usize> = 12..20;
/// Where a TCP header has its checksum.
const TCP_CHECKSUM: Range<usize> = 16..18;
/// Without options, either header has 20 bytes.
const SHORTEST_HEADER: usize = 20;

/// RFC 1071: the octets as 16-bit words in network order, added, each carry out
/// of the top added at the bottom. For at most 65,535 octets.
pub fn ones_complement_sum(octets: &[u8]) -> u16 {
    let words = octets.chunks_exact(2);
    // An odd last octet is the high one of its word, padded by a zero octet.
    let last = words
        .remainder()
        .first()
        .map_or(0, |&octet| u32::from(octet) << 8);
    let words = words.map(|word| u16::from_be_bytes([word[0], word[1]]));
    // The carries may be added at the end (RFC 1071, section 2): until then
    // 32 bits hold them, as 32,768 words of ffff come to 7fff8000.
    add_carries(words.map(u32::from).sum::<u32>() + last)
}

/// What is above the lower 16 bits is added to them until nothing is.
fn add_carries(mut sum: u32) -> u16 {
    while sum > 0xffff {
        sum = (sum >> 16) + (sum & 0xffff);
    }
    sum as u16
}

/// RFC 9293, section 3.1: the sum over the pseudo-header and the segment, that
/// is, the TCP header and the payload.
pub fn tcp_sum(ip_header: &[u8], segment: &[u8]) -> u16 {
    // Source address, destination address, zero, "PTCL: the protocol number
    // from the IP header", TCP length, which total length bounds.
    let mut pseudo_header = [0; 12];
    pseudo_header[..8].copy_from_slice(&ip_header[ADDRESSES]);
    pseudo_header[9] = ip_header[PROTOCOL];
    pseudo_header[10..].copy_from_slice(&(segment.len() as u16).to_be_bytes());
    // It is whole words, so each may be added up by itself.
    let sums = [&pseudo_header[..], segment].map(ones_complement_sum);
    add_carries(u32::from(sums[0]) + u32::from(sums[1]))
}

/// Makes the TCP checksum of an IPv4 packet right, by the header length and the
/// total length that the packet states. One that has no whole TCP header within
/// them stays as it is.
pub fn write_tcp_checksum(packet: &mut [u8]) {
    let Some((ip_header, segment)) = split(packet) else {
        return;
    };
    segment[TCP_CHECKSUM].fill(0);
    let checksum = !tcp_sum(ip_header, segment);
    segment[TCP_CHECKSUM].copy_from_slice(&checksum.to_be_bytes());
}

/// The IP header and the segment, without the bytes past total length.
fn split(packet: &mut [u8]) -> Option<(&[u8], &mut [u8])> {
    if packet.len() < SHORTEST_HEADER {
        return None;
    }
    let header_length = 4 * usize::from(packet[0] & 0x0f);
    let total_length = usize::from(u16::from_be_bytes([packet[2], packet[3]]));
    let (ip_header, segment) = packet
        .get_mut(..total_length)?
        .split_at_mut_checked(header_length)?;
    let whole = ip_header.len() >= SHORTEST_HEADER && segment.len() >= SHORTEST_HEADER;
    whole.then_some((ip_header, segment))
}

#[cfg(test)]
mod tests {
    use super::*;

    #[test]
    fn carries_go_around() {
        assert_eq!(ones_complement_sum(&[]), 0);
        assert_eq!(ones_complement_sum(&[0xff, 0xff, 0x00, 0x01]), 1);
        assert_eq!(ones_complement_sum(&[0xff; 60]), 0xffff);
        assert_eq!(ones_complement_sum(&[0x80, 0x00, 0x7f, 0xff]), 0xffff);
    }

    #[test]
    fn an_odd_octet_is_padded_on_the_right() {
        assert_eq!(ones_complement_sum(&[0x01]), 0x0100);
        assert_eq!(ones_complement_sum(&[0xff]), 0xff00);
        assert_eq!(ones_complement_sum(&[0x01, 0x02, 0x03]), 0x0402);
        assert_eq!(ones_complement_sum(&[0x00, 0xff, 0xff]), 0xffff);
        // The padded word carries too: ff00 + 0100 = 10000.
        assert_eq!(ones_complement_sum(&[0xff, 0x00, 0x01]), 1);
        assert_eq!(ones_complement_sum(&[0xff; 61]), 0xff00);
    }

    #[test]
    fn the_longest_sum_fits() {
        // 7fff * ffff = 7ffe8001, with the padded word ff00 7fff7f01.
        assert_eq!(ones_complement_sum(&[0xff; 65_535]), 0xff00);
        assert_eq!(ones_complement_sum(&[0xff; 65_534]), 0xffff);
        assert_eq!(ones_complement_sum(&[0x00; 65_535]), 0);
    }

    /// 10.0.0.1 to 10.0.0.2: the pseudo-header comes to 1409 and the length.
    const IP_HEADER: [u8; 20] = [
        0x45, 0, 0, 0, 0, 0, 0, 0, 64, 6, 0, 0, 10, 0, 0, 1, 10, 0, 0, 2,
    ];

    #[test]
    fn the_pseudo_header_is_in_the_tcp_sum() {
        // 0a00 + 0001 + 0a00 + 0002 + 0006 + 0014 = 141d.
        assert_eq!(tcp_sum(&IP_HEADER, &[0; 20]), 0x141d);
        // With an odd octet, padded: 1409 + 0015 + ab00 = bf1e.
        let mut segment = [0; 21];
        segment[20] = 0xab;
        assert_eq!(tcp_sum(&IP_HEADER, &segment), 0xbf1e);
        // Both sums carry: ffff + 141d = 1141c.
        assert_eq!(tcp_sum(&IP_HEADER, &[0xff; 20]), 0x141d);
        // IP options and the fields beside protocol and addresses do not count.
        let mut long = [0xff; 60];
        long[9..20].copy_from_slice(&IP_HEADER[9..]);
        assert_eq!(tcp_sum(&long, &[0; 20]), 0x141d);
        // The longest: 1409 + ffeb, and 7ff5 words of ffff with ff00.
        assert_eq!(tcp_sum(&IP_HEADER, &[0x00; 65_515]), 0x13f5);
        assert_eq!(tcp_sum(&IP_HEADER, &[0xff; 65_515]), 0x12f6);
    }

    #[test]
    fn a_written_tcp_checksum_makes_the_sum_ffff() {
        for header_length in (20..=60).step_by(4) {
            for segment_length in [20, 21, 22, 23, 24, 61] {
                for past in [0, 1, 2, 9] {
                    let total_length = header_length + segment_length;
                    let mut packet = vec![0xe7; total_length + past];
                    packet[..20].copy_from_slice(&IP_HEADER);
                    packet[0] = 0x40 | (header_length / 4) as u8;
                    packet[3] = total_length as u8;
                    let before = packet.clone();
                    write_tcp_checksum(&mut packet);
                    let (ip_header, rest) = packet.split_at(header_length);
                    assert_eq!(tcp_sum(ip_header, &rest[..segment_length]), 0xffff);
                    // It wrote the field alone.
                    let field = header_length + 16;
                    packet[field..field + 2].fill(0xe7);
                    assert_eq!(packet, before);
                }
            }
        }
    }

    #[test]
    fn no_whole_tcp_header_no_checksum() {
        let written = |first: u8, total_length: u8, given: usize| {
            let mut packet = [0x77; 80];
            packet[0] = first;
            packet[2..4].copy_from_slice(&[0, total_length]);
            let before = packet;
            write_tcp_checksum(&mut packet[..given]);
            packet != before
        };
        assert!(written(0x45, 40, 40));
        assert!(written(0x4f, 80, 80));
        for (first, total_length, given) in [
            (0x45, 40, 0),
            (0x45, 40, 19),
            (0x45, 40, 39),
            (0x45, 39, 40),
            (0x45, 19, 40),
            (0x44, 40, 40),
            (0x40, 40, 40),
            (0x4f, 79, 80),
            (0x4f, 40, 80),
        ] {
            assert!(!written(first, total_length, given));
        }
    }
}
