//! A connection between two ends that keep the rules of document 01, "Honest
//! ends". "Places here are whole numbers". On their way to the filter segments
//! overtake each other (document 02, item 7).

use super::draft::Draft;
use super::random::Random;
use super::way::{Reaching, Way};
use crate::connection::{ANSWERER, OPENER};
use crate::packet::{ACK, FIN, SYN};
use crate::table::Names;

/// The most segments on their way past the filter.
const MOST_IN_FLIGHT: usize = 12;

/// A segment as its sender knows it, on the unwrapped line.
#[derive(Clone, Copy, Debug)]
pub struct Sending {
    pub flags: u8,
    pub start: u64,
    pub payload: u64,
    pub acknowledgement: u64,
    pub window: u16,
    /// "the highest acknowledgement that sender had received" when it was sent
    /// (document 02, item 7); the SYN's end before the first.
    pub received: u64,
    /// Its place in the end's sending order, from 1; its way counts them.
    pub number: u64,
}

impl Sending {
    pub fn has(&self, flags: u8) -> bool {
        self.flags & flags == flags
    }

    fn end(&self) -> u64 {
        self.start + self.payload + u64::from((self.flags & (SYN | FIN)).count_ones())
    }

    /// a + max(w, 1)
    fn edge(&self) -> u64 {
        self.acknowledgement + u64::from(self.window.max(1))
    }
}

/// What one end knows.
#[derive(Clone, Debug)]
struct HonestEnd {
    syn: u64,
    /// The window it offers most often.
    window: u16,
    /// It uses all of the other end's window and acknowledges little by little.
    stretched: bool,
    /// The opener has received a SYN+ACK, the answerer an ACK.
    opened: bool,
    /// The highest end received, 0 before the first.
    heard: u64,
    /// The highest end sent.
    sent: u64,
    /// Its FIN was sent: the place below `sent`.
    fin: bool,
    /// The highest acknowledgement received; the SYN's end before the first.
    acknowledged: u64,
    /// The highest a + max(w, 1) received.
    limit: u64,
    /// The acknowledgement sent last; they "never fall in sending order".
    said: u64,
    way: Way,
}

impl HonestEnd {
    fn new(stretched: bool, random: &mut Random) -> HonestEnd {
        let syn = (1 << 32) + u64::from(random.place());
        let window = if stretched {
            stretched_window(random)
        } else {
            random.window()
        };
        HonestEnd {
            syn,
            window,
            stretched,
            opened: false,
            heard: 0,
            sent: syn + 1,
            fin: false,
            acknowledged: syn + 1,
            limit: syn + 1,
            said: 0,
            way: Way::default(),
        }
    }

    /// Windows shrink to nothing and grow again.
    fn window(&self, random: &mut Random) -> u16 {
        match random.below(8) {
            0 => 0,
            1 => random.window(),
            _ => self.window,
        }
    }

    /// "acknowledges no less than the end of the other end's SYN and no further
    /// than the highest end received"
    fn acknowledgement(&mut self, other_syn: u64, random: &mut Random) -> u64 {
        let least = self.said.max(other_syn + 1);
        let newest = self.heard;
        self.said = match random.below(8) {
            0 => least,
            1 => random.between(least, newest),
            2 => self.little_by_little(least, newest, random),
            3..=6 if self.stretched => self.little_by_little(least, newest, random),
            _ => newest,
        };
        self.said
    }

    /// As far as it may go and still overtake what was sent before.
    fn little_by_little(&self, least: u64, newest: u64, random: &mut Random) -> u64 {
        let furthest = self.way.furthest_acknowledgement(random);
        furthest.map_or(newest, |furthest| furthest.clamp(least, newest))
    }

    /// A segment after the opening.
    fn later(
        &mut self,
        other_syn: u64,
        closing: bool,
        longest: u64,
        random: &mut Random,
    ) -> Sending {
        // Data ends below the FIN once that was sent, else at the limit.
        let data_end = if self.fin { self.sent - 1 } else { self.limit };
        let (start, payload) = if self.stretched && !self.fin && random.once_in(2) {
            self.last_octets(longest, random)
        } else {
            let start = self.start(random);
            let room = data_end.saturating_sub(start);
            (start, payload(room.min(longest), random))
        };
        let end = start + payload;
        let may_fin = if self.fin {
            end == data_end
        } else {
            closing && end < self.limit && end >= self.sent
        };
        let fin = may_fin && random.below(4) != 0;
        if fin {
            self.fin = true;
        }
        let end = end + u64::from(fin);
        debug_assert!(start >= self.acknowledged && end <= self.limit);
        self.sent = self.sent.max(end);
        Sending {
            flags: if fin { ACK | FIN } else { ACK },
            start,
            payload,
            acknowledgement: self.acknowledgement(other_syn, random),
            window: self.window(random),
            received: self.acknowledged,
            number: 0,
        }
    }

    /// Start and payload of a segment that ends at the limit, or one octet below
    /// it so that a FIN may. What was between never came to the filter.
    fn last_octets(&self, longest: u64, random: &mut Random) -> (u64, u64) {
        let end = self.limit - random.pick(&[0, 0, 0, 1]);
        let room = end - self.acknowledged;
        let payload = match random.below(32) {
            0 => room,
            1 | 2 => random.between(0, 536),
            _ => random.between(0, 4),
        };
        let payload = payload.min(room).min(longest);
        (end - payload, payload)
    }

    /// "starts at or above the highest acknowledgement its sender has received"
    fn start(&self, random: &mut Random) -> u64 {
        match random.below(10) {
            0 | 1 => random.between(self.acknowledged, self.sent),
            2 => self.acknowledged,
            // A hole: what was between never came to the filter.
            3 if !self.fin => random.between(self.sent, self.limit.min(self.sent + 50)),
            _ => self.sent,
        }
    }

    /// A segment of it may come late at the limit.
    fn waits(&self) -> bool {
        self.stretched && self.way.is_at_limit()
    }

    /// What the end learns from a segment delivered to it.
    fn receive(&mut self, segment: &Sending) {
        self.heard = self.heard.max(segment.end());
        if segment.flags & ACK != 0 {
            self.opened = true;
            self.acknowledged = self.acknowledged.max(segment.acknowledgement);
            self.limit = self.limit.max(segment.edge());
        }
    }
}

/// A window of any size, half of them the largest: only with it an honest
/// acknowledgement is as old as the filter lets it be.
fn stretched_window(random: &mut Random) -> u16 {
    match random.below(4) {
        0 => random.window(),
        1 => random.next() as u16,
        _ => 65_535,
    }
}

/// Payload octets up to the room: mostly few, so that traces stay short.
fn payload(room: u64, random: &mut Random) -> u64 {
    let wanted = match random.below(32) {
        0 => room,
        1 | 2 => random.between(0, 536),
        3..=5 => 1,
        6..=15 => random.between(0, 48),
        _ => 0,
    };
    wanted.min(room)
}

/// Two honest ends and what is between them.
#[derive(Clone, Debug)]
pub struct Link {
    pub names: Names,
    ends: [HonestEnd; 2],
    /// Passed by the filter and not yet delivered, with the receiving end.
    flight: Vec<(usize, Sending)>,
    /// Where the opening passed.
    pub place: Option<u32>,
    /// Nobody else may pass a segment on its entry.
    pub sheltered: bool,
    /// Its segments reach the filter in sending order only.
    in_order: bool,
    /// Both its ends are stretched.
    stretched: bool,
    /// Arrivals before the ends close, and before the link is given up.
    busy: u32,
    patience: u32,
}

impl Link {
    pub fn new(names: Names, random: &mut Random) -> Link {
        let stretched = random.once_in(4);
        let most = if stretched { 60 } else { 30 };
        let busy = random.between(2, most) as u32;
        Link {
            names,
            ends: [(); 2].map(|()| HonestEnd::new(stretched, random)),
            flight: Vec::new(),
            place: None,
            sheltered: random.once_in(2),
            in_order: !stretched && random.once_in(4),
            stretched,
            busy,
            patience: busy + 40,
        }
    }

    /// Lets the ends send, lose and deliver until a segment reaches the filter.
    /// Gives its sender.
    pub fn next_arrival(&mut self, longest: usize, random: &mut Random) -> (usize, Reaching) {
        self.busy = self.busy.saturating_sub(1);
        self.patience = self.patience.saturating_sub(1);
        loop {
            let end = self.active_end(random);
            if let Some(reaching) = self.turn(end, longest as u64, random) {
                return (end, reaching);
            }
        }
    }

    /// Either end; mostly not one that waits, so that the other end has sent all it
    /// may before a segment comes late at the limit.
    fn active_end(&self, random: &mut Random) -> usize {
        let end = random.index(2);
        if self.ends[end].waits() && !random.once_in(8) {
            return 1 - end;
        }
        end
    }

    /// If the end waits, mostly a segment that comes late; else any event.
    fn turn(&mut self, end: usize, longest: u64, random: &mut Random) -> Option<Reaching> {
        if self.ends[end].waits() && !random.once_in(4) {
            return self.ends[end].way.come_late(random);
        }
        self.event(end, longest, random)
    }

    /// One event, which may bring a segment to the filter.
    fn event(&mut self, end: usize, longest: u64, random: &mut Random) -> Option<Reaching> {
        let event = random.below(25);
        let way = &mut self.ends[end].way;
        match event {
            0..=6 => self.send(end, longest, random),
            7..=13 => self.deliver(random),
            14..=16 => way.hold_up(random),
            17 => return way.repeat(),
            18..=21 => return way.advance(random),
            _ if self.in_order => {}
            _ => return way.come_late(random),
        }
        None
    }

    /// A reset of an end has passed.
    pub fn reset_passed(&mut self, sender: usize) {
        self.ends[sender].way.reset();
    }

    fn send(&mut self, end: usize, longest: u64, random: &mut Random) {
        let other_syn = self.ends[1 - end].syn;
        let closing = self.busy == 0;
        let sender = &mut self.ends[end];
        if sender.way.is_full() {
            return;
        }
        // An opening is repeated now and then only.
        if !sender.opened && !random.once_in(4) {
            return;
        }
        let sending = if sender.opened {
            sender.later(other_syn, closing, longest, random)
        } else if end == OPENER {
            Sending {
                flags: SYN,
                start: sender.syn,
                payload: 0,
                acknowledgement: 0,
                window: sender.window,
                received: sender.acknowledged,
                number: 0,
            }
        } else if sender.heard != 0 {
            sender.said = other_syn + 1;
            Sending {
                flags: SYN | ACK,
                start: sender.syn,
                payload: 0,
                acknowledgement: other_syn + 1,
                window: sender.window,
                received: sender.acknowledged,
                number: 0,
            }
        } else {
            return;
        };
        sender.way.send(sending);
    }

    /// "past it, the only path, they may be lost, repeated and reordered"
    fn deliver(&mut self, random: &mut Random) {
        if self.flight.is_empty() {
            return;
        }
        let mut at = random.index(self.flight.len());
        if self.stretched && random.once_in(2) {
            at = self.flight.len() - 1;
        }
        let (to, sending) = self.flight[at];
        let fate = random.below(10);
        if fate != 0 {
            self.ends[to].receive(&sending);
        }
        if fate != 1 || self.flight.len() > MOST_IN_FLIGHT {
            self.flight.swap_remove(at);
        }
    }

    /// The filter passed an arrival.
    pub fn passed(&mut self, sender: usize, sending: &Sending) {
        self.flight.push((1 - sender, *sending));
    }

    pub fn draft(&self, sender: usize, sending: &Sending) -> Draft {
        let names = match sender {
            ANSWERER => self.names.reversed(),
            _ => self.names,
        };
        Draft {
            names,
            flags: sending.flags,
            // "its numbers modulo 2^32"
            sequence: sending.start as u32,
            acknowledgement: sending.acknowledgement as u32,
            window: sending.window,
            payload: sending.payload as usize,
        }
    }

    pub fn is_given_up(&self) -> bool {
        self.patience == 0
    }
}

#[cfg(test)]
mod tests {
    use super::*;

    const NAMES: Names = Names {
        opener_address: 1,
        answerer_address: 2,
        opener_port: 3,
        answerer_port: 4,
    };

    /// An arrival against document 02's sentence, read over every arrival of its
    /// sender before it. Gives how many segments overtook it.
    fn check(before: &[Sending], sending: &Sending) -> usize {
        let later = |other: &&Sending| other.number > sending.number;
        let overtakers: Vec<&Sending> = before.iter().filter(later).collect();
        for overtaker in &overtakers {
            // "neither SYN nor reset"; no end of a link sends a reset by itself.
            assert!(!sending.has(SYN));
            // "was sent while the highest acknowledgement that sender had received
            // was no further than the overtaken segment's start"
            assert!(overtaker.received <= sending.start);
            // "and acknowledges at most 465 octets further than it"
            assert!(overtaker.acknowledgement <= sending.acknowledgement + 465);
            // Neither falls in sending order.
            assert!(overtaker.received >= sending.received);
            assert!(overtaker.acknowledgement >= sending.acknowledgement);
        }
        overtakers.len()
    }

    #[test]
    fn arrivals_are_in_order_or_overtaken_as_allowed() {
        let mut random = Random::new(1);
        let mut counts = [0; 4];
        for _ in 0..1_000 {
            let mut link = Link::new(NAMES, &mut random);
            let mut arrived = [Vec::new(), Vec::new()];
            while !link.is_given_up() {
                let (end, reaching) = link.next_arrival(1_900, &mut random);
                let sending = reaching.sending;
                let before: &mut Vec<Sending> = &mut arrived[end];
                let overtakers = check(before, &sending);
                let again = before.iter().any(|other| other.number == sending.number);
                assert_eq!(reaching.latest.is_some(), overtakers > 0);
                assert_eq!(reaching.again, again);
                assert!(!link.in_order || overtakers == 0);
                counts[2 * usize::from(overtakers > 0) + usize::from(again)] += 1;
                before.push(sending);
                link.passed(end, &sending);
            }
        }
        assert!(counts.iter().all(|&count| count > 2_000), "{counts:?}");
    }
}
