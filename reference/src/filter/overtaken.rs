//! Document 02, item 7: segments that reach the filter after others that were sent
//! later. At each limit the filter passes a segment; one octet further it blocks
//! one.

use super::*;

/// Opener and answerer as sides.
const O: u32 = 0;
const A: u32 = 1;

/// Where the places of the two ends are counted from. From the second pair the
/// opener's numbers wrap at 696 and the answerer's at 33,296, in the tests that go
/// that far.
const ORIGINS: [(u32, u32); 2] = [(0, 0), (4_294_966_600, 4_294_934_000)];

/// A connection on a fresh table.
struct Run {
    table: Vec<u8>,
    origins: (u32, u32),
    clock: u64,
}

impl Run {
    /// SYN, SYN+ACK and ACK: the opener's end is 101, its window 65,535; the
    /// answerer's end is 501, its window 1,000.
    fn new(origins: (u32, u32)) -> Run {
        let mut run = Run {
            table: fresh(1),
            origins,
            clock: 0,
        };
        run.pass(O, draft(SYN, 100, 0, 0).with_window(65_535));
        run.pass(A, draft(SYN | ACK, 500, 0, 101));
        run.pass(O, draft(ACK, 101, 0, 501).with_window(65_535));
        run
    }

    /// The answer to a segment of that side.
    fn answer(&mut self, side: u32, draft: Draft) -> u32 {
        self.clock += 1;
        let (own, other) = match side {
            O => self.origins,
            _ => (self.origins.1, self.origins.0),
        };
        let moved = Draft {
            sequence: draft.sequence.wrapping_add(own),
            acknowledgement: draft.acknowledgement.wrapping_add(other),
            ..draft
        };
        let packet = match side {
            O => moved.opener_packet(),
            _ => moved.answerer_packet(),
        };
        call(side, self.clock, &mut self.table, &packet).0
    }

    fn pass(&mut self, side: u32, draft: Draft) {
        assert_eq!(self.answer(side, draft), 0, "{}", self.clock);
    }

    fn stage(&self) -> u8 {
        table::entry(&self.table, 0).connection.stage
    }
}

/// The answer to a segment of the opener after one overtook it that acknowledges
/// so much further, and the answerer then sent all that the overtaker lets it.
fn overtaken_by_acknowledgement(origins: (u32, u32), further: u32, again: bool) -> u32 {
    let mut run = Run::new(origins);
    let overtaken = draft(ACK, 101, 5, 501).with_window(65_535);
    if again {
        run.pass(O, overtaken);
    }
    // The answerer's end is 501 + further.
    run.pass(A, draft(ACK, 501, further as usize, 101));
    // The overtaker, sent with highest acknowledgement 101, the overtaken one's
    // start: the answerer's edge is 501 + further + 65,535.
    run.pass(O, draft(ACK, 106, 5, 501 + further).with_window(65_535));
    // The answerer's end is its edge: 66,036 + further.
    run.pass(A, draft(ACK, 66_026 + further, 10, 101));
    run.answer(O, overtaken)
}

/// "acknowledges at most 465 octets further than it"
#[test]
fn the_allowance_is_exact() {
    for origins in ORIGINS {
        for again in [false, true] {
            // T.end − a = 66,036 + 465 − 501 = 66,000.
            assert_eq!(overtaken_by_acknowledgement(origins, 465, again), 0);
            // T.end − a = 66,036 + 466 − 501 = 66,001.
            assert_eq!(overtaken_by_acknowledgement(origins, 466, again), 15);
        }
    }
}

/// The answer to a segment of the opener that starts at `start`, after one
/// overtook it that was sent when the highest acknowledgement received was 102.
fn overtaken_from(origins: (u32, u32), start: u32, again: bool) -> u32 {
    let mut run = Run::new(origins);
    run.pass(O, draft(ACK, 101, 1, 501));
    let overtaken = draft(ACK, start, 1, 501);
    if again {
        run.pass(O, overtaken);
    }
    // The opener's edge is 102 + 1,000.
    run.pass(A, draft(ACK, 501, 0, 102));
    // The overtaker makes the opener's end its edge, 1,102.
    run.pass(O, draft(ACK, 1_092, 10, 501));
    run.answer(O, overtaken)
}

/// "was sent while the highest acknowledgement that sender had received was no
/// further than the overtaken segment's start"
#[test]
fn the_start_is_exact() {
    for origins in ORIGINS {
        for again in [false, true] {
            // low = F.end − T.win = 1,102 − 1,000 = 102 and d = 0.
            assert_eq!(overtaken_from(origins, 102, again), 0);
            // low = 102 as well, and d = 2^32 − 1.
            assert_eq!(overtaken_from(origins, 101, again), 14);
        }
    }
}

/// The same with the largest window.
#[test]
fn the_start_is_exact_with_the_largest_window() {
    for (start, answer) in [(502, 0), (501, 14)] {
        let mut run = Run::new(ORIGINS[1]);
        run.pass(A, draft(ACK, 501, 1, 101));
        // The answerer's edge is 502 + 65,535.
        run.pass(O, draft(ACK, 101, 0, 502).with_window(65_535));
        // low = F.end − T.win = 66,037 − 65,535 = 502 from here on.
        run.pass(A, draft(ACK, 66_027, 10, 101));
        assert_eq!(run.answer(A, draft(ACK, start, 1, 101)), answer);
    }
}

#[test]
fn a_fin_overtakes_data() {
    for origins in ORIGINS {
        let mut run = Run::new(origins);
        run.pass(O, draft(ACK | FIN, 111, 0, 501));
        assert_eq!(run.stage(), 4);
        // First, and again after the other end's FIN.
        run.pass(O, draft(ACK, 101, 10, 501));
        run.pass(A, draft(ACK | FIN, 501, 0, 112));
        run.pass(O, draft(ACK, 101, 10, 501));
        assert_eq!(run.stage(), 5);
    }
}

/// "every segment without RST": a reset overtakes whatever its numbers are.
#[test]
fn a_reset_overtakes_data() {
    for origins in ORIGINS {
        let mut run = Run::new(origins);
        run.pass(O, draft(RST, 1_101, 0, 0));
        assert_eq!(run.stage(), 6);
        run.pass(O, draft(ACK, 101, 10, 501));
        assert_eq!(run.stage(), 3);
    }
}
