//! Counts what the resets in a run of calls meet and what comes after them
//! (document 02, item 6).

use crate::connection::{OPENER, RESET_STAGE};
use crate::filter::{names, PASSED};
use crate::packet::{self, Segment, ACK, RST, SYN};
use crate::table::{self, Names};

/// A call that was made: the table before it, what it was given, the answer and
/// the table after it.
pub struct Made<'a> {
    pub before: &'a [u8],
    pub side: u8,
    pub clock: u64,
    pub packet: &'a [u8],
    pub answer: u32,
    pub after: &'a [u8],
}

/// How often each of these came. Stages are indices.
#[derive(Debug, Default)]
pub struct ResetCounts {
    /// Passed resets, by the stage they met.
    pub passed: [u64; 7],
    /// Refused resets, by the stage they met.
    pub refused: [u64; 7],
    /// Passed resets from stage 2 on: without and with ACK, by the opener and
    /// by the answerer.
    pub senders: [[u64; 2]; 2],
    /// Passed segments without RST that met stage 6, by the stage they gave.
    pub returned: [u64; 6],
    /// The same where stage 2 was before the reset or resets.
    pub returned_from_2: u64,
    /// Segments that met stage 6 in its last live millisecond, and those that
    /// would have met it one earlier.
    pub last_live: u64,
    pub just_expired: u64,
    /// SYNs of an opener that met stage 6: refused, and passed.
    pub syn_refused: u64,
    pub syn_passed: u64,
    /// Openings by the names of an expired entry in stage 6.
    pub reopened: u64,
    /// Places whose stage before the reset was 2.
    from_2: Vec<usize>,
}

impl ResetCounts {
    /// Takes a call that no reader refused; one without a well-formed packet
    /// counts nowhere.
    pub fn count(&mut self, made: &Made) {
        let Ok(segment) = packet::read(made.packet) else {
            return;
        };
        let names = names(&segment);
        let clock_used = made.clock.max(table::clock(made.before));
        let met = |clock: u64| {
            let (place, sender) = table::first_live_match(made.before, made.side, &names, clock)?;
            Some((place, sender, table::entry(made.before, place).connection))
        };
        if let Some((_, _, held)) = clock_used.checked_sub(1).and_then(met) {
            if held.stage == RESET_STAGE && held.deadline == clock_used {
                self.just_expired += 1;
            }
        }
        match met(clock_used) {
            Some((place, sender, held)) => {
                if held.stage == RESET_STAGE {
                    self.last_live += u64::from(held.deadline == clock_used + 1);
                    self.in_stage_6(made, &segment, place, sender);
                }
                if segment.flags & RST != 0 {
                    self.reset(made, &segment, place, sender, held.stage);
                }
            }
            None => self.unmatched(made, &names),
        }
    }

    fn in_stage_6(&mut self, made: &Made, segment: &Segment, place: usize, sender: usize) {
        let passed = made.answer == PASSED;
        if segment.flags & (SYN | ACK) == SYN && sender == OPENER {
            self.syn_passed += u64::from(passed);
            self.syn_refused += u64::from(!passed);
        }
        if passed && segment.flags & RST == 0 {
            let stage = table::entry(made.after, place).connection.stage;
            self.returned[usize::from(stage)] += 1;
            if let Some(at) = self.from_2.iter().position(|&from| from == place) {
                self.from_2.swap_remove(at);
                self.returned_from_2 += 1;
            }
        }
    }

    fn reset(&mut self, made: &Made, segment: &Segment, place: usize, sender: usize, stage: u8) {
        if made.answer != PASSED {
            self.refused[usize::from(stage)] += 1;
            return;
        }
        self.passed[usize::from(stage)] += 1;
        if stage >= 2 {
            let acknowledges = usize::from(segment.flags & ACK != 0);
            self.senders[acknowledges][sender] += 1;
        }
        if stage == 2 {
            self.from_2.push(place);
        }
    }

    fn unmatched(&mut self, made: &Made, names: &Names) {
        if made.answer != PASSED {
            return;
        }
        // The opening took a place, whatever was noted of it.
        let untouched =
            |&place: &usize| table::entry(made.before, place) == table::entry(made.after, place);
        self.from_2.retain(untouched);
        let was_reset = |place: usize| {
            let entry = table::entry(made.before, place);
            entry.names == *names && entry.connection.stage == RESET_STAGE
        };
        self.reopened += u64::from((0..table::places(made.before)).any(was_reset));
    }
}
