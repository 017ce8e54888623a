//! Counts the honest arrivals that were overtaken (document 02, item 7), and how
//! near they are to what the filter refuses.

use super::honest::Sending;
use super::way::{Reaching, ALLOWANCE};
use crate::connection::{Connection, End};
use crate::packet::FIN;
use std::slice;

/// "(T.end − a) mod 2^32 ≤ 66,000"
const OLDEST_ACKNOWLEDGEMENT: u32 = 66_000;
/// So many overtakers are several.
const SEVERAL: u32 = 3;

/// A count for each kind of largest window: up to 464, up to 4,999, up to 65,534
/// and 65,535.
pub type ByWindow = [u64; 4];

/// How often each of these came.
#[derive(Debug, Default)]
pub struct OvertakenCounts {
    /// Overtaken by segments without RST: first arrivals and repeats, and repeats
    /// after several had overtaken them.
    pub first: u64,
    pub again: u64,
    pub again_after_several: u64,
    /// Data that a FIN overtook: first arrivals and repeats.
    pub data_by_fin: [u64; 2],
    /// Segments that a reset overtook: first arrivals and repeats.
    pub by_reset: [u64; 2],
    /// "no further than the overtaken segment's start": equally far, by the other
    /// end's window.
    pub at_start: ByWindow,
    /// "at most 465 octets further": 465, by the sender's window.
    pub at_allowance: ByWindow,
    /// At the lowest sequence number that passes, by the other end's window.
    pub at_lowest: ByWindow,
    /// At the oldest acknowledgement that passes: first arrivals and repeats.
    pub at_oldest: [u64; 2],
}

impl OvertakenCounts {
    /// Counts an arrival at a live connection; `held` is the connection before it.
    pub fn count(&mut self, held: &Connection, sender: usize, reaching: &Reaching) {
        let again = usize::from(reaching.again);
        self.by_reset[again] += u64::from(reaching.reset_overtook);
        if let Some(latest) = &reaching.latest {
            self.kinds(reaching);
            self.limits(held.ends[sender], held.ends[1 - sender], reaching, latest);
        }
    }

    fn kinds(&mut self, reaching: &Reaching) {
        let (sending, again) = (&reaching.sending, reaching.again);
        self.first += u64::from(!again);
        self.again += u64::from(again);
        self.again_after_several += u64::from(again && reaching.overtakers >= SEVERAL);
        let data_by_fin = reaching.fin_overtook && sending.payload > 0 && !sending.has(FIN);
        self.data_by_fin[usize::from(again)] += u64::from(data_by_fin);
    }

    /// Arrivals at a limit: one octet further is not allowed, or is blocked.
    fn limits(&mut self, from: End, to: End, reaching: &Reaching, latest: &Sending) {
        let (start, said) = (reaching.sending.start, reaching.sending.acknowledgement);
        let is_at_start = latest.received == start;
        self.at_start[kind(to.win)] += u64::from(is_at_start);
        let is_at_allowance = latest.acknowledgement == said + ALLOWANCE;
        self.at_allowance[kind(from.win)] += u64::from(is_at_allowance);
        let is_lowest = from.end.wrapping_sub(start as u32) == to.win;
        self.at_lowest[kind(to.win)] += u64::from(is_lowest);
        let is_oldest = to.end.wrapping_sub(said as u32) == OLDEST_ACKNOWLEDGEMENT;
        self.at_oldest[usize::from(reaching.again)] += u64::from(is_oldest);
    }

    /// Each count or row of counts with its name.
    pub fn named(&self) -> [(&'static str, &[u64]); 9] {
        [
            ("overtaken, first", slice::from_ref(&self.first)),
            ("overtaken, again", slice::from_ref(&self.again)),
            (
                "again after several",
                slice::from_ref(&self.again_after_several),
            ),
            (
                "data that a FIN overtook, first and again",
                &self.data_by_fin,
            ),
            ("what a reset overtook, first and again", &self.by_reset),
            ("equality in the start, by window", &self.at_start),
            ("equality in the allowance, by window", &self.at_allowance),
            ("at the lowest sequence number, by window", &self.at_lowest),
            ("66,000 behind, first and again", &self.at_oldest),
        ]
    }
}

fn kind(window: u32) -> usize {
    match window {
        0..=464 => 0,
        465..=4_999 => 1,
        5_000..=65_534 => 2,
        _ => 3,
    }
}
