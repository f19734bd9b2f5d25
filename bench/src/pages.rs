//! Pages of 36 satellites in turn, all in order, so that each subframe completes for all, or is silent for all.
use crate::probe::{self, Buffers, When};
use crate::{Random, Work};
use oracle::subframe::CollectSubframe;
use oracle::{Gst, Svn};

const ENTRY: usize = 12;

/// A trace of that many pages: satellite, week, time, page, high byte first; a page is random, or zeros.
fn trace(pages: usize, silent: bool) -> Vec<u8> {
    let mut random = Random::new(1);
    let mut trace = vec![0; ENTRY * pages];
    for (k, entry) in trace.chunks_mut(ENTRY).enumerate() {
        let seconds = 2 * (k / 36) as u32;
        entry[0] = (k % 36) as u8 + 1;
        entry[1..3].copy_from_slice(&(1200 + (seconds / 604_800) as u16).to_be_bytes());
        entry[3..7].copy_from_slice(&(seconds % 604_800).to_be_bytes());
        if !silent {
            random.fill(&mut entry[7..]);
        }
    }
    trace
}

fn when(entry: &[u8]) -> When {
    let week = u16::from_be_bytes([entry[1], entry[2]]);
    let time = u32::from_be_bytes([entry[3], entry[4], entry[5], entry[6]]);
    When { satellite: entry[0], week, time }
}

pub fn run(many: usize) {
    work(many, "pages", false);
    work(many, "pages, all silent", true);
}

fn work(many: usize, name: &'static str, silent: bool) {
    let trace = &trace(many, silent)[..];
    let pages: Vec<([u8; 5], When)> =
        trace.chunks(ENTRY).map(|entry| (entry[7..].try_into().unwrap(), when(entry))).collect();
    let rust_pages: Vec<([u8; 5], Svn, Gst)> = pages
        .iter()
        .map(|(bytes, when)| (*bytes, Svn::try_from(when.satellite).unwrap(), Gst::new(when.week, when.time)))
        .collect();
    let (pages, rust_pages) = (&pages[..], &rust_pages[..]);
    let silent = u64::from(silent);
    Work {
        name,
        units: many,
        sides: vec![
            ("Rust, `CollectSubframe::feed`", Box::new(move || rust(rust_pages, silent))),
            ("Rust, from the bytes of the trace", Box::new(move || rust_trace(trace, silent))),
            ("`feed`, a call across C for each page", Box::new(move || feed(pages))),
            ("`feed_all`", Box::new(move || feed_all(trace))),
        ],
    }
    .print();
}

// Each side adds the time of week and the first HKROOT byte of each pair, and 1 where it is silent, which the Rust is told.

fn rust(pages: &[([u8; 5], Svn, Gst)], silent: u64) -> u64 {
    let mut collector = CollectSubframe::new();
    let mut sum = 0;
    for (bytes, svn, gst) in pages {
        if let Some((hkroot, _, gst)) = collector.feed(bytes, *svn, *gst) {
            sum += u64::from(gst.tow()) + u64::from(hkroot[0]) + silent;
        }
    }
    sum
}

fn rust_trace(trace: &[u8], silent: u64) -> u64 {
    let mut collector = CollectSubframe::new();
    let mut sum = 0;
    for entry in trace.chunks_exact(ENTRY) {
        let When { satellite, week, time } = when(entry);
        let bytes = entry[7..].try_into().unwrap();
        let (svn, gst) = (Svn::try_from(satellite).unwrap(), Gst::new(week, time));
        if let Some((hkroot, _, gst)) = collector.feed(bytes, svn, gst) {
            sum += u64::from(gst.tow()) + u64::from(hkroot[0]) + silent;
        }
    }
    sum
}

fn feed(pages: &[([u8; 5], When)]) -> u64 {
    let (mut hkroot, mut mack) = ([0; 540], [0; 2160]);
    let mut collector = probe::subframe_new();
    let mut sum = 0;
    for (bytes, when) in pages {
        let lent = Buffers { hkroot: &mut hkroot, mack: &mut mack };
        let called = probe::subframe_feed(collector, lent, bytes, *when);
        collector = called.collector;
        if called.answer.kind == 1 {
            let first = hkroot[15 * (usize::from(when.satellite) - 1)];
            sum += called.answer.second + u64::from(first) + called.answer.third;
        }
    }
    sum
}

fn feed_all(trace: &[u8]) -> u64 {
    let (mut hkroot, mut mack) = ([0; 540], [0; 2160]);
    let mut collector = probe::subframe_new();
    let (mut sum, mut at) = (0, 0);
    while at < trace.len() {
        let lent = Buffers { hkroot: &mut hkroot, mack: &mut mack };
        let traced = probe::subframe_feed_all(collector, lent, &trace[at..]);
        collector = traced.collector;
        at += ENTRY * traced.consumed as usize;
        if traced.answer.kind == 1 {
            let satellite = usize::from(trace[at - ENTRY]);
            sum += traced.answer.second + u64::from(hkroot[15 * (satellite - 1)]) + traced.answer.third;
        }
    }
    sum
}
