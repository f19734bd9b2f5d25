//! The DSM collector and the MACK store.
use crate::probe::{self, When};
use crate::{Random, Work};
use oracle::bitfields::{DsmHeader, NmaStatus};
use oracle::dsm::CollectDsm;
use oracle::{FullMackStorage, Gst, Svn};
use std::hint::black_box;

const BLOCKS: usize = 200_000;

/// KROOTs of 14 blocks in order, with IDs 0 to 11 in turn, so that each completes.
fn blocks() -> Vec<(u8, [u8; 13])> {
    let mut random = Random::new(2);
    (0..BLOCKS)
        .map(|k| {
            let mut block = [0; 13];
            random.fill(&mut block);
            if k % 14 == 0 {
                block[0] = 0x80 | block[0] & 15;
            }
            ((((k / 14 % 12) << 4) | (k % 14)) as u8, block)
        })
        .collect()
}

fn rust_dsm(blocks: &[(u8, [u8; 13])]) -> u64 {
    let mut collector = CollectDsm::new();
    let mut sum = 0;
    for (header, block) in blocks {
        if let Some(dsm) = collector.feed(DsmHeader(&[*header]), block) {
            sum += u64::from(dsm.id()) + dsm.data().len() as u64 + u64::from(dsm.data()[1]);
        }
    }
    sum
}

fn port_dsm(blocks: &[(u8, [u8; 13])]) -> u64 {
    let mut dsm = [0; 208];
    let mut collector = probe::dsm_new();
    let mut sum = 0;
    for (header, block) in blocks {
        let called = probe::dsm_feed(collector, &mut dsm, *header, block);
        collector = called.collector;
        if called.answer.kind == 1 {
            sum += called.answer.first + called.answer.third + u64::from(dsm[1]);
        }
    }
    sum
}

/// Messages of 36 satellites at one time after the other.
fn messages(times: u32) -> Vec<([u8; 60], When)> {
    let mut random = Random::new(3);
    (0..36 * times)
        .map(|k| {
            let mut message = [0; 60];
            random.fill(&mut message);
            (message, When { satellite: (k % 36) as u8 + 1, week: 1200, time: 30 * (k / 36) })
        })
        .collect()
}

fn at(when: &When) -> (Svn, Gst) {
    (Svn::try_from(when.satellite).unwrap(), Gst::new(when.week, when.time))
}

fn rust_store(messages: &[([u8; 60], When)]) -> FullMackStorage {
    let mut storage = FullMackStorage::new();
    for (message, when) in messages {
        let (svn, gst) = at(when);
        storage.store(message, svn, gst, NmaStatus::Operational);
    }
    storage
}

fn port_store(messages: &[([u8; 60], When)]) -> (probe::StoreRecord, Vec<u8>) {
    let mut memory = vec![0; 25_920];
    let mut storage = probe::store_new();
    for (message, when) in messages {
        storage = probe::store_store(storage, &mut memory, message, *when, 2).storage;
    }
    (storage, memory)
}

pub fn run() {
    let blocks = &blocks()[..];
    Work {
        name: "DSM blocks",
        units: BLOCKS,
        sides: vec![
            ("Rust, `CollectDsm::feed`", Box::new(move || rust_dsm(blocks))),
            ("`dsm::feed`, a call across C for each block", Box::new(move || port_dsm(blocks))),
        ],
    }
    .print();
    let many = &messages(1000)[..];
    Work {
        name: "MACK messages stored",
        units: many.len(),
        sides: vec![
            (
                "Rust, `MackStorage::store`",
                Box::new(move || {
                    black_box(rust_store(many));
                    0
                }),
            ),
            (
                "`store`, a call across C for each",
                Box::new(move || {
                    black_box(port_store(many));
                    0
                }),
            ),
        ],
    }
    .print();
    let twelve = messages(12);
    let rust = rust_store(&twelve);
    let (storage, memory) = port_store(&twelve);
    let asked: Vec<When> = twelve.iter().cycle().take(36 * 12 * 100).map(|message| message.1).collect();
    let (rust, storage, memory, asked) = (&rust, &storage, &memory[..], &asked[..]);
    Work {
        name: "MACK messages got",
        units: asked.len(),
        sides: vec![
            (
                "Rust, `MackStorage::get`",
                Box::new(move || {
                    asked
                        .iter()
                        .map(|when| {
                            let (svn, gst) = at(when);
                            u64::from(rust.get(svn, gst).unwrap().0[0])
                        })
                        .sum()
                }),
            ),
            (
                "`get`, a call across C for each",
                Box::new(move || {
                    asked
                        .iter()
                        .map(|when| {
                            let told = probe::store_get(*storage, when.satellite, when.week, when.time);
                            u64::from(memory[told.first as usize])
                        })
                        .sum()
                }),
            ),
        ],
    }
    .print();
}
