//! The DSM-PKR that the Receiver Guidelines print (A.7): written, the Rust makes the printed leaf of it.
use crate::bench::Bench;
use crate::call::Call;
use crate::model::{Kind, LENT};
use differential::sequence::{Came, Pair, hex};
use oracle::bitfields::DsmPkr;

const NODES: &str = "7CBE05D9970CFC9E22D0A43A340EF557624453A2E821AADEAC989C405D78BA06\
                     956380BAB0D2C939EC6208151040CCFFCF1FB7156178FD1255BA0AECAAA253F7\
                     407B6C5DD4DF059FF8789474061301E1C34881DB7A367A913A3674300E21EAB1\
                     24EF508389B7D446C3E2ECE8D459FBBD3239A794906F5B1F92469C640164FD87";
const KEY: &str = "0303B2CE64BC207BDD8BC4DF859187FCB686320D63FFA091410FC158FBB77980EA";
const LEAF: &str = "120303B2CE64BC207BDD8BC4DF859187FCB686320D63FFA091410FC158FBB77980EA";

fn bytes(text: &str) -> Vec<u8> {
    (0..text.len()).step_by(2).map(|at| u8::from_str_radix(&text[at..at + 2], 16).unwrap()).collect()
}

/// NB_DP 7, MID 1, NPKT 1, NPKID 2; the padding is not printed.
pub fn published_pkr() -> Result<(), String> {
    let call = Call {
        kind: Kind::Pkr,
        id: 12,
        values: vec![7, 1, 1, 2],
        parts: [bytes(NODES), bytes(KEY), vec![0; 6]],
        lent: LENT,
        order: Some(0),
        cut: (LENT, 12, 0),
        read: None,
    };
    let mut bench = Bench::new(0);
    if bench.call(&call)? != Came::Answer {
        return Err("it is refused".to_string());
    }
    let leaf = DsmPkr(&bench.lent()[..169]).merkle_tree_leaf().map(hex);
    if leaf.as_deref() == Some(&LEAF.to_lowercase()) { Ok(()) } else { Err(format!("the Rust's leaf is {leaf:?}")) }
}
