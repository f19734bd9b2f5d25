//! Document 01's page rules, and request 2 of document 02, over the published `CollectSubframe` and `CollectDsm`: what the
//! program has to write.
use oracle::bitfields::DsmHeader;
use oracle::dsm::CollectDsm;
use oracle::subframe::CollectSubframe;
use oracle::{Gst, Svn};
use std::fmt::Write;

pub const PAGE: usize = 30;

/// What the program writes for these arguments and this input.
pub fn output(arguments: &[String], input: &[u8]) -> String {
    match start(arguments) {
        Err(number) => format!("refused {number}\n"),
        Ok((satellite, week, time)) => replay(satellite, week, time, input),
    }
}

/// "a missing, extra or non-decimal one (digits only, at least one) is 7, tested before all else here; digits of any
/// length that exceed a range are 2, 3 or 4"
fn start(arguments: &[String]) -> Result<(u8, u16, u32), u8> {
    let decimal = |word: &String| !word.is_empty() && word.bytes().all(|byte| byte.is_ascii_digit());
    if arguments.len() != 3 || !arguments.iter().all(decimal) {
        return Err(7);
    }
    // a number too long for 64 bits is above every range
    let numbers: Vec<u64> = arguments
        .iter()
        .map(|word| match word.trim_start_matches('0') {
            "" => 0,
            digits => digits.parse().unwrap_or(u64::MAX),
        })
        .collect();
    if !(1..=36).contains(&numbers[0]) {
        return Err(2);
    }
    if numbers[1] > 4095 {
        return Err(3);
    }
    if numbers[2] > 604_799 {
        return Err(4);
    }
    Ok((numbers[0] as u8, numbers[1] as u16, numbers[2] as u32))
}

fn bit(page: &[u8], n: usize) -> u8 {
    page[n / 8] >> (7 - n % 8) & 1
}

/// "A page counts if bits 0, 1, 120, 121 are 0, 0, 1, 0; OSNMA is bits 138..177."
fn osnma(page: &[u8]) -> Option<[u8; 5]> {
    if [0, 1, 120, 121].map(|n| bit(page, n)) != [0, 0, 1, 0] {
        return None;
    }
    let byte = |k: usize| (0..8).fold(0, |byte, n| byte << 1 | bit(page, 138 + 8 * k + n));
    Some([0, 1, 2, 3, 4].map(byte))
}

fn replay(satellite: u8, mut week: u16, mut time: u32, input: &[u8]) -> String {
    let svn = Svn::try_from(satellite).unwrap();
    let (mut subframe, mut dsm) = (CollectSubframe::new(), CollectDsm::new());
    let mut text = String::new();
    let (mut skipped, mut subframes, mut dsms, mut silent) = (0, 0, 0, 0);
    for page in input.chunks_exact(PAGE) {
        match osnma(page) {
            None => skipped += 1,
            Some(bytes) => match subframe.feed(&bytes, svn, Gst::new(week, time)) {
                None => {}
                Some((hkroot, mack, _)) if *hkroot == [0; 15] && *mack == [0; 60] => silent += 1,
                Some((hkroot, _, gst)) => {
                    subframes += 1;
                    writeln!(text, "S {satellite} {} {}", gst.wn(), gst.tow()).unwrap();
                    let block = hkroot[2..].try_into().unwrap();
                    if let Some(dsm) = dsm.feed(DsmHeader(&[hkroot[1]]), block) {
                        dsms += 1;
                        writeln!(text, "D {} {}", dsm.id(), dsm.data().len()).unwrap();
                    }
                }
            },
        }
        time += 2;
        if time >= 604_800 {
            time -= 604_800;
            week = if week == 4095 { 0 } else { week + 1 };
        }
    }
    let (pages, tail) = (input.len() / PAGE, input.len() % PAGE);
    writeln!(text, "pages {pages} skipped {skipped} subframes {subframes} dsms {dsms} silent {silent} tail {tail}")
        .unwrap();
    text
}
