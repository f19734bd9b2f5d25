//! list FILE: the recorded answers as text, a line for each, a key's size in bytes.
use differential::answers::{Record, TIMING_TAGS, VALIDATE_ADKD};
use differential::call::{Call, Function, show};
use differential::sequence::hex;
use differential::units::record_in_bytes;
use std::process::exit;

/// A function of the C boundary.
fn call(record: &Record, function: Function) -> String {
    let (args, answer) = record_in_bytes(function, record.args.map(u64::from), record.answer);
    let call = Call::new(function, &record.message, args);
    format!("{call} -> {}", show(answer, function.results()))
}

/// A tag and its slot, or the tags that hold ADKD 4; none for another number.
fn slots(record: &Record) -> Option<String> {
    let ([key, tag_size, tag], answer) = (record.args, show(record.answer, 1));
    let sizes = format!("key_size_bytes={} tag_size_bits={tag_size}", key / 8);
    match (record.number, &record.message[..]) {
        (VALIDATE_ADKD, [sender, id, message, mack @ ..]) => Some(format!(
            "validate_adkd {sizes} tag={tag} sender={sender} id={id} message={message} msg={} -> {answer}",
            hex(mack)
        )),
        (TIMING_TAGS, mack) => Some(format!("timing_tags {sizes} msg={} -> {answer}", hex(mack))),
        _ => None,
    }
}

fn main() {
    let Some(path) = std::env::args().nth(1) else {
        eprintln!("usage: list FILE");
        exit(2)
    };
    let bytes = std::fs::read(&path).unwrap_or_else(|e| {
        eprintln!("list: {path}: {e}");
        exit(1)
    });
    let mut rest = &bytes[..];
    while !rest.is_empty() {
        let read = Record::read(rest).and_then(|(record, behind)| {
            let function = Function::of_number(record.number);
            let text = function.map(|function| call(&record, function)).or_else(|| slots(&record))?;
            Some((record.number, text, behind))
        });
        let Some((number, text, behind)) = read else {
            eprintln!("list: no record at byte {}", bytes.len() - rest.len());
            exit(1)
        };
        rest = behind;
        println!("{number} {text}");
    }
}
