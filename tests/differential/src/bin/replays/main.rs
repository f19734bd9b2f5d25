//! replays FILES SEED COMMAND..: the replay program, run by COMMAND with its three arguments, against the documents' page
//! rules over the published Rust: the same arguments and files, the same output, byte for byte. Ends with status 1 at the
//! first difference, with the smallest file that shows it.
use differential::inputs::Random;
use model::{PAGE, output};
use std::io::Write;
use std::process::{Command, Stdio, exit};

mod model;
mod source;

/// What the program writes. The input comes through a pipe, in two pieces.
fn written(command: &[String], arguments: &[String], input: &[u8]) -> String {
    let mut child = Command::new(&command[0])
        .args(&command[1..])
        .args(arguments)
        .stdin(Stdio::piped())
        .stdout(Stdio::piped())
        .spawn()
        .unwrap_or_else(|e| fail(&format!("{command:?}: {e}")));
    let mut pipe = child.stdin.take().unwrap();
    // a program that refuses its arguments need not read
    let (first, second) = input.split_at(input.len() * 3 / 7);
    let _ = pipe.write_all(first).and_then(|()| pipe.write_all(second));
    drop(pipe);
    let out = child.wait_with_output().unwrap_or_else(|e| fail(&format!("{command:?}: {e}")));
    String::from_utf8_lossy(&out.stdout).into_owned()
}

fn fail(why: &str) -> ! {
    eprintln!("replays: {why}");
    exit(2)
}

/// The input with pages left out and pages of zeros, as small as still differs.
fn smallest(command: &[String], arguments: &[String], mut input: Vec<u8>) -> Vec<u8> {
    let differs = |input: &[u8]| written(command, arguments, input) != output(arguments, input);
    let mut piece = input.len().div_ceil(PAGE);
    while piece > 0 {
        let mut from = 0;
        while from < input.len() {
            let mut fewer = input.clone();
            fewer.drain(from..(from + PAGE * piece).min(input.len()));
            if differs(&fewer) {
                input = fewer;
            } else {
                from += PAGE * piece;
            }
        }
        piece /= 2;
    }
    for place in 0..input.len() {
        let byte = std::mem::take(&mut input[place]);
        if byte != 0 && !differs(&input) {
            input[place] = byte;
        }
    }
    input
}

fn main() {
    let words: Vec<String> = std::env::args().skip(1).collect();
    let [files, seed, command @ ..] = &words[..] else { fail("usage: replays FILES SEED COMMAND..") };
    let (Ok(files), Ok(seed)) = (files.parse::<u64>(), seed.parse()) else {
        fail("usage: replays FILES SEED COMMAND..")
    };
    if command.is_empty() {
        fail("usage: replays FILES SEED COMMAND..")
    }
    let mut random = Random::new(seed);
    let (mut pages, mut subframes, mut silent, mut dsms, mut refused) = (0, 0, 0, 0, 0);
    for _ in 0..files {
        let (arguments, input) = (source::arguments(&mut random), source::file(&mut random));
        let expected = output(&arguments, &input);
        if written(command, &arguments, &input) != expected {
            let input = smallest(command, &arguments, input);
            let hex: Vec<String> = input.iter().map(|byte| format!("{byte:02x}")).collect();
            println!("DIFFERENCE arguments {arguments:?}, input of {} bytes: {}", input.len(), hex.concat());
            println!("the program writes:\n{}", written(command, &arguments, &input));
            println!("the Rust:\n{}", output(&arguments, &input));
            exit(1)
        }
        pages += input.len() / PAGE;
        subframes += expected.lines().filter(|line| line.starts_with('S')).count();
        silent += expected.split(' ').skip_while(|word| *word != "silent").nth(1).map_or(0, |n| n.parse().unwrap());
        dsms += expected.lines().filter(|line| line.starts_with('D')).count();
        refused += usize::from(expected.starts_with("refused"));
    }
    println!(
        "seed {seed}, {files} files, {refused} of them refused, {pages} pages, {subframes} subframes, \
         {silent} silent ones, {dsms} DSMs"
    );
    println!("compared with the Rust: {files} files, 0 differences");
    if subframes == 0 || silent == 0 || dsms == 0 || refused == 0 {
        println!("replays: too few files for every kind of line to come up");
        exit(1)
    }
}
