//! The recorder's walk over the tags of a MACK message.
use crate::readers::bits_of;
use crate::recorder::{self, Sizes};
use crate::{Random, Work};
use oracle::bitfields::{Adkd, DsmKroot, Mack};
use oracle::tesla::Chain;
use oracle::{Gst, Svn};

const MESSAGES: usize = 36_000;

/// Of a key of 16 bytes and tags of 40 bits, as table 27 has them: 6 tags.
const SIZES: Sizes = Sizes { key: 16, tag: 40 };
const MACLT: u8 = 27;

/// ADKD of tags 1 to 5, and whether PRND is the sender's, in message 0 and in message 1.
const SLOTS: [[(u8, bool); 5]; 2] = [
    [(0, false), (0, false), (0, false), (12, true), (0, false)],
    [(0, false), (0, false), (4, true), (12, true), (0, false)],
];

struct Message {
    mack: [u8; 60],
    sender: u8,
    msg: usize,
}

/// Messages of 36 satellites in turn, of both numbers, all of whose tags fit. At 04S, the third tag of message 1, the Rust asks for
/// the sender's number in PRND and the port for 255: `timing` says which.
fn messages(timing: Option<u8>) -> Vec<Message> {
    let mut random = Random::new(5);
    (0..MESSAGES)
        .map(|k| {
            let (mut mack, sender, msg) = ([0; 60], (k % 36) as u8 + 1, k / 36 % 2);
            random.fill(&mut mack);
            for (place, (adkd, own)) in SLOTS[msg].into_iter().enumerate() {
                // tag n has 7 bytes, the last two of them PRND, ADKD and COP
                let info = &mut mack[7 * (place + 1) + 5..][..2];
                let other = 1 + info[0] % 36;
                let own = if adkd == 4 {
                    timing.unwrap_or(sender)
                } else if own {
                    sender
                } else {
                    other
                };
                info.copy_from_slice(&[own, adkd << 4 | info[1] & 15]);
            }
            Message { mack, sender, msg }
        })
        .collect()
}

// Each side adds 1 for a message that fits, how many tags hold ADKD 4, and the first of them.

fn rust(chain: &Chain, messages: &[Message]) -> u64 {
    let mut sum = 0;
    for Message { mack, sender, msg } in messages {
        let mack = Mack::new(mack, bits_of(SIZES.key as u64) as usize, SIZES.tag);
        let (svn, gst) = (Svn::try_from(*sender).unwrap(), Gst::new(1200, 30 * *msg as u32));
        let fits = (1..mack.num_tags()).all(|n| chain.validate_adkd(n, mack.tag_and_info(n), svn, gst).is_ok());
        let (mut tags, mut count) = ([0u8; 9], 0);
        for n in (1..mack.num_tags()).filter(|n| mack.tag_and_info(*n).adkd() == Adkd::InavTiming) {
            tags[count] = n as u8;
            count += 1;
        }
        sum += u64::from(fits) + count as u64 + u64::from(tags[0]);
    }
    sum
}

fn port(messages: &[Message]) -> u64 {
    let mut sum = 0;
    for Message { mack, sender, msg } in messages {
        let told = recorder::walk(mack, SIZES, *sender, MACLT, *msg);
        let fits = told.slots.kind == 1 && told.slots.first == 0;
        sum += u64::from(fits) + told.timing.first + u64::from(told.tags[0]);
    }
    sum
}

pub fn run() {
    // the front of a KROOT: key size 4, tag size 9, the table's ID
    let kroot = [0x10, 0, 0x49, MACLT, 0, 0, 0, 0, 0, 0, 0, 0, 0];
    let chain = Chain::from_dsm_kroot(DsmKroot(&kroot)).unwrap();
    let (theirs, ours) = (messages(None), messages(Some(255)));
    let (chain, theirs, ours) = (&chain, &theirs[..], &ours[..]);
    Work {
        name: "MACK messages walked",
        units: MESSAGES,
        sides: vec![
            ("Rust, `Chain::validate_adkd` and `adkd` for each tag", Box::new(move || rust(chain, theirs))),
            ("`walk`, a call across C for each", Box::new(move || port(ours))),
        ],
    }
    .print();
}
