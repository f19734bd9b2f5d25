//! Generated files: subframes that carry DSMs and silent ones, with alert pages, garbage, losses and repeats among them.
use crate::model::PAGE;
use differential::inputs::Random;

/// A page that counts, with these OSNMA bytes at bits 138..177.
fn page(random: &mut Random, osnma: [u8; 5]) -> Vec<u8> {
    let mut page = random.bytes(PAGE);
    let mut put = |n: usize, bit: u8| page[n / 8] = page[n / 8] & !(0x80 >> (n % 8)) | bit << (7 - n % 8);
    [(0, 0), (1, 0), (120, 1), (121, 0)].into_iter().for_each(|(n, bit)| put(n, bit));
    for n in 0..40 {
        put(138 + n, osnma[n / 8] >> (7 - n % 8) & 1);
    }
    page
}

/// A page that does not count: one or more of the four bits differ.
fn skipped(random: &mut Random) -> Vec<u8> {
    let mut page = page(random, [0; 5]);
    let n = random.pick(&[0, 1, 120, 121]);
    page[n / 8] ^= 0x80 >> (n % 8);
    page
}

/// The 15 HKROOT bytes of each block of a DSM: NMA header, DSM header, block.
fn hkroots(random: &mut Random) -> Vec<Vec<u8>> {
    let id = random.pick(&[0, 5, 11, 12, 15]);
    let pkr = id >= 12;
    let legal = if pkr { 7 + random.below(4) } else { 1 + random.below(8) } as u8;
    let count = if random.below(8) == 0 { random.below(16) as u8 } else { legal };
    let many = if random.below(4) == 0 { 16 } else { count + 6 };
    (0..many.min(16))
        .map(|n| {
            let mut hkroot = random.bytes(15);
            hkroot[1] = id << 4 | n;
            if n == 0 {
                hkroot[2] = count << 4 | hkroot[2] & 15;
            }
            hkroot
        })
        .collect()
}

/// The fields of a subframe with that HKROOT, its MACK arbitrary.
fn fields(random: &mut Random, hkroot: &[u8]) -> [[u8; 5]; 15] {
    std::array::from_fn(|word| std::array::from_fn(|k| if k == 0 { hkroot[word] } else { random.number() as u8 }))
}

/// The fields of a silent subframe, but for one byte in every third.
fn quiet(random: &mut Random) -> [[u8; 5]; 15] {
    let mut fields = [[0; 5]; 15];
    if random.below(3) == 0 {
        fields[random.below(15) as usize][random.below(5) as usize] = 1 << random.below(8);
    }
    fields
}

fn subframe(random: &mut Random, fields: [[u8; 5]; 15], trouble: u64, file: &mut Vec<u8>) {
    for field in fields {
        let good = page(random, field);
        if random.below(1000) >= trouble {
            file.extend(good);
            continue;
        }
        match random.below(4) {
            0 => file.extend(skipped(random)),
            1 => file.extend(random.bytes(PAGE)),
            2 => file.extend([&good[..], &good[..]].concat()),
            // the page is lost, and all that follow come too early
            _ => {}
        }
    }
}

pub fn file(random: &mut Random) -> Vec<u8> {
    let mut file = Vec::new();
    let trouble = random.pick(&[0, 0, 1, 5, 50, 500]);
    // pages before the first whole subframe
    for _ in 0..random.pick(&[0, 0, 0, 0, 15, 1, 7, 14]) {
        file.extend(skipped(random));
    }
    for _ in 0..random.pick(&[0, 1, 1, 2, 3]) {
        let mut blocks = hkroots(random);
        if random.below(3) == 0 {
            blocks.reverse();
        }
        let quiet_ones = random.pick(&[0, 0, 2, 8]);
        for hkroot in &blocks {
            for _ in 0..random.pick(&[1, 1, 1, 1, 1, 1, 1, 1, 1, 1, 1, 2]) {
                let fields = fields(random, hkroot);
                subframe(random, fields, trouble, &mut file);
            }
            while random.below(16) < quiet_ones {
                let fields = quiet(random);
                subframe(random, fields, trouble, &mut file);
            }
        }
    }
    let tail = random.pick(&[0, 0, 0, 1, 15, 29]);
    file.extend(random.bytes(tail));
    file
}

/// Arguments: mostly good ones, at the edges of the week and of a subframe.
pub fn arguments(random: &mut Random) -> Vec<String> {
    let satellite = 1 + random.below(36);
    let week = random.pick(&[0, 1200, 4094, 4095]);
    let whole = 30 * random.below(20_160);
    let time = random.pick(&[whole, whole, whole, whole + 1, 0, 1, 2, 28, 604_440, 604_770, 604_771, 604_798, 604_799]);
    let mut words = vec![satellite.to_string(), week.to_string(), time.to_string()];
    let n = random.below(3) as usize;
    match random.below(48) {
        0 => words[n] = format!("{}{}", "0".repeat(1 + random.below(40) as usize), words[n]),
        1 => words[0] = random.pick(&["0", "37", "256", "257", "18446744073709551617", "00"]).to_string(),
        2 => words[1] = random.pick(&["4096", "65536", "66736", "340282366920938463463374607431768211456"]).to_string(),
        3 => words[2] = random.pick(&["604800", "4294967296", "4294967356", "99999999999999999999"]).to_string(),
        4 => words[n] = random.pick(&["", "+1", "-1", " 1", "1 ", "1.0", "0x1", "one", "1\u{663}"]).to_string(),
        5 => drop(words.remove(n)),
        6 => words.insert(n, "1".to_string()),
        7 => (words[0], words[1], words[2]) = ("0".to_string(), "5000".to_string(), "-".to_string()),
        8 => (words[0], words[1], words[2]) = ("99".to_string(), "5000".to_string(), "700000".to_string()),
        9 => words.clear(),
        _ => {}
    }
    words
}
