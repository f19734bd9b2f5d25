//! The list of recorded answers. A record, little endian: fn u8, mlen u8, olen u8, refusal u8,
//! a u32, b u32, c u32, v0 u64, v1 u64, v2 u64, then mlen bytes of message and olen bytes of output.
//! A refused record has no values and no output. A key's size is in bits, as the Rust has it.
use crate::call::{Answer, Call, Good, MOST_ROOM};

const HEAD: usize = 40;

/// The numbers of what is recorded beside the functions of the C boundary: `Chain::validate_adkd` of one tag, and the tags whose
/// `adkd` is that of the timing parameters. The recorded sequences have 89 to 93.
pub const VALIDATE_ADKD: u8 = 100;
pub const TIMING_TAGS: u8 = 101;

pub struct Record {
    pub number: u8,
    pub message: Vec<u8>,
    pub args: [u32; 3],
    pub answer: Answer,
}

/// A record's bytes; message and output have at most 255.
pub fn write(
    out: &mut Vec<u8>,
    function: u8,
    message: &[u8],
    args: [u32; 3],
    answer: Result<[u64; 3], u8>,
    output: &[u8],
) {
    let [mlen, olen] = [message.len(), output.len()].map(|length| u8::try_from(length).unwrap());
    out.extend([function, mlen, olen, answer.err().unwrap_or(0)]);
    args.iter().for_each(|x| out.extend(x.to_le_bytes()));
    answer.unwrap_or_default().iter().for_each(|x| out.extend(x.to_le_bytes()));
    out.extend(message);
    out.extend(output);
}

impl Record {
    /// None where the call does not fit into a record.
    pub fn new(call: &Call, answer: Answer) -> Option<Record> {
        let [a, b, c] = call.args.map(|x| u32::try_from(x).ok());
        u8::try_from(call.message.len()).ok()?;
        Some(Record { number: call.function.number(), message: call.message.to_vec(), args: [a?, b?, c?], answer })
    }

    pub fn write(&self, out: &mut Vec<u8>) {
        let good = self.answer.unwrap_or_default();
        let answer = self.answer.map(|good| good.values).map_err(|number| number as u8);
        write(out, self.number, &self.message, self.args, answer, &good.output[..good.many]);
    }

    /// The first record of the bytes, and the bytes behind it.
    pub fn read(bytes: &[u8]) -> Option<(Record, &[u8])> {
        let head = bytes.get(..HEAD)?;
        let (mlen, olen) = (usize::from(head[1]), usize::from(head[2]));
        let message = bytes.get(HEAD..HEAD + mlen)?;
        let output = bytes.get(HEAD + mlen..HEAD + mlen + olen)?;
        if olen > MOST_ROOM {
            return None;
        }
        let args = [4, 8, 12].map(|i| u32::from_le_bytes(head[i..i + 4].try_into().unwrap()));
        let values = [16, 24, 32].map(|i| u64::from_le_bytes(head[i..i + 8].try_into().unwrap()));
        let good = Good { values, ..Good::default() }.with_output(output);
        let answer = if head[3] == 0 { Ok(good) } else { Err(head[3].into()) };
        let record = Record { number: head[0], message: message.to_vec(), args, answer };
        Some((record, &bytes[HEAD + mlen + olen..]))
    }
}
