//! The functions of the C boundary by number, a call of one, and what a call gives.
use std::fmt;

/// What a function is given, besides places for its results.
#[derive(Clone, Copy, PartialEq, Eq, Debug)]
pub enum Takes {
    Header,
    Message,
    Node,
    Sizes,
    Mack,
    MackTag,
    MackKey,
    Entry,
    Flx,
    Id,
    Bits,
}

impl Takes {
    /// Its numbers, in order.
    pub fn numbers(self) -> &'static [&'static str] {
        match self {
            Takes::Header => &["header"],
            Takes::Message => &[],
            Takes::Node => &["node"],
            Takes::Sizes | Takes::Mack | Takes::MackKey => &["key_size_bytes", "tag_size_bits"],
            Takes::MackTag => &["key_size_bytes", "tag_size_bits", "tag"],
            Takes::Entry => &["id", "message", "tag"],
            Takes::Flx => &["id", "message"],
            Takes::Id => &["id"],
            Takes::Bits => &["start", "width"],
        }
    }

    pub fn has_message(self) -> bool {
        !matches!(self, Takes::Header | Takes::Sizes | Takes::Entry | Takes::Flx | Takes::Id)
    }

    pub fn has_output(self) -> bool {
        matches!(self, Takes::MackKey | Takes::Flx)
    }
}

macro_rules! functions {
    ($($number:literal $name:ident: $takes:ident -> $results:literal;)*) => {
        /// A function, named as in C without `osnma_`; its number is the one in the recorded answers.
        #[allow(non_camel_case_types)]
        #[derive(Clone, Copy, PartialEq, Eq, Debug)]
        pub enum Function { $($name = $number),* }

        impl Function {
            pub const ALL: &'static [Function] = &[$(Function::$name),*];

            pub fn name(self) -> &'static str {
                match self { $(Function::$name => stringify!($name)),* }
            }

            pub fn takes(self) -> Takes {
                match self { $(Function::$name => Takes::$takes),* }
            }

            /// How many numbers it gives.
            pub fn results(self) -> usize {
                match self { $(Function::$name => $results),* }
            }
        }
    };
}

functions! {
    1 nma_status: Header -> 1;
    2 chain_id: Header -> 1;
    3 chain_and_pubkey_status: Header -> 1;
    4 dsm_id: Header -> 1;
    5 dsm_block_id: Header -> 1;
    6 dsm_type: Header -> 1;
    10 kroot_number_of_blocks: Message -> 1;
    11 kroot_public_key_id: Message -> 1;
    12 kroot_chain_id: Message -> 1;
    13 kroot_hash_function: Message -> 1;
    14 kroot_mac_function: Message -> 1;
    15 kroot_key_size_bytes: Message -> 1;
    16 kroot_tag_size: Message -> 1;
    17 kroot_mac_lookup_table: Message -> 1;
    18 kroot_wn: Message -> 1;
    19 kroot_towh: Message -> 1;
    20 kroot_alpha: Message -> 1;
    21 kroot_ecdsa_function: Message -> 1;
    22 kroot_kroot: Message -> 2;
    23 kroot_digital_signature: Message -> 2;
    24 kroot_padding: Message -> 2;
    30 pkr_number_of_blocks: Message -> 1;
    31 pkr_message_id: Message -> 1;
    32 pkr_new_public_key_type: Message -> 1;
    33 pkr_new_public_key_id: Message -> 1;
    34 pkr_key_size: Message -> 1;
    35 pkr_intermediate_tree_node: Node -> 2;
    36 pkr_new_public_key: Message -> 2;
    37 pkr_padding: Message -> 2;
    38 pkr_merkle_tree_leaf: Message -> 2;
    50 mack_num_tags: Sizes -> 1;
    51 mack_tag0: Mack -> 1;
    52 mack_macseq: Mack -> 1;
    53 mack_cop: Mack -> 1;
    54 mack_tag: MackTag -> 1;
    55 mack_tag_info: MackTag -> 1;
    56 mack_prnd: MackTag -> 1;
    57 mack_adkd: MackTag -> 1;
    58 mack_tag_cop: MackTag -> 1;
    59 mack_key: MackKey -> 0;
    70 get_maclt_entry: Entry -> 3;
    71 get_flx_indices: Flx -> 1;
    72 maclt_nt: Id -> 1;
    80 read_bits: Bits -> 1;
}

impl Function {
    pub fn number(self) -> u8 {
        self as u8
    }

    pub fn of_number(number: u8) -> Option<Function> {
        Function::ALL.iter().copied().find(|f| f.number() == number)
    }

    /// The functions whose names start so.
    pub fn of(prefix: &str) -> impl Iterator<Item = Function> {
        Function::ALL.iter().copied().filter(move |f| f.name().starts_with(prefix))
    }
}

/// The most bytes that a call lends for output.
pub const MOST_ROOM: usize = 64;

/// A call: the numbers in the order of the C function, 0 where it takes fewer.
#[derive(Clone, Copy, Debug)]
pub struct Call<'m> {
    pub function: Function,
    pub message: &'m [u8],
    pub args: [u64; 3],
    /// How many bytes are lent for output, at most `MOST_ROOM`.
    pub room: usize,
}

impl<'m> Call<'m> {
    /// A call with the room that it asks for.
    pub fn new(function: Function, message: &'m [u8], args: [u64; 3]) -> Call<'m> {
        let room = Call::right_room(function, args);
        Call { function, message, args, room }
    }

    pub fn right_room(function: Function, args: [u64; 3]) -> usize {
        match function.takes() {
            Takes::MackKey => args[0].min(32) as usize,
            Takes::Flx => 4,
            _ => 0,
        }
    }
}

impl fmt::Display for Call<'_> {
    fn fmt(&self, f: &mut fmt::Formatter<'_>) -> fmt::Result {
        let takes = self.function.takes();
        write!(f, "osnma_{}", self.function.name())?;
        for (name, number) in takes.numbers().iter().zip(self.args) {
            write!(f, " {name}={number}")?;
        }
        if takes.has_output() {
            write!(f, " out_len={}", self.room)?;
        }
        if takes.has_message() {
            write!(f, " len={} msg={}", self.message.len(), hex(self.message))?;
        }
        Ok(())
    }
}

/// A good answer: numbers, 0 where there are fewer, and the first `many` bytes of an output.
#[derive(Clone, Copy, PartialEq, Eq, Debug)]
pub struct Good {
    pub values: [u64; 3],
    pub output: [u8; MOST_ROOM],
    pub many: usize,
}

impl Default for Good {
    fn default() -> Good {
        Good { values: [0; 3], output: [0; MOST_ROOM], many: 0 }
    }
}

impl Good {
    pub fn value(value: u64) -> Good {
        Good { values: [value, 0, 0], ..Good::default() }
    }

    pub fn part(first: u64, many: u64) -> Good {
        Good { values: [first, many, 0], ..Good::default() }
    }

    pub fn with_output(mut self, bytes: &[u8]) -> Good {
        self.output[..bytes.len()].copy_from_slice(bytes);
        self.many = bytes.len();
        self
    }
}

/// A good answer or the number of the refusal.
pub type Answer = Result<Good, u32>;

/// An answer in words, `results` numbers of it.
pub fn show(answer: Answer, results: usize) -> String {
    match answer {
        Err(number) => format!("refused {number}"),
        Ok(Good { values, output, many }) => {
            let mut words: Vec<String> = values[..results].iter().map(u64::to_string).collect();
            if many > 0 {
                words.push(hex(&output[..many]));
            }
            words.join(" ")
        }
    }
}

fn hex(bytes: &[u8]) -> String {
    bytes.iter().map(|byte| format!("{byte:02x}")).collect()
}
