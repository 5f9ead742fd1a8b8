//! One call with all that it is given: what the C service is called with, and the Rust by its side.

/// The kinds, named once: the type and the list of them all.
macro_rules! kinds {
    ($first:ident, $($kind:ident),+ $(,)?) => {
        #[derive(Clone, Copy, PartialEq, Eq, PartialOrd, Ord, Debug, Default)]
        pub enum Kind {
            #[default]
            $first,
            $($kind),+
        }

        impl Kind {
            pub const ALL: &'static [Kind] = &[Kind::$first, $(Kind::$kind),+];
        }
    };
}

kinds! {
    Basis,
    Reading,
    DigitsSingle,
    Digits,
    Encode,
    Decode,
    EncodeSlice,
    DecodeSlice,
    EncryptEncoded,
    EncryptEncodedSigned,
    EncryptMessage,
    EncryptMessageSigned,
    EncryptMessageBatch,
    PackEncoded,
    PackMessage,
    Phase,
    PhaseSigned,
    Message,
    MessageSigned,
    PhaseBatch,
    MessageBatch,
    PhasePacked,
    MessagePacked,
    PublicKey,
    PublicKeySigned,
    PublicEncoded,
    PublicMessage,
    Extract,
    Generate,
    GenerateSigned,
    Switch,
    SwitchBatch,
}

use Kind::*;

impl Kind {
    /// Base log and levels.
    pub fn has_basis(self) -> bool {
        matches!(self, Basis | Reading | DigitsSingle | Digits) || self.is_switching()
    }
    /// An output dimension m beside n.
    pub fn is_switching(self) -> bool {
        matches!(self, Generate | GenerateSigned | Switch | SwitchBatch)
    }
    pub fn is_codec(self) -> bool {
        matches!(self, Encode | Decode | EncodeSlice | DecodeSlice)
    }
    pub fn has_dimension(self) -> bool {
        self.is_switching() || !(self.has_basis() || self.is_codec())
    }
    /// The input is messages, not words.
    pub fn takes_messages(self) -> bool {
        matches!(
            self,
            Encode
                | EncodeSlice
                | EncryptMessage
                | EncryptMessageSigned
                | EncryptMessageBatch
                | PackMessage
                | PublicMessage
        )
    }
    /// A plaintext modulus t.
    pub fn has_t(self) -> bool {
        self.takes_messages()
            || matches!(
                self,
                Decode | DecodeSlice | Message | MessageSigned | MessageBatch | MessagePacked
            )
    }
    /// An error bound E, and lent errors within it.
    pub fn has_bound(self) -> bool {
        self.has_dimension() && !self.opens() && !matches!(self, Extract | Switch | SwitchBatch)
    }
    /// The tags of the ciphertexts that it reads, whose c it keeps.
    pub fn takes_tags(self) -> bool {
        matches!(self, Extract | Switch | SwitchBatch)
    }
    /// The secret is signed numbers.
    pub fn is_signed(self) -> bool {
        matches!(
            self,
            EncryptEncodedSigned
                | EncryptMessageSigned
                | PhaseSigned
                | MessageSigned
                | PublicKeySigned
                | GenerateSigned
        )
    }
    /// A public key or a switching key.
    pub fn has_key(self) -> bool {
        matches!(self, PublicEncoded | PublicMessage | Switch | SwitchBatch)
    }
    pub fn has_secret(self) -> bool {
        (self.has_bound() || self.opens()) && !self.has_key()
    }
    /// Phases and messages of ciphertexts.
    pub fn opens(self) -> bool {
        matches!(
            self,
            Phase
                | PhaseSigned
                | Message
                | MessageSigned
                | PhaseBatch
                | MessageBatch
                | PhasePacked
                | MessagePacked
        )
    }
    /// The input is one number.
    pub fn takes_one_number(self) -> bool {
        matches!(
            self,
            Reading
                | DigitsSingle
                | Encode
                | Decode
                | EncryptEncoded
                | EncryptEncodedSigned
                | EncryptMessage
                | EncryptMessageSigned
                | PublicEncoded
                | PublicMessage
        )
    }
    /// The input is a run.
    pub fn takes_a_run(self) -> bool {
        !self.takes_one_number()
            && !matches!(
                self,
                Basis | PublicKey | PublicKeySigned | Generate | GenerateSigned
            )
    }
    /// The answer is a number, so there is no output to have a length.
    pub fn answers_a_number(self) -> bool {
        matches!(
            self,
            Encode | Decode | Phase | PhaseSigned | Message | MessageSigned
        )
    }
}

#[derive(Clone, Debug, Default)]
pub struct Call {
    pub kind: Kind,
    /// 0 stands for 2^32.
    pub modulus: u32,
    pub base_log: u32,
    /// 0 is left open.
    pub levels: u32,
    pub n: usize,
    pub m: usize,
    pub t: u32,
    pub bound: u32,
    /// 0 is Unsigned, any other number Centered.
    pub centered: u32,
    /// Words, or signed numbers in two's complement.
    pub secret: Vec<u32>,
    pub output_key: Vec<u32>,
    /// A public key or a switching key.
    pub key: Vec<u32>,
    pub masks: Vec<u32>,
    /// The errors are words: the library's calls whose names end in `_error_words`.
    pub error_words: bool,
    /// Signed numbers, or words in two's complement.
    pub errors: Vec<i32>,
    pub coefficients: Vec<i32>,
    /// Words, messages or ciphertexts; a call of one number has it alone.
    pub input: Vec<u32>,
    /// The tally and c of each ciphertext that is switched, or that a sample is taken of: for the library alone, as the Rust has neither.
    pub tags: Vec<(u64, u32)>,
    /// The body that a sample is taken of.
    pub index: usize,
    pub out_len: usize,
}

impl Call {
    pub fn q(&self) -> u64 {
        match self.modulus {
            0 => 1 << 32,
            q => q as u64,
        }
    }
    pub fn explicit(&self) -> Option<u32> {
        (self.modulus != 0).then_some(self.modulus)
    }
    /// k of document 01.
    pub fn value_bits(&self) -> u32 {
        let q = self.q();
        if q.is_power_of_two() {
            q.trailing_zeros()
        } else {
            64 - q.leading_zeros()
        }
    }
    /// As many levels as fit; 0 where there is no base.
    pub fn full_levels(&self) -> u32 {
        self.value_bits().checked_div(self.base_log).unwrap_or(0)
    }
    /// L of document 01.
    pub fn level_count(&self) -> usize {
        match self.levels {
            0 => self.full_levels() as usize,
            given => given as usize,
        }
    }
    pub fn numbers(&self) -> Vec<i32> {
        self.secret.iter().map(|&w| w as i32).collect()
    }
    /// The errors as they are lent: signed numbers, or words.
    pub fn lent_errors(&self) -> Vec<i64> {
        let lent = |&e: &i32| {
            if self.error_words {
                e as u32 as i64
            } else {
                e as i64
            }
        };
        self.errors.iter().map(lent).collect()
    }
    /// What they count as: "a word w counts as w when w ≤ q/2, otherwise as w − q".
    pub fn signed_errors(&self) -> Vec<i64> {
        let q = self.q() as i64;
        let lent = self.lent_errors().into_iter();
        lent.map(|e| {
            if self.error_words && 2 * e > q {
                e - q
            } else {
                e
            }
        })
        .collect()
    }
    /// The one number of a call that takes one.
    pub fn value(&self) -> u32 {
        self.input[0]
    }
    /// How large the call is: for the smallest of its sort.
    pub fn size(&self) -> u128 {
        let runs = [
            &self.secret,
            &self.output_key,
            &self.key,
            &self.masks,
            &self.input,
        ];
        let words = runs
            .iter()
            .flat_map(|run| run.iter())
            .map(|&w| w as u128 + 4);
        let coefficients = self.coefficients.iter().map(|&c| c as i64);
        let lent = self.lent_errors().into_iter().chain(coefficients);
        let lent = lent.map(|e| e.unsigned_abs() as u128 + 4);
        let numbers = [self.base_log, self.levels, self.t, self.bound];
        let numbers = numbers.iter().map(|&x| x as u128);
        let sizes = [self.n, self.m, self.index, self.out_len];
        let sizes = sizes.iter().map(|&x| x as u128);
        let tags = self.tags.iter();
        let tags = tags.map(|&(tally, c)| tally.wrapping_add(1) as u128 + c as u128);
        let q = self.q() as u128;
        // A call about nothing is no example.
        let empty = 1000 * (self.kind.takes_a_run() && self.input.is_empty()) as u128;
        empty + q + words.chain(lent).chain(numbers).chain(sizes).chain(tags).sum::<u128>()
    }
}

impl std::fmt::Display for Call {
    /// What the call takes, and nothing else.
    fn fmt(&self, f: &mut std::fmt::Formatter<'_>) -> std::fmt::Result {
        write!(f, "{:?} q {}", self.kind, self.modulus)?;
        let kind = self.kind;
        let numbers = [
            ("base log", kind.has_basis(), self.base_log as usize),
            ("levels", kind.has_basis(), self.levels as usize),
            ("n", kind.has_dimension(), self.n),
            ("m", kind.is_switching(), self.m),
            ("t", kind.has_t(), self.t as usize),
            ("centered", kind.takes_messages(), self.centered as usize),
            ("E", kind.has_bound(), self.bound as usize),
            ("index", kind == Extract, self.index),
        ];
        for (name, _, number) in numbers.iter().filter(|row| row.1) {
            write!(f, " {name} {number}")?;
        }
        if kind.is_signed() {
            run(f, "secret", &self.numbers())?;
        } else {
            run(f, "secret", &self.secret)?;
        }
        run(f, "output key", &self.output_key)?;
        run(f, "key", &self.key)?;
        run(f, "masks", &self.masks)?;
        let errors = ["errors", "error words"][self.error_words as usize];
        run(f, errors, &self.lent_errors())?;
        run(f, "coefficients", &self.coefficients)?;
        run(f, "input", &self.input)?;
        run(f, "tags", &self.tags)?;
        if kind.answers_a_number() {
            return Ok(());
        }
        write!(f, " output of {}", self.out_len)
    }
}

/// A run of many equal numbers as [number; length].
fn run<T: std::fmt::Debug + PartialEq>(
    f: &mut std::fmt::Formatter<'_>,
    name: &str,
    words: &[T],
) -> std::fmt::Result {
    match words {
        [] => Ok(()),
        [first, ..] if words.len() > 4 && words.iter().all(|w| w == first) => {
            write!(f, " {name} [{first:?}; {}]", words.len())
        }
        _ => write!(f, " {name} {words:?}"),
    }
}

/// What a side did with a call.
#[derive(Clone, PartialEq, Eq, Debug)]
pub enum Said {
    Words(Vec<u32>),
    /// A number of document 01; the Rust's errors stand for the nearest.
    Refused(u32),
    Panicked,
    /// Lent numbers were left over.
    LeftOver,
    /// Refused, but the output was written.
    Spoiled(u32),
}
