//! The calls of `libnitrasovy.a` and their structs, behind safe functions: the only place with
//! `unsafe`. The comparison in `differential/` has this file as a module of its own.
//!
//! `include/nitrasovy.h` has them for C; a test compares the two. A word of the library is
//! `uint64_t`. Who has this file says what `Word` stands for it in lists: `usize` or `u64`, which are
//! equally wide here; so lists of either are lent as they are.

#![allow(unsafe_code)]

use super::Word;

const _: () = assert!(size_of::<Word>() == 8 && size_of::<usize>() == 8);

#[repr(C)]
#[derive(Clone, Copy, Debug, Default, Eq, PartialEq)]
pub struct Latch {
    pub current: Word,
    pub next: Word,
}

/// A transition model by value. The gates' words are lent beside it, three a gate.
#[repr(C)]
#[derive(Clone, Copy, Eq, PartialEq)]
pub struct Transition {
    pub max_variable: usize,
    pub input_count: usize,
    pub inputs: [Word; 64],
    pub latch_count: usize,
    pub latches: [Latch; 8],
    pub output_count: usize,
    pub outputs: [Word; 128],
    pub and_count: usize,
}

/// A gate: its literal, and those of its operands.
#[repr(C)]
#[derive(Clone, Debug, Eq, PartialEq)]
pub struct AigerAnd {
    pub output: usize,
    pub left: usize,
    pub right: usize,
}

/// A place in a text, in bytes.
#[repr(C)]
#[derive(Clone, Copy, Debug, Default, Eq, PartialEq)]
pub struct Cursor {
    pub at: usize,
}

// The answers: reason 0 and the values, or the number of the reason and zeros.

#[repr(C)]
#[derive(Clone, Copy, Eq, PartialEq)]
pub struct Read {
    pub reason: u64,
    pub model: Transition,
}

/// Target, high and low half of the outputs.
#[repr(C)]
#[derive(Clone, Copy, Debug, Eq, PartialEq)]
pub struct Stepped {
    pub reason: u64,
    pub target: u64,
    pub high: u64,
    pub low: u64,
}

/// How many clauses and how many literals.
#[repr(C)]
#[derive(Clone, Copy, Debug, Eq, PartialEq)]
pub struct Made {
    pub reason: u64,
    pub clauses: Word,
    pub literals: Word,
}

/// How many there are of each in a witness, or in the model of a composition.
#[repr(C)]
#[derive(Clone, Copy, Debug, Default, Eq, PartialEq)]
pub struct Witness {
    pub reason: u64,
    pub max_variable: Word,
    pub inputs: Word,
    pub latches: Word,
    pub outputs: Word,
    pub gates: Word,
    pub bads: Word,
    pub constraints: Word,
}

/// The length of the text.
#[repr(C)]
#[derive(Clone, Copy, Debug, Eq, PartialEq)]
pub struct Composed {
    pub reason: u64,
    pub bytes: usize,
}

#[repr(C)]
#[derive(Clone, Copy, Debug, Eq, PartialEq)]
pub struct Taken {
    pub reason: u64,
    pub value: u64,
}

/// How many words a model's record is: all its fields and elements are words.
pub const RECORD_WORDS: usize = size_of::<Transition>() / size_of::<Word>();

impl Transition {
    pub const ZERO: Self = Self {
        max_variable: 0,
        input_count: 0,
        inputs: [0; _],
        latch_count: 0,
        latches: [Latch {
            current: 0,
            next: 0,
        }; _],
        output_count: 0,
        outputs: [0; _],
        and_count: 0,
    };

    /// The words of the record's memory.
    pub fn words(&self) -> &[Word; RECORD_WORDS] {
        // SAFETY: all fields and elements are words of 64 bits, so that there is no gap between
        // them; the array lives as long as the record.
        unsafe { &*std::ptr::from_ref(self).cast() }
    }
}

/// Makes of each signature a declaration, in which a slice is a pointer and a length in elements,
/// and a safe function that calls it.
macro_rules! calls {
    ($(fn $name:ident($($arguments:tt)*) -> $answer:ty;)*) => {
        $(call! { $name $answer; [] [] []; $($arguments)* })*
    };
}

macro_rules! call {
    ($name:ident $answer:ty; [$($safe:tt)*] [$($raw:tt)*] [$($lent:tt)*];
     $argument:ident: &[$element:ty], $($rest:tt)*) => {
        call! { $name $answer; [$($safe)* $argument: &[$element],]
            [$($raw)* _: *const $element, _: usize,]
            [$($lent)* $argument.as_ptr(), $argument.len(),]; $($rest)* }
    };
    ($name:ident $answer:ty; [$($safe:tt)*] [$($raw:tt)*] [$($lent:tt)*];
     $argument:ident: &mut [$element:ty], $($rest:tt)*) => {
        call! { $name $answer; [$($safe)* $argument: &mut [$element],]
            [$($raw)* _: *mut $element, _: usize,]
            [$($lent)* $argument.as_mut_ptr(), $argument.len(),]; $($rest)* }
    };
    ($name:ident $answer:ty; [$($safe:tt)*] [$($raw:tt)*] [$($lent:tt)*];
     $argument:ident: &mut $value:ident, $($rest:tt)*) => {
        call! { $name $answer; [$($safe)* $argument: &mut $value,]
            [$($raw)* _: *mut $value,] [$($lent)* $argument,]; $($rest)* }
    };
    ($name:ident $answer:ty; [$($safe:tt)*] [$($raw:tt)*] [$($lent:tt)*];
     $argument:ident: $value:ident, $($rest:tt)*) => {
        call! { $name $answer; [$($safe)* $argument: $value,]
            [$($raw)* _: $value,] [$($lent)* $argument,]; $($rest)* }
    };
    ($name:ident $answer:ty; [$($safe:tt)*] [$($raw:tt)*] [$($lent:tt)*];) => {
        // Every call of the header is declared; of the two steps, one is used.
        #[allow(dead_code, clippy::too_many_arguments)]
        pub fn $name($($safe)*) -> $answer {
            unsafe extern "C" {
                fn $name($($raw)*) -> $answer;
            }
            // SAFETY: each pointer and length are those of one slice, which lives through the call
            // and has no null pointer; a slice that is written overlaps no other, since it was lent
            // as `&mut`. The library asks nothing else of its arguments.
            unsafe { $name($($lent)*) }
        }
    };
}

calls! {
    fn nit_read_transition(
        text: &[u8],
        gates: &mut [Word],
        work: &mut [Word],
    ) -> Read;
    fn nit_step(
        model: &[Word],
        gates: &[Word],
        work: &mut [Word],
        state: u64,
        input: u64,
    ) -> Stepped;
    fn nit_step_records(
        model: &[Word],
        gates: &[AigerAnd],
        work: &mut [Word],
        state: u64,
        input: u64,
    ) -> Stepped;
    fn nit_relation_row(
        model: &[Word],
        gates: &[Word],
        relevant: &[Word],
        source: u64,
        predicate_pairs: &[Word],
        predicate_literals: &[u32],
        targets: &[Word],
        work: &mut [Word],
        pairs: &mut [Word],
        literals: &mut [u32],
    ) -> Made;
    fn nit_transducer_row(
        model: &[Word],
        gates: &[Word],
        relevant: &[Word],
        source: u64,
        predicate_pairs: &[Word],
        predicate_literals: &[u32],
        observed: &[Word],
        outcomes: &[u64],
        work: &mut [Word],
        pairs: &mut [Word],
        literals: &mut [u32],
    ) -> Made;
    fn nit_terminal(
        model: &[Word],
        gates: &[Word],
        relevant: &[Word],
        predicate_pairs: &[Word],
        predicate_literals: &[u32],
        bad_output: u64,
        states: &[Word],
        work: &mut [Word],
        pairs: &mut [Word],
        literals: &mut [u32],
    ) -> Made;
    fn nit_read_witness(text: &[u8], witness: bool,) -> Witness;
    fn nit_compose(
        model: &[u8],
        witnesses: &[u8],
        witness_pairs: &[Word],
        work: &mut [Word],
        out: &mut [u8],
    ) -> Composed;
    fn nit_take_literal(text: &[u8], cursor: &mut Cursor,) -> Taken;
}

/// Gates as the words of their memory: output, left and right of each.
pub fn gate_words(gates: &[AigerAnd]) -> &[Word] {
    const { assert!(size_of::<AigerAnd>() == 3 * size_of::<Word>()) };
    // SAFETY: `AigerAnd` is `repr(C)` with three words and nothing else, as asserted; so these are
    // three times as many initialized words, and the slice lives as long as the gates.
    unsafe { std::slice::from_raw_parts(gates.as_ptr().cast(), 3 * gates.len()) }
}
