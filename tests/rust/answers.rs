//! The answers and kept states of the C functions, laid out as in include/farigolenc.h.

/// How many ratios a window holds.
pub const WINDOW: usize = 127;

/// The forms of a record, by the tag of the positions' field.
pub const OLD: u32 = 3;
pub const WIDE: u32 = 5;

/// What writing a run and adding a ratio answer.
#[repr(C)]
#[derive(Clone, Copy, Debug, PartialEq)]
pub struct Written {
    pub number: u32,
    pub place: u32,
    pub length: u64,
}

/// Writing a run, by whichever implementation: rate, side, form, positions, ratios, output.
pub type Write = fn(u32, u32, u32, &[u64], &[u64], &mut [u8]) -> Written;

/// What describe answers, the check in full; `form` is 0 with a refusal.
#[repr(C)]
#[derive(Clone, Copy, Debug, PartialEq)]
pub struct Described {
    pub number: u32,
    pub place: u32,
    pub rate: u32,
    pub side: u32,
    pub count: u32,
    pub form: u32,
    pub size: u64,
}

/// What fetch answers.
#[repr(C)]
#[derive(Clone, Copy, Debug, PartialEq)]
pub struct Fetched {
    pub number: u32,
    pub place: u32,
    pub count: u32,
}

/// What open reading answers; `form` is 0 with a refusal.
#[repr(C)]
#[derive(Clone, Copy, Debug, PartialEq)]
pub struct Reading {
    pub number: u32,
    pub place: u32,
    pub rate: u32,
    pub side: u32,
    pub count: u32,
    pub form: u32,
    pub used: u64,
}

/// What moving a record to the other form answers.
#[repr(C)]
#[derive(Clone, Copy, Debug, PartialEq)]
pub struct Moved {
    pub number: u32,
    pub place: u32,
    pub length: u64,
    pub used: u64,
}

/// Moving a record, by whichever implementation: record, output.
pub type Move = fn(&[u8], &mut [u8]) -> Moved;

/// What the span call answers.
#[repr(C)]
#[derive(Clone, Copy, Debug, PartialEq)]
pub struct Span {
    pub number: u32,
    pub place: u32,
    pub milliseconds: i64,
}

/// The state that live coding keeps: the window, oldest ratio first, and the number seen.
#[repr(C)]
#[derive(Clone, Copy, Debug, PartialEq)]
pub struct Live {
    pub ratios: [u64; WINDOW],
    pub fill: u64,
    pub seen: u64,
}

/// The state that stepping keeps: the place in the body, the count, and the window as in `Live`.
#[repr(C)]
#[derive(Clone, Copy, Debug, PartialEq)]
pub struct Cursor {
    pub place: u64,
    pub count: u64,
    pub seen: u64,
    pub ratios: [u64; WINDOW],
    pub fill: u64,
}

/// What making a reader answers.
#[repr(C)]
#[derive(Clone, Copy, Debug, PartialEq)]
pub struct Making {
    pub number: u32,
    pub place: u32,
    pub cursor: Cursor,
}

/// What a step answers.
#[repr(C)]
#[derive(Clone, Copy, Debug, PartialEq)]
pub struct Stepped {
    pub number: u32,
    pub place: u32,
    pub ratio: u64,
    pub next: Cursor,
}

/// What the kind call answers; `kind` is 0 for a number, 1 for an infinity, 2 for a not-a-number.
#[repr(C)]
#[derive(Clone, Copy, Debug, Default)]
pub struct Kind {
    pub kind: u32,
    pub negative: u32,
    pub value: f64,
    pub bits: u64,
}

/// Values are the same where their bits are.
impl PartialEq for Kind {
    fn eq(&self, other: &Kind) -> bool {
        let members = |kind: &Kind| (kind.kind, kind.negative, kind.value.to_bits(), kind.bits);
        members(self) == members(other)
    }
}

/// What the explain call answers; `reason` is 0 with a refusal, 1 for a reference, 2 for an xor
/// form, 3 for an exception with a best sum, 4 for an exception with an empty window.
#[repr(C)]
#[derive(Clone, Copy, Debug, Default, PartialEq)]
pub struct Explained {
    pub number: u32,
    pub place: u32,
    pub reason: u32,
    pub at: u32,
    pub leading: u32,
    pub trailing: u32,
    pub sum: u32,
}

/// What differs between two records: 1 the rate, 2 the side, 3 the count, 4 the form, 5 the position
/// and 6 the ratio at an index, 7 how many points only the longer run has, or 0 for nothing.
#[repr(C)]
#[derive(Clone, Copy, Debug, Default, PartialEq)]
pub struct Difference {
    pub what: u32,
    pub index: u64,
    pub first: u64,
    pub second: u64,
    pub first_kind: Kind,
    pub second_kind: Kind,
}

/// What comparing what describe answered of two records answers; `which` is the record that was refused, 1 or 2, or 0.
#[repr(C)]
#[derive(Clone, Copy, Debug, Default, PartialEq)]
pub struct Overall {
    pub number: u32,
    pub place: u32,
    pub which: u32,
    pub rate: Difference,
    pub side: Difference,
    pub count: Difference,
    pub form: Difference,
    pub more: Difference,
}
