// SPDX-License-Identifier: Apache-2.0 OR MIT
//! Why a call is refused.
use core::fmt;

/// Why a call is refused. The board is as it was.
#[derive(Clone, Copy, Debug, PartialEq, Eq)]
#[non_exhaustive]
pub enum Error {
    /// The board has no such port, register, width, line, source or page, or a value is wider than its access.
    NotOurs,
    /// The board has no such processor.
    NoProcessor,
    /// The count of the host's counter lies before that of power on, or of the last move.
    BeforeStart,
    /// The time would be 2^59 ns or more.
    OutOfRange,
    /// A page, or the wall clock's words, would be published behind the last version.
    VersionsSpent,
    /// The board has answered 2^62 accesses.
    AccessesSpent,
    /// A number of the setup is out of its range.
    BadSetup,
    /// No board has these bytes: the first field at fault.
    BadState {
        /// The first byte of that field.
        place: u64,
        /// What is at fault.
        kind: StateFault,
    },
    /// The buffer is too small.
    NoRoom {
        /// The length of the state.
        wanted: usize,
    },
    /// Memory ran out.
    NoMemory,
    /// The rate of the new host is out of range.
    BadRate,
    /// The format isn't built, or is before that of the board.
    BadFormat,
    /// The guest hasn't enabled the page.
    PageOff,
    /// Threads share the board's pages: it must be closed first, or the call is one of [`Pages`](crate::Pages).
    Shared,
    /// Threads don't share the board's pages.
    NotShared,
    /// A code that this crate doesn't know: the archive is of another version.
    Unknown(u32),
}

/// What is at fault in a saved state.
#[derive(Clone, Copy, Debug, PartialEq, Eq)]
#[non_exhaustive]
pub enum StateFault {
    /// The bytes end before the field does.
    Short,
    /// The first bytes are those of no saved state.
    Magic,
    /// The format is one that isn't built.
    Version,
    /// A condition on the field fails.
    Field,
    /// Bytes stand behind the last field.
    Trailing,
}

impl Error {
    /// The error of a code other than 0 with the reply's value.
    pub(crate) fn of_code(code: u32, value: [u64; 4]) -> Error {
        match code {
            2 => Error::NotOurs,
            3 => Error::NoProcessor,
            4 => Error::BeforeStart,
            5 => Error::OutOfRange,
            6 => Error::VersionsSpent,
            7 => Error::AccessesSpent,
            8 => Error::BadSetup,
            9 => Error::BadState {
                place: value[0],
                kind: StateFault::of_number(value[1]),
            },
            10 => Error::NoRoom {
                wanted: value[0] as usize,
            },
            11 => Error::NoMemory,
            12 => Error::BadRate,
            13 => Error::BadFormat,
            14 => Error::PageOff,
            17 => Error::Shared,
            18 => Error::NotShared,
            code => Error::Unknown(code),
        }
    }
}

impl Error {
    /// Nothing after code 0, and else the error of a call that fills no reply.
    pub(crate) fn unless_ok(code: u32) -> Result<(), Error> {
        match code {
            0 => Ok(()),
            code => Err(Error::of_code(code, [0; 4])),
        }
    }
}

impl StateFault {
    fn of_number(number: u64) -> StateFault {
        match number {
            0 => StateFault::Short,
            1 => StateFault::Magic,
            2 => StateFault::Version,
            3 => StateFault::Field,
            _ => StateFault::Trailing,
        }
    }
}

impl core::error::Error for Error {}

impl fmt::Display for Error {
    fn fmt(&self, f: &mut fmt::Formatter<'_>) -> fmt::Result {
        match self {
            Error::NotOurs => f.write_str("the board takes no such access"),
            Error::NoProcessor => f.write_str("the board has no such processor"),
            Error::BeforeStart => f.write_str("the count lies before the board's first one"),
            Error::OutOfRange => f.write_str("the time would be 2^59 ns or more"),
            Error::VersionsSpent => f.write_str("a page has its last version"),
            Error::AccessesSpent => f.write_str("the board has answered 2^62 accesses"),
            Error::BadSetup => f.write_str("a number of the setup is out of range"),
            Error::BadState { place, kind } => {
                write!(f, "no board has these bytes: {kind:?} at {place}")
            }
            Error::NoRoom { wanted } => write!(f, "the state has {wanted} bytes"),
            Error::NoMemory => f.write_str("memory ran out"),
            Error::BadRate => f.write_str("the host's rate is out of range"),
            Error::BadFormat => f.write_str("the board can't be of that format"),
            Error::PageOff => f.write_str("the guest hasn't enabled the page"),
            Error::Shared => f.write_str("threads share the board"),
            Error::NotShared => f.write_str("threads don't share the board"),
            Error::Unknown(code) => write!(f, "the archive answers code {code}"),
        }
    }
}
