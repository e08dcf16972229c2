// SPDX-License-Identifier: Apache-2.0 OR MIT
//! What a board answers.
use crate::ffi;
use core::fmt;

/// A change of the level of an interrupt line: 0 of the 8254, 8 of the MC146818, 20 to 23 of the HPET.
#[derive(Clone, Copy, Debug, PartialEq, Eq)]
pub struct Edge {
    /// The nanosecond of the change.
    pub at_ns: u64,
    /// The line.
    pub line: u8,
    /// Whether it went up.
    pub up: bool,
}

/// Messages that one timer of the HPET sent, at even distances; from format 5 on.
#[derive(Clone, Copy, Debug, PartialEq, Eq)]
pub struct Burst {
    /// The timer's number.
    pub timer: u8,
    /// The nanosecond of the first message.
    pub first_ns: u64,
    /// How many messages there are.
    pub count: u64,
    /// The nanoseconds from one to the next; 0 where there is one alone.
    pub every_ns: u64,
    /// The address to which each is written.
    pub address: u32,
    /// What is written there.
    pub data: u32,
}

/// What an access gave.
#[derive(Clone)]
pub struct Reply(pub(crate) ffi::Reply);

impl Reply {
    /// The number of the access, from 1 on; of a move that of the last one.
    pub fn number(&self) -> u64 {
        self.0.number
    }

    /// The board's time after the access, in nanoseconds.
    pub fn now_ns(&self) -> u64 {
        self.0.now_ns
    }

    /// What was read; 0 where nothing was.
    pub fn value(&self) -> u64 {
        self.0.value[0]
    }

    /// All that was read: of `Access::Counts` the ticks that came due, that rose, that wait, and that are lost; of
    /// `Access::Wall` version, seconds and nanoseconds.
    pub fn values(&self) -> [u64; 4] {
        self.0.value
    }

    /// What was read, as ticks of a source: of an `Access::Counts`.
    pub fn counts(&self) -> Counts {
        let [due, rose, waiting, lost] = self.0.value;
        Counts {
            due,
            rose,
            waiting,
            lost,
        }
    }

    /// What was read, as the wall clock's words: of an `Access::Wall`.
    pub fn wall(&self) -> Wall {
        let [version, sec, nsec, _] = self.0.value;
        Wall {
            version: version as u32,
            sec: sec as u32,
            nsec: nsec as u32,
        }
    }

    /// The edges in the order of time, those on the way to the access before its own.
    pub fn edges(&self) -> impl ExactSizeIterator<Item = Edge> + '_ {
        let count = (self.0.edge_count as usize).min(self.0.edges.len());
        self.0.edges[..count].iter().map(|edge| Edge {
            at_ns: edge.at_ns,
            line: edge.line as u8,
            up: edge.up != 0,
        })
    }

    /// The messages of the HPET's timers, in the order of timers.
    pub fn bursts(&self) -> impl ExactSizeIterator<Item = Burst> + '_ {
        let count = (self.0.burst_count as usize).min(self.0.bursts.len());
        self.0.bursts[..count].iter().map(|burst| Burst {
            timer: burst.timer as u8,
            first_ns: burst.first_ns,
            count: burst.count,
            every_ns: burst.every_ns,
            address: burst.address,
            data: burst.data,
        })
    }
}

/// Ticks of a source since power on.
#[derive(Clone, Copy, Debug, PartialEq, Eq)]
pub struct Counts {
    /// Those that came due: the sum of the other three.
    pub due: u64,
    /// Those at which the line went up.
    pub rose: u64,
    /// Those that wait.
    pub waiting: u64,
    /// Those that are lost.
    pub lost: u64,
}

/// The wall clock's words as published.
#[derive(Clone, Copy, Debug, PartialEq, Eq)]
pub struct Wall {
    /// The version: even, and 0 before the first publishing.
    pub version: u32,
    /// The seconds.
    pub sec: u32,
    /// And nanoseconds.
    pub nsec: u32,
}

impl PartialEq for Reply {
    fn eq(&self, other: &Reply) -> bool {
        (self.number(), self.now_ns(), self.values())
            == (other.number(), other.now_ns(), other.values())
            && self.edges().eq(other.edges())
            && self.bursts().eq(other.bursts())
    }
}

impl Eq for Reply {}

impl fmt::Debug for Reply {
    fn fmt(&self, f: &mut fmt::Formatter<'_>) -> fmt::Result {
        f.debug_struct("Reply")
            .field("number", &self.number())
            .field("now_ns", &self.now_ns())
            .field("values", &self.values())
            .field("edges", &Edges(self))
            .field("bursts", &Bursts(self))
            .finish()
    }
}

/// The edges of a reply, as a list.
struct Edges<'a>(&'a Reply);

impl fmt::Debug for Edges<'_> {
    fn fmt(&self, f: &mut fmt::Formatter<'_>) -> fmt::Result {
        f.debug_list().entries(self.0.edges()).finish()
    }
}

/// The bursts of a reply, as a list.
struct Bursts<'a>(&'a Reply);

impl fmt::Debug for Bursts<'_> {
    fn fmt(&self, f: &mut fmt::Formatter<'_>) -> fmt::Result {
        f.debug_list().entries(self.0.bursts()).finish()
    }
}

/// A board at a glance.
#[derive(Clone, Copy, Debug, PartialEq, Eq)]
#[non_exhaustive]
pub struct View {
    /// Its time, in nanoseconds.
    pub now_ns: u64,
    /// How many accesses it has answered.
    pub accesses: u64,
    /// The greatest reading that [`Board::clock`](crate::Board::clock) gave, in nanoseconds.
    pub greatest_ns: u64,
    /// Bit n is set where line n is up.
    pub lines: u32,
    /// The format.
    pub format: u8,
    /// How many processors there are.
    pub cpus: u8,
}

/// The TSC of a processor: at count `h` of the host's counter it is `h * ratio / 2^48 + offset`, modulo 2^64.
#[derive(Clone, Copy, Debug, PartialEq, Eq)]
#[non_exhaustive]
pub struct Tsc {
    /// What is added to the scaled counter: what `KVM_VCPU_TSC_OFFSET` wants.
    pub offset: u64,
    /// The ratio of the guest's rate to the host's, with 48 bits after the binary point.
    pub ratio: u64,
    /// The guest's rate in kHz, which `KVM_SET_TSC_KHZ` wants.
    pub khz: u64,
}

/// Hyper-V's reference page, as it was published last.
#[derive(Clone, Copy, Debug, PartialEq, Eq)]
#[non_exhaustive]
pub struct HvPage {
    /// Where the guest wants it.
    pub guest_address: u64,
    /// Whether the guest has enabled it.
    pub enabled: bool,
    /// The sequence: 0 where the page isn't enabled.
    pub sequence: u32,
    /// The bytes as the guest sees them, `HV_REFERENCE_TSC_PAGE` up to its last field.
    pub bytes: [u8; 24],
}

/// What the clock of a processor tells, in nanoseconds.
#[derive(Clone, Copy, Debug, PartialEq, Eq)]
pub struct Clock {
    /// The greater of the page's reading and of all that was told before.
    pub clock_ns: u64,
    /// What the page itself gives.
    pub reading_ns: u64,
}

/// A page of the paravirtual clock, as it was published last.
#[derive(Clone, Copy, Debug, PartialEq, Eq)]
pub struct Page {
    /// Where the guest wants it.
    pub guest_address: u64,
    /// Whether the guest has enabled it.
    pub enabled: bool,
    /// The version: even, and 0 before the first publishing.
    pub version: u32,
    /// The bytes as the guest sees them, `struct pvclock_vcpu_time_info` of Linux.
    pub bytes: [u8; 32],
}
