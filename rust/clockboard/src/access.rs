// SPDX-License-Identifier: Apache-2.0 OR MIT
//! What is said to a board.
use crate::error::Error;
use crate::ffi;

/// What becomes of a tick that comes due while its line is up.
#[derive(Clone, Copy, Debug, PartialEq, Eq)]
#[non_exhaustive]
pub enum Policy {
    /// It is lost.
    Discard = 0,
    /// It waits, and rises at an acknowledgement.
    Delay = 1,
    /// It waits, and rises at a catch-up point that finds the line down.
    Slew = 2,
}

/// What a board is at power on.
#[derive(Clone, Debug, PartialEq, Eq)]
pub struct Setup {
    /// The format, 1 to 5. From 2 on there are 8 timers in the HPET, up to 64 processors, and counts of rises; from 3 on a
    /// local APIC's timer for each processor; from 4 on Hyper-V's reference page; in 5 HPET timers can send messages.
    pub format: u8,
    /// How many processors there are: 1 to 16, from format 2 on to 64.
    pub cpus: u8,
    /// The rate of the host's counter in kHz, 100,000 to 10,000,000.
    pub host_khz: u64,
    /// Its count at power on.
    pub host_start: u64,
    /// The time at that count in nanoseconds, below 2^59.
    pub base_ns: u64,
    /// The rate of the guest's TSC in kHz, 100,000 to 10,000,000.
    pub guest_khz: u64,
    /// What becomes of late ticks of the 8254.
    pub pit: Policy,
    /// Of the MC146818.
    pub rtc: Policy,
    /// Of the HPET.
    pub hpet: Policy,
    /// From one catch-up point to the next, 1 to 1,000,000,000 nanoseconds.
    pub slew_ns: u64,
    /// The wall clock at power on, in seconds.
    pub wall_sec: u32,
    /// And nanoseconds, below 1,000,000,000.
    pub wall_nsec: u32,
    /// The bytes of the MC146818 in BCD: seconds, minutes, hour of 24, day of the week (1 is Sunday), date, month, year of
    /// the century. Bytes that spell no time are kept as they are, and the clock counts on from them.
    pub time: [u8; 7],
}

impl Default for Setup {
    /// Format 1, one processor, 1 GHz for host and guest, delay for all, midnight.
    fn default() -> Setup {
        Setup {
            format: 1,
            cpus: 1,
            host_khz: 1_000_000,
            host_start: 0,
            base_ns: 0,
            guest_khz: 1_000_000,
            pit: Policy::Delay,
            rtc: Policy::Delay,
            hpet: Policy::Delay,
            slew_ns: 1_000_000,
            wall_sec: 0,
            wall_nsec: 0,
            time: [0, 0, 0, 1, 1, 1, 0],
        }
    }
}

impl Setup {
    /// Sets the time to `seconds` since midnight of 1 January 1970, UTC. [`Error::OutOfRange`] from 1 March 2100 on, as the
    /// MC146818 has a leap day in that year.
    pub fn set_time(&mut self, seconds: u64) -> Result<(), Error> {
        let mut words = self.words();
        // SAFETY: a reference of its type.
        match unsafe { ffi::clockboard_setup_at(&mut words, seconds) } {
            0 => {
                self.time = words.time;
                Ok(())
            }
            code => Err(Error::of_code(code, [0; 4])),
        }
    }

    /// The setup as the archive takes it.
    pub(crate) fn words(&self) -> ffi::Setup {
        ffi::Setup {
            host_khz: self.host_khz,
            host_start: self.host_start,
            base_ns: self.base_ns,
            guest_khz: self.guest_khz,
            slew_ns: self.slew_ns,
            wall_sec: self.wall_sec,
            wall_nsec: self.wall_nsec,
            format: self.format,
            cpus: self.cpus,
            pit_policy: self.pit as u8,
            rtc_policy: self.rtc as u8,
            hpet_policy: self.hpet as u8,
            time: self.time,
        }
    }
}

/// A source of ticks, whose late and lost ones are counted.
#[derive(Clone, Copy, Debug, PartialEq, Eq)]
#[non_exhaustive]
pub enum TickSource {
    /// Counter 0 of the 8254.
    Pit,
    /// The periodic events of the MC146818.
    Rtc,
    /// A timer of the HPET.
    Hpet(u8),
    /// The local APIC's timer of a processor; from format 3 on.
    Apic(u8),
}

impl TickSource {
    /// The number of the source; that of a timer or a processor past all is one that no board has.
    pub(crate) fn number(self) -> u8 {
        match self {
            TickSource::Pit => 0,
            TickSource::Rtc => 1,
            TickSource::Hpet(timer) => timer.min(13) + 2,
            TickSource::Apic(cpu) => cpu.saturating_add(16),
        }
    }
}

/// What a processor, or its monitor, asks of a board. What no board takes is answered by [`crate::Error::NotOurs`].
#[derive(Clone, Copy, Debug, PartialEq, Eq)]
#[non_exhaustive]
pub enum Access {
    /// Nothing but the time that has gone by.
    Step,
    /// A read of a port: 40h to 43h, 61h, 70h or 71h.
    PortRead {
        /// The port.
        port: u16,
    },
    /// A write to one of these ports.
    PortWrite {
        /// The port.
        port: u16,
        /// The byte written.
        byte: u8,
    },
    /// A read of the HPET.
    HpetRead {
        /// The offset, up to 3FFh.
        offset: u16,
        /// The width in bytes: 1, 2, 4 or 8.
        width: u8,
    },
    /// A write to the HPET.
    HpetWrite {
        /// The offset, up to 3FFh.
        offset: u16,
        /// The width in bytes: 1, 2, 4 or 8.
        width: u8,
        /// The value, which fits the width.
        value: u64,
    },
    /// A read of an MSR: 10h, 3Bh, 4B564D00h or 4B564D01h; from format 3 on 832h, 838h, 839h, 83Eh and 6E0h of the local
    /// APIC's timer, from format 4 on 40000020h and 40000021h of Hyper-V.
    MsrRead {
        /// The MSR.
        msr: u32,
    },
    /// A write to one of these MSRs.
    MsrWrite {
        /// The MSR.
        msr: u32,
        /// The value written.
        value: u64,
    },
    /// An acknowledgement of a line: 0, 8, 20, 21, 22 or 23.
    Acknowledge {
        /// The line.
        line: u8,
    },
    /// The end of the interrupt of the processor's local APIC timer; from format 3 on.
    Eoi,
    /// The page of a processor is published.
    Refresh {
        /// The processor.
        page: u8,
    },
    /// The wall clock's words: [`Reply::wall`](crate::Reply::wall).
    Wall,
    /// The ticks of a source: [`Reply::counts`](crate::Reply::counts).
    Counts(TickSource),
    /// How often a line went up; from format 2 on.
    Rises {
        /// The line.
        line: u8,
    },
}
