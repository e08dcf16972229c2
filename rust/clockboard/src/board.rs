// SPDX-License-Identifier: Apache-2.0 OR MIT
//! The board.
use crate::access::{Access, Setup};
use crate::error::Error;
use crate::ffi;
use crate::reply::{Clock, HvPage, Page, Reply, Tsc, View};
use core::fmt;

/// A board: the time hardware of one guest.
#[derive(Clone)]
pub struct Board(pub(crate) ffi::Board);

impl fmt::Debug for Board {
    /// A board's bytes are the library's; its saved state has its fields.
    fn fmt(&self, f: &mut fmt::Formatter<'_>) -> fmt::Result {
        f.debug_struct("Board").finish_non_exhaustive()
    }
}

impl Default for Board {
    /// A board at power on with the setup by default.
    fn default() -> Board {
        // SAFETY: the call takes nothing, and gives a board by value.
        Board(unsafe { ffi::clockboard_blank() })
    }
}

impl Board {
    /// A board at power on.
    pub fn power_on(setup: &Setup) -> Result<Board, Error> {
        let mut board = Board::default();
        let words = setup.words();
        board.call(|board, reply| {
            // SAFETY: three references of their types, which don't overlap.
            unsafe { ffi::clockboard_power_on(board, &words, reply) }
        })?;
        Ok(board)
    }

    /// Whether the archive has the interface that this crate was written for. A program that links another archive's
    /// calls gets a build that fails, or this false.
    pub fn fits_archive() -> bool {
        // SAFETY: these calls take nothing.
        let (abi, board, reply) = unsafe {
            (
                ffi::clockboard_abi(),
                ffi::clockboard_size(),
                ffi::clockboard_reply_size(),
            )
        };
        abi == ffi::ABI
            && board == core::mem::size_of::<ffi::Board>()
            && reply == core::mem::size_of::<ffi::Reply>()
    }

    /// One access by processor `cpu` at count `host` of the host's counter.
    pub fn access(&mut self, cpu: u8, host: u64, access: Access) -> Result<Reply, Error> {
        use Access::*;
        // SAFETY: the board and the reply are references of their types, which don't overlap; the calls check all else.
        self.call(|board, reply| unsafe {
            match access {
                Step => ffi::clockboard_step(board, cpu, host, reply),
                PortRead { port } => ffi::clockboard_port_read(board, cpu, host, port, reply),
                PortWrite { port, byte } => {
                    ffi::clockboard_port_write(board, cpu, host, port, byte, reply)
                }
                HpetRead { offset, width } => {
                    ffi::clockboard_hpet_read(board, cpu, host, offset, width, reply)
                }
                HpetWrite {
                    offset,
                    width,
                    value,
                } => ffi::clockboard_hpet_write(board, cpu, host, offset, width, value, reply),
                MsrRead { msr } => ffi::clockboard_msr_read(board, cpu, host, msr, reply),
                MsrWrite { msr, value } => {
                    ffi::clockboard_msr_write(board, cpu, host, msr, value, reply)
                }
                Acknowledge { line } => ffi::clockboard_acknowledge(board, cpu, host, line, reply),
                Eoi => ffi::clockboard_eoi(board, cpu, host, reply),
                Refresh { page } => ffi::clockboard_refresh(board, cpu, host, page, reply),
                Wall => ffi::clockboard_wall(board, cpu, host, reply),
                Counts(source) => ffi::clockboard_counts(board, cpu, host, source.number(), reply),
                Rises { line } => ffi::clockboard_rises(board, cpu, host, line, reply),
            }
        })
    }

    /// The first nanosecond after the board's time, and below 2^59, in which a line changes if no access comes. The board
    /// keeps it: to ask again costs little.
    pub fn next_edge(&mut self) -> Option<u64> {
        let mut at = 0;
        // SAFETY: two references of their types.
        let code = unsafe { ffi::clockboard_next_edge(&mut self.0, &mut at) };
        (code == 0).then_some(at)
    }

    /// The same for the local APIC's timer of a processor: when it ticks next, which is when it fires and isn't masked.
    pub fn next_tick(&mut self, cpu: u8) -> Option<u64> {
        let mut at = 0;
        // SAFETY: two references of their types.
        let code = unsafe { ffi::clockboard_next_tick(&mut self.0, cpu, &mut at) };
        (code == 0).then_some(at)
    }

    /// The same for the messages of the HPET's timers.
    pub fn next_message(&mut self) -> Option<u64> {
        let mut at = 0;
        // SAFETY: two references of their types.
        let code = unsafe { ffi::clockboard_next_message(&mut self.0, &mut at) };
        (code == 0).then_some(at)
    }

    /// The first count of the host's counter whose time is `at_ns` or later, where 64 bits hold it.
    pub fn counter_of(&self, at_ns: u64) -> Option<u64> {
        let mut host = 0;
        // SAFETY: two references of their types.
        let code = unsafe { ffi::clockboard_counter_of(&self.0, at_ns, &mut host) };
        (code == 0).then_some(host)
    }

    /// The board at a glance. It is no access.
    pub fn look(&mut self) -> View {
        let mut view = ffi::View::default();
        // SAFETY: two references of their types.
        let _ = unsafe { ffi::clockboard_look(&mut self.0, &mut view) };
        View {
            now_ns: view.now_ns,
            accesses: view.accesses,
            greatest_ns: view.greatest_ns,
            lines: view.lines,
            format: view.format,
            cpus: view.cpus,
        }
    }

    /// The numbers of a processor's TSC. It is no access.
    pub fn tsc(&self, cpu: u8) -> Result<Tsc, Error> {
        let mut tsc = ffi::Tsc::default();
        // SAFETY: two references of their types.
        match unsafe { ffi::clockboard_tsc(&self.0, cpu, &mut tsc) } {
            0 => Ok(Tsc {
                offset: tsc.offset,
                ratio: tsc.ratio,
                khz: tsc.khz,
            }),
            code => Err(Error::of_code(code, [0; 4])),
        }
    }

    /// Hyper-V's reference page, as it was published last; from format 4 on.
    pub fn hv_page(&self) -> Result<HvPage, Error> {
        let mut page = ffi::HvPage::default();
        // SAFETY: two references of their types.
        match unsafe { ffi::clockboard_hv_page(&self.0, &mut page) } {
            0 => Ok(HvPage {
                guest_address: page.guest_address,
                enabled: page.enabled != 0,
                sequence: page.sequence,
                bytes: page.bytes,
            }),
            code => Err(Error::of_code(code, [0; 4])),
        }
    }

    /// The time in units of 100 ns that this page gives at count `host`, by the TSC of the processor that published it. It is
    /// no access.
    pub fn hv_time(&self, host: u64) -> Result<u64, Error> {
        let mut reply = ffi::Reply::empty();
        // SAFETY: two references of their types, which don't overlap.
        unsafe { ffi::clockboard_hv_time(&self.0, host, &mut reply) };
        match reply.answer {
            0 => Ok(reply.value[0]),
            code => Err(Error::of_code(code, reply.value)),
        }
    }

    /// The page of a processor, as it was published last.
    pub fn page(&self, cpu: u8) -> Result<Page, Error> {
        let mut page = ffi::Page {
            guest_address: 0,
            enabled: 0,
            version: 0,
            bytes: [0; 32],
        };
        // SAFETY: two references of their types.
        match unsafe { ffi::clockboard_page(&self.0, cpu, &mut page) } {
            0 => Ok(Page {
                guest_address: page.guest_address,
                enabled: page.enabled != 0,
                version: page.version,
                bytes: page.bytes,
            }),
            code => Err(Error::of_code(code, [0; 4])),
        }
    }

    /// What the clock of a processor tells at count `host`, never less than it told before. It is no access.
    pub fn clock(&mut self, cpu: u8, host: u64) -> Result<Clock, Error> {
        let reply = self.call(|board, reply| {
            // SAFETY: two references of their types, which don't overlap.
            unsafe { ffi::clockboard_clock(board, cpu, host, reply) }
        })?;
        let [clock_ns, reading_ns, ..] = reply.values();
        Ok(Clock {
            clock_ns,
            reading_ns,
        })
    }

    /// The bytes of the longest saved state: format 5, 64 processors.
    pub const STATE_MAX: usize = 7_635;

    /// Writes the saved state to the front of `bytes`, and answers its length. [`Board::STATE_MAX`] bytes are enough for each
    /// board. Two boards with the same saved state answer each access alike.
    pub fn save(&mut self, bytes: &mut [u8]) -> Result<usize, Error> {
        let mut written = 0;
        // SAFETY: references of their types, and a slice by its pointer, which isn't null, and its length.
        let code = unsafe {
            ffi::clockboard_save(&mut self.0, bytes.as_mut_ptr(), bytes.len(), &mut written)
        };
        match code {
            0 => Ok(written),
            code => Err(Error::of_code(code, [written as u64, 0, 0, 0])),
        }
    }

    /// The board of a saved state.
    pub fn load(bytes: &[u8]) -> Result<Board, Error> {
        let mut board = Board::default();
        board.call(|board, reply| {
            // SAFETY: references of their types, and a slice by its pointer, which isn't null, and its length.
            unsafe { ffi::clockboard_load(board, bytes.as_ptr(), bytes.len(), reply) }
        })?;
        Ok(board)
    }

    /// Moves the board to a host whose counter runs at `khz` and counts `start` when the gap of `gap_ns` is over.
    pub fn move_to(&mut self, khz: u64, start: u64, gap_ns: u64) -> Result<Reply, Error> {
        self.call(|board, reply| {
            // SAFETY: two references of their types, which don't overlap.
            unsafe { ffi::clockboard_move(board, khz, start, gap_ns, reply) }
        })
    }

    /// A reset of the PC, at the board's time. The reply has the edges of the lines that were up. TSCs go on, and the
    /// MC146818's time and memory stay.
    pub fn reset(&mut self) -> Result<Reply, Error> {
        self.call(|board, reply| {
            // SAFETY: two references of their types, which don't overlap.
            unsafe { ffi::clockboard_reset(board, reply) }
        })
    }

    /// Takes the board to a later format, or leaves it in the same.
    pub fn upgrade(&mut self, format: u8) -> Result<(), Error> {
        // SAFETY: a reference of its type.
        match unsafe { ffi::clockboard_upgrade(&mut self.0, format) } {
            0 => Ok(()),
            code => Err(Error::of_code(code, [0; 4])),
        }
    }

    /// A call that fills a reply.
    pub(crate) fn call(
        &mut self,
        f: impl FnOnce(&mut ffi::Board, &mut ffi::Reply),
    ) -> Result<Reply, Error> {
        let mut reply = ffi::Reply::empty();
        f(&mut self.0, &mut reply);
        match reply.answer {
            0 => Ok(Reply(reply)),
            code => Err(Error::of_code(code, reply.value)),
        }
    }
}
