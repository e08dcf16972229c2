// SPDX-License-Identifier: Apache-2.0 OR MIT
//! The pages of a board that threads share, as `c/shared.h` lays them out for C.
use crate::board::Board;
use crate::error::Error;
use crate::ffi;
use crate::reply::Reply;
use core::fmt;
use core::sync::atomic::{AtomicU64, Ordering::SeqCst};

/// The place of Hyper-V's page, after those of the processors.
const HV: usize = 64;

/// Words of one page: no two that different threads write lie in one cache line, nor in two that are fetched together.
#[derive(Default)]
#[repr(align(128))]
struct Words([AtomicU64; 5]);

/// The pages of an open board: any thread reads a processor's clock, and Hyper-V's time, without the board's lock.
///
/// Each step on a word is one atomic one, sequentially consistent, and the steps come in the order of the crate
/// `clock_table`, where it is proved that they make one history of all accesses and reads, in which no clock goes back.
/// These steps in Rust are tested. Until [`Pages::close`] the board refuses by [`Error::Shared`] what would leave the pages
/// older than it: [`Board::clock`], saves, moves, resets, upgrades, and accesses that publish a page.
///
/// ```
/// use clockboard::{Access, Board, Pages};
///
/// let mut board = Board::default();
/// let value = 0x1000 | 1;
/// board.access(0, 10, Access::MsrWrite { msr: 0x4b56_4d01, value })?;
/// let pages = Pages::open(&mut board)?; // from here on the board is behind a lock, and threads have `&pages`
/// let clock = match pages.try_clock(0, 500)? {
///     Some(clock) => clock,
///     None => pages.clock(&board, 0, 500)?, // an update was met: under the lock
/// };
/// assert_eq!(clock, 500);
/// pages.close(&mut board)?;
/// # Ok::<(), clockboard::Error>(())
/// ```
pub struct Pages {
    rates: ffi::Rates,
    greatest: Words,
    pages: [Words; HV + 1],
}

impl fmt::Debug for Pages {
    fn fmt(&self, f: &mut fmt::Formatter<'_>) -> fmt::Result {
        f.debug_struct("Pages").finish_non_exhaustive()
    }
}

impl Pages {
    /// Opens a board for sharing.
    pub fn open(board: &mut Board) -> Result<Pages, Error> {
        let mut rates = ffi::Rates::default();
        // SAFETY: two references of their types.
        Error::unless_ok(unsafe { ffi::clockboard_share(&mut board.0, &mut rates) })?;
        let greatest = Words::default();
        greatest.0[0].store(rates.greatest_ns, SeqCst);
        let pages = core::array::from_fn(|place| {
            let words = words_of(board, place).unwrap_or_default();
            Words(words.word.map(AtomicU64::new))
        });
        Ok(Pages {
            rates,
            greatest,
            pages,
        })
    }

    /// Closes the board, which knows the greatest clock that was read then. It is the one that was opened.
    pub fn close(self, board: &mut Board) -> Result<(), Error> {
        // SAFETY: a reference of its type.
        Error::unless_ok(unsafe {
            ffi::clockboard_unshare(&mut board.0, self.greatest.0[0].load(SeqCst))
        })
    }

    /// A write to an MSR of the board that was opened, as [`Access::MsrWrite`](crate::Access::MsrWrite) makes it of a board
    /// that isn't.
    pub fn msr_write(
        &self,
        board: &mut Board,
        cpu: u8,
        host: u64,
        msr: u32,
        value: u64,
    ) -> Result<Reply, Error> {
        let reply = board.call(|board, reply| {
            // SAFETY: two references of their types, which don't overlap.
            unsafe { ffi::clockboard_share_msr_write(board, cpu, host, msr, value, reply) }
        })?;
        self.publish(board, usize::from(cpu));
        self.publish(board, HV);
        Ok(reply)
    }

    /// A publishing of the page of processor `page`, as [`Access::Refresh`](crate::Access::Refresh).
    pub fn refresh(&self, board: &mut Board, cpu: u8, host: u64, page: u8) -> Result<Reply, Error> {
        let reply = board.call(|board, reply| {
            // SAFETY: two references of their types, which don't overlap.
            unsafe { ffi::clockboard_share_refresh(board, cpu, host, page, reply) }
        })?;
        self.publish(board, usize::from(page));
        Ok(reply)
    }

    /// What the clock of a processor reads at count `host`, in nanoseconds: never less than an earlier call gave, over all
    /// threads and processors. `None`: an update was met; once more, or [`Pages::clock`].
    pub fn try_clock(&self, cpu: u8, host: u64) -> Result<Option<u64>, Error> {
        let reading = self.try_page(cpu, host)?;
        Ok(reading.map(|reading| self.raise(reading)))
    }

    /// What the page of a processor reads at count `host`, in nanoseconds; `None` as above.
    pub fn try_page(&self, cpu: u8, host: u64) -> Result<Option<u64>, Error> {
        if u64::from(cpu) >= self.rates.cpus {
            return Err(Error::NoProcessor);
        }
        let words = self.try_words(usize::from(cpu));
        words.map(|words| self.reading(&words, host)).transpose()
    }

    /// What Hyper-V's reference page reads at count `host`, in units of 100 ns; `None` as above.
    pub fn try_hv(&self, host: u64) -> Result<Option<u64>, Error> {
        let words = self.try_words(HV);
        words.map(|words| self.hv_reading(&words, host)).transpose()
    }

    /// What [`Pages::try_clock`] reads, by the board that was opened, and so under its lock: no update is met.
    pub fn clock(&self, board: &Board, cpu: u8, host: u64) -> Result<u64, Error> {
        if u64::from(cpu) >= self.rates.cpus {
            return Err(Error::NoProcessor);
        }
        let words = words_of(board, usize::from(cpu))?;
        Ok(self.raise(self.reading(&words, host)?))
    }

    /// Puts a page where the board has published it since, its version odd meanwhile. `board` is borrowed as one that the
    /// caller alone has, so this is the only put.
    fn publish(&self, board: &mut Board, place: usize) {
        let Ok(words) = words_of(board, place) else {
            return;
        };
        let at = &self.pages[place].0;
        if at[0].load(SeqCst) != words.word[0] {
            at[0].store(words.word[0] - 1, SeqCst);
            for (cell, word) in at.iter().zip(words.word).skip(1) {
                cell.store(word, SeqCst);
            }
            at[0].store(words.word[0], SeqCst);
        }
    }

    /// The words of a page, between two loads of the version.
    fn try_words(&self, place: usize) -> Option<ffi::Words> {
        let at = &self.pages[place].0;
        let version = at[0].load(SeqCst);
        if version % 2 != 0 {
            return None;
        }
        let mut word = [version; 5];
        for k in 1..5 {
            word[k] = at[k].load(SeqCst);
        }
        (at[0].load(SeqCst) == version).then_some(ffi::Words { word })
    }

    /// The time that the words of a processor's page give.
    fn reading(&self, words: &ffi::Words, host: u64) -> Result<u64, Error> {
        let mut reading = 0;
        // SAFETY: three references of their types, which don't overlap.
        Error::unless_ok(unsafe {
            ffi::clockboard_page_reading(&self.rates, words, host, &mut reading)
        })?;
        Ok(reading)
    }

    /// The time that the words of Hyper-V's page give.
    fn hv_reading(&self, words: &ffi::Words, host: u64) -> Result<u64, Error> {
        let mut reading = 0;
        // SAFETY: three references of their types, which don't overlap.
        Error::unless_ok(unsafe {
            ffi::clockboard_hv_reading(&self.rates, words, host, &mut reading)
        })?;
        Ok(reading)
    }

    /// Raises the greatest reading to this one, as one atomic maximum, and gives the greater of the two.
    fn raise(&self, reading: u64) -> u64 {
        let found = self.greatest.0[0].load(SeqCst);
        if reading <= found {
            return found; // a maximum would take the cache line from the other threads
        }
        self.greatest.0[0].fetch_max(reading, SeqCst).max(reading)
    }
}

/// The words of the page at a place, as an open board has it.
fn words_of(board: &Board, place: usize) -> Result<ffi::Words, Error> {
    let mut words = ffi::Words::default();
    // SAFETY: two references of their types.
    Error::unless_ok(unsafe {
        if place == HV {
            ffi::clockboard_hv_words(&board.0, &mut words)
        } else {
            ffi::clockboard_page_words(&board.0, place as u8, &mut words)
        }
    })?;
    Ok(words)
}
