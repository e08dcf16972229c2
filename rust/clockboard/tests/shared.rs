// SPDX-License-Identifier: Apache-2.0 OR MIT
//! Threads that share the pages of a board, and what an open board refuses.
use clockboard::{Access, Board, Error, Pages, Setup};
use std::sync::atomic::{AtomicBool, AtomicU64, Ordering::SeqCst};
use std::sync::Mutex;
use std::thread;

const SYSTEM_TIME: u32 = 0x4b56_4d01;
const REFERENCE_TSC: u32 = 0x4000_0021;
const TSC: u32 = 0x10;

/// A board of two processors in format 4 with all pages enabled.
fn with_pages() -> Board {
    let mut board = Board::power_on(&Setup {
        cpus: 2,
        format: 4,
        ..Setup::default()
    })
    .unwrap();
    for cpu in 0..2 {
        let value = 0x1000 + 64 * u64::from(cpu) + 1;
        let access = Access::MsrWrite {
            msr: SYSTEM_TIME,
            value,
        };
        board.access(cpu, 10, access).unwrap();
    }
    let access = Access::MsrWrite {
        msr: REFERENCE_TSC,
        value: 0x9001,
    };
    board.access(0, 20, access).unwrap();
    board
}

/// Counts of one counter for all threads, a nanosecond each. Every processor writes its TSC, publishes pages, and reads clocks:
/// none goes back over all threads, and none is ahead of the counter.
#[test]
fn no_clock_goes_back() {
    const ROUNDS: u64 = 100_000;
    let mut board = with_pages();
    let pages = Pages::open(&mut board).unwrap();
    let (board, counter, given) = (Mutex::new(board), AtomicU64::new(100), AtomicU64::new(0));
    let read = |cpu: u8, host: u64| {
        let floor = given.load(SeqCst);
        let clock = match pages.try_clock(cpu, host).unwrap() {
            Some(clock) => clock,
            None => pages.clock(&board.lock().unwrap(), cpu, host).unwrap(),
        };
        let most = counter.load(SeqCst);
        assert!(
            floor <= clock && clock <= most,
            "{clock} after {floor}, at {most}"
        );
        given.fetch_max(clock, SeqCst);
    };
    let run = |cpu: u8| {
        for round in 0..ROUNDS {
            let (host, other) = (counter.fetch_add(7, SeqCst), 1 - cpu);
            let access = |msr, value| {
                pages
                    .msr_write(&mut board.lock().unwrap(), cpu, host, msr, value)
                    .unwrap()
            };
            match round % 8 {
                0 => drop(access(TSC, host * 3)),
                1 => drop(access(REFERENCE_TSC, 0x9001)),
                2 => drop(
                    pages
                        .refresh(&mut board.lock().unwrap(), cpu, host, other)
                        .unwrap(),
                ),
                3 => drop(pages.try_hv(host).unwrap()),
                _ => read(other, host),
            }
        }
    };
    thread::scope(|scope| {
        scope.spawn(|| run(0));
        scope.spawn(|| run(1));
    });
    let mut board = board.into_inner().unwrap();
    pages.close(&mut board).unwrap();
    assert_eq!(board.look().greatest_ns, given.into_inner());
    assert_eq!(board.look().accesses, 3 + 2 * ROUNDS / 8 * 3);
}

/// A page that is torn is ahead of the time: it has the TSC of one publishing and the offset of another.
#[test]
fn no_page_is_torn() {
    let mut board = with_pages();
    let pages = Pages::open(&mut board).unwrap();
    let (counter, over) = (AtomicU64::new(100), AtomicBool::new(false));
    thread::scope(|scope| {
        scope.spawn(|| {
            while !over.load(SeqCst) {
                let host = counter.load(SeqCst);
                let reading = pages.try_page(0, host).unwrap();
                let most = counter.load(SeqCst);
                assert!(reading.unwrap_or(host) <= most, "{reading:?} at {most}");
            }
        });
        for _ in 0..300_000 {
            let host = counter.fetch_add(7, SeqCst);
            pages.msr_write(&mut board, 0, host, TSC, host * 3).unwrap();
        }
        over.store(true, SeqCst);
    });
}

/// A page is read as it was published last.
#[test]
fn what_is_published_is_read() {
    let mut board = with_pages();
    let pages = Pages::open(&mut board).unwrap();
    assert_eq!(pages.try_clock(1, 300), Ok(Some(300)));
    assert_eq!(pages.clock(&board, 1, 200), Ok(300));
    assert_eq!(pages.try_page(1, 200), Ok(Some(200)));
    assert_eq!(pages.try_hv(500), board.hv_time(500).map(Some));
    for (msr, value) in [(SYSTEM_TIME, 0x1040), (REFERENCE_TSC, 0x9000)] {
        pages.msr_write(&mut board, 1, 600, msr, value).unwrap();
    }
    assert_eq!(pages.try_clock(1, 700), Err(Error::PageOff));
    assert_eq!(pages.clock(&board, 1, 700), Err(Error::PageOff));
    assert_eq!(pages.try_hv(700), Err(Error::PageOff));
    assert_eq!(pages.try_clock(0, 700), Ok(Some(700)));
}

#[test]
fn what_an_open_board_refuses() {
    let mut board = with_pages();
    let before = board.look();
    let pages = Pages::open(&mut board).unwrap();
    assert_eq!(Pages::open(&mut board).unwrap_err(), Error::Shared);
    assert_eq!(board.clock(0, 100).unwrap_err(), Error::Shared);
    assert_eq!(board.reset().unwrap_err(), Error::Shared);
    assert_eq!(board.upgrade(5), Err(Error::Shared));
    for msr in [TSC, 0x3b, SYSTEM_TIME, REFERENCE_TSC] {
        let written = board.access(0, 100, Access::MsrWrite { msr, value: 1 });
        assert_eq!(written.unwrap_err(), Error::Shared);
    }
    assert_eq!(board.look(), before);
    assert_eq!(pages.try_clock(2, 100), Err(Error::NoProcessor));
    assert_eq!(pages.try_clock(0, u64::MAX), Err(Error::OutOfRange));
    assert_eq!(pages.try_page(1, 300), Ok(Some(300)));
    let plain = &mut Board::default();
    let refused = pages.msr_write(plain, 0, 100, TSC, 5);
    assert_eq!(refused.unwrap_err(), Error::NotShared);
    pages.close(&mut board).unwrap();
    let older = Pages::open(plain).unwrap();
    assert_eq!(older.try_clock(0, 100), Err(Error::PageOff));
    assert_eq!(older.try_hv(100), Err(Error::NotOurs));
}
