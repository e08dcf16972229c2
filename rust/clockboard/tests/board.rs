// SPDX-License-Identifier: Apache-2.0 OR MIT
//! The crate over the archive: worked cases of the data sheets, refusals, and what a state survives.
use clockboard::{
    Access, Board, Burst, Clock, Counts, Edge, Error, Policy, Setup, StateFault, TickSource,
};

/// Programs counter 0 of the 8254 in mode 2 with count 4.
fn programmed() -> Board {
    let mut board = Board::default();
    for (port, byte) in [(0x43, 0x34), (0x40, 4), (0x40, 0)] {
        board
            .access(0, 0, Access::PortWrite { port, byte })
            .unwrap();
    }
    board
}

#[test]
fn the_archive_fits() {
    assert!(Board::fits_archive());
}

/// 5,000 ns are five pulses of the 8254: the first loads the count, and the fifth lifts the line.
#[test]
fn one_rise_in_mode_2() {
    let mut board = programmed();
    assert_eq!(board.next_edge(), Some(4_191));
    let reply = board.access(0, 5_000, Access::Step).unwrap();
    let edges: Vec<Edge> = reply.edges().collect();
    assert_eq!(
        edges,
        [Edge {
            at_ns: 4_191,
            line: 0,
            up: true
        }]
    );
    assert_eq!((reply.number(), reply.now_ns()), (4, 5_000));
    let low = board
        .access(0, 5_000, Access::PortRead { port: 0x40 })
        .unwrap();
    let high = board
        .access(0, 5_000, Access::PortRead { port: 0x40 })
        .unwrap();
    assert_eq!((low.value(), high.value()), (4, 0));
    let counts = board
        .access(0, 5_000, Access::Counts(TickSource::Pit))
        .unwrap();
    assert_eq!(counts.values(), [1, 1, 0, 0]);
}

#[test]
fn what_no_board_takes_changes_nothing() {
    let mut board = programmed();
    let wide = Access::HpetWrite {
        offset: 0x10,
        width: 4,
        value: 1 << 32,
    };
    let refused = [
        (0, Access::PortRead { port: 0x140 }, Error::NotOurs),
        (
            0,
            Access::HpetRead {
                offset: 0x400,
                width: 4,
            },
            Error::NotOurs,
        ),
        (
            0,
            Access::HpetRead {
                offset: 0,
                width: 3,
            },
            Error::NotOurs,
        ),
        (0, wide, Error::NotOurs),
        (0, Access::MsrRead { msr: 0x11 }, Error::NotOurs),
        (0, Access::Acknowledge { line: 1 }, Error::NotOurs),
        (0, Access::Counts(TickSource::Hpet(255)), Error::NotOurs),
        (0, Access::Rises { line: 0 }, Error::NotOurs),
        (1, Access::Step, Error::NoProcessor),
    ];
    for (cpu, access, error) in refused {
        assert_eq!(
            board.access(cpu, 9_000, access).unwrap_err(),
            error,
            "{access:?}"
        );
    }
    assert_eq!(
        board.access(0, 1 << 59, Access::Step).unwrap_err(),
        Error::OutOfRange
    );
    assert_eq!(board.access(0, 5_000, Access::Step).unwrap().number(), 4);
}

#[test]
fn setups_out_of_range() {
    let setup = Setup::default();
    for bad in [
        Setup {
            cpus: 0,
            ..setup.clone()
        },
        Setup {
            cpus: 17,
            ..setup.clone()
        },
        Setup {
            format: 6,
            ..setup.clone()
        },
        Setup {
            host_khz: 99_999,
            ..setup.clone()
        },
        Setup {
            slew_ns: 0,
            ..setup.clone()
        },
        Setup {
            wall_nsec: 1_000_000_000,
            ..setup.clone()
        },
    ] {
        assert_eq!(
            Board::power_on(&bad).err(),
            Some(Error::BadSetup),
            "{bad:?}"
        );
    }
    let late = Setup {
        host_start: 500,
        ..setup
    };
    let mut board = Board::power_on(&late).unwrap();
    assert_eq!(
        board.access(0, 499, Access::Step).unwrap_err(),
        Error::BeforeStart
    );
}

/// At 3 GHz from count 500 on, count 3,500 is the first of the time 1,000 ns.
#[test]
fn the_count_of_a_time() {
    let setup = Setup {
        host_khz: 3_000_000,
        host_start: 500,
        ..Setup::default()
    };
    let board = Board::power_on(&setup).unwrap();
    assert_eq!(board.counter_of(0), Some(500));
    assert_eq!(board.counter_of(1_000), Some(3_500));
    assert_eq!(board.counter_of(u64::MAX), None);
}

#[test]
fn a_saved_board_goes_on_where_it_was() {
    let mut board = programmed();
    let mut bytes = [0; 4_006];
    let length = board.save(&mut bytes).unwrap();
    assert_eq!(length, 553);
    assert_eq!(
        board.save(&mut bytes[..552]),
        Err(Error::NoRoom { wanted: 553 })
    );
    let mut loaded = Board::load(&bytes[..length]).unwrap();
    let ahead = board.access(0, 10_000, Access::Step).unwrap();
    let behind = loaded.access(0, 10_000, Access::Step).unwrap();
    assert!(ahead.edges().eq(behind.edges()));
    bytes[0] ^= 1;
    let fault = Error::BadState {
        place: 0,
        kind: StateFault::Magic,
    };
    assert_eq!(Board::load(&bytes[..length]).err(), Some(fault));
    assert_eq!(
        Board::load(&[]).err(),
        Some(Error::BadState {
            place: 0,
            kind: StateFault::Short
        })
    );
}

/// A guest of 2 GHz enables its page at 1,000 ns, and is moved at 2,000 ns over a gap of a second.
#[test]
fn a_clock_goes_on_behind_a_move() {
    let setup = Setup {
        guest_khz: 2_000_000,
        ..Setup::default()
    };
    let mut board = Board::power_on(&setup).unwrap();
    assert_eq!(board.clock(0, 0), Err(Error::PageOff));
    let enable = Access::MsrWrite {
        msr: 0x4b56_4d01,
        value: 0x7001,
    };
    board.access(0, 0, enable).unwrap();
    let page = board.page(0).unwrap();
    assert_eq!(
        (page.guest_address, page.enabled, page.version),
        (0x7000, true, 2)
    );
    assert_eq!(
        board.clock(0, 1_000),
        Ok(Clock {
            clock_ns: 1_000,
            reading_ns: 1_000
        })
    );
    board.access(0, 2_000, Access::Step).unwrap();
    let moved = board.move_to(3_000_000, 500, 1_000_000_000).unwrap();
    assert_eq!(moved.now_ns(), 1_000_002_000);
    let told = Clock {
        clock_ns: 1_000_003_000,
        reading_ns: 1_000_003_000,
    };
    assert_eq!(board.clock(0, 3_500), Ok(told));
    assert_eq!(board.move_to(1, 0, 0).unwrap_err(), Error::BadRate);
    assert_eq!(board.page(1).err(), Some(Error::NoProcessor));
}

/// A line that is up goes down, and no edge comes.
#[test]
fn a_reset_stops_the_8254() {
    let mut board = programmed();
    board.access(0, 5_000, Access::Step).unwrap();
    let fell: Vec<Edge> = board.reset().unwrap().edges().collect();
    assert_eq!(
        fell,
        [Edge {
            at_ns: 5_000,
            line: 0,
            up: false
        }]
    );
    assert_eq!(board.next_edge(), None);
}

#[test]
fn a_later_format_counts_rises() {
    let mut board = programmed();
    assert_eq!(board.upgrade(6), Err(Error::BadFormat));
    board.upgrade(2).unwrap();
    assert_eq!(board.upgrade(1), Err(Error::BadFormat));
    let rises = board.access(0, 5_000, Access::Rises { line: 0 }).unwrap();
    assert_eq!(rises.value(), 1);
}

/// The time bytes of the MC146818 as a guest reads them at a count.
fn time_bytes(board: &mut Board, host: u64) -> [u64; 7] {
    [0, 2, 4, 6, 7, 8, 9].map(|byte| {
        let index = Access::PortWrite { port: 0x70, byte };
        board.access(0, host, index).unwrap();
        let read = Access::PortRead { port: 0x71 };
        board.access(0, host, read).unwrap().value()
    })
}

/// Time bytes that spell no time are kept as they are. The first update, 501.98 ms after power on, counts each as its lowest value.
#[test]
fn time_bytes_that_spell_no_time() {
    for time in [[0; 7], [0x61, 0x5a, 0x24, 8, 0x32, 0x13, 0xff]] {
        let setup = Setup {
            time,
            ..Setup::default()
        };
        let mut board = Board::power_on(&setup).unwrap();
        assert_eq!(time_bytes(&mut board, 0), time.map(u64::from));
        assert_eq!(time_bytes(&mut board, 600_000_000), [1, 0, 0, 1, 1, 1, 0]);
    }
}

/// The wall clock, the base time and the bytes of the MC146818 come from the setup.
#[test]
fn times_of_a_setup() {
    let setup = Setup {
        base_ns: 7_000,
        wall_sec: 1_700_000_000,
        wall_nsec: 5,
        time: [0x59, 0x58, 0x23, 0x07, 0x30, 0x12, 0x99],
        ..Setup::default()
    };
    let mut board = Board::power_on(&setup).unwrap();
    assert_eq!(board.access(0, 0, Access::Step).unwrap().now_ns(), 7_000);
    assert_eq!(time_bytes(&mut board, 0), setup.time.map(u64::from));
    let publish = Access::MsrWrite {
        msr: 0x4b56_4d00,
        value: 0x9000,
    };
    board.access(0, 0, publish).unwrap();
    let words = board.access(0, 0, Access::Wall).unwrap().values();
    assert_eq!(words, [2, 1_700_000_000, 5, 0]);
    let number = board
        .access(0, 0, Access::MsrRead { msr: 0x4b56_4d00 })
        .unwrap();
    assert_eq!(number.value(), 0x9000);
}

/// What became of ticks of a source: of the 8254 with count 4 behind an acknowledgement at 12,000 ns; of the MC146818 at rate 6
/// behind 2 ms; of a periodic timer of the HPET with period 16 behind 450 ns.
fn ticks(setup: &Setup, source: TickSource) -> [u64; 4] {
    let mut board = Board::power_on(setup).unwrap();
    let hpet = |offset, width, value| Access::HpetWrite {
        offset,
        width,
        value,
    };
    let (script, host) = match source {
        TickSource::Pit => (
            [(0x43, 0x34), (0x40, 4), (0x40, 0)]
                .map(|(port, byte)| Access::PortWrite { port, byte })
                .to_vec(),
            12_000,
        ),
        TickSource::Rtc => (
            [(0x70, 0x0b), (0x71, 0x42)]
                .map(|(port, byte)| Access::PortWrite { port, byte })
                .to_vec(),
            2_000_000,
        ),
        TickSource::Hpet(_) => (
            vec![
                hpet(0x100, 8, 0x294c),
                hpet(0x108, 8, 0xffff_fff8),
                hpet(0x108, 8, 0x10),
                hpet(0xf0, 8, 0xffff_fff0),
                hpet(0x10, 4, 1),
            ],
            450,
        ),
        other => panic!("no script for {other:?}"),
    };
    for access in script {
        board.access(0, 0, access).unwrap();
    }
    if source == TickSource::Pit {
        board
            .access(0, host, Access::Acknowledge { line: 0 })
            .unwrap();
    }
    board
        .access(0, host, Access::Counts(source))
        .unwrap()
        .values()
}

#[test]
fn each_source_has_its_policy() {
    let delay = Setup::default();
    let discards = |pit, rtc, hpet| Setup {
        pit,
        rtc,
        hpet,
        ..delay.clone()
    };
    use Policy::{Delay, Discard, Slew};
    assert_eq!(ticks(&delay, TickSource::Pit), [3, 2, 1, 0]);
    assert_eq!(
        ticks(&discards(Discard, Delay, Delay), TickSource::Pit),
        [3, 1, 0, 2]
    );
    assert_eq!(
        ticks(&discards(Slew, Delay, Delay), TickSource::Pit),
        [3, 1, 2, 0]
    );
    assert_eq!(ticks(&delay, TickSource::Rtc), [2, 1, 1, 0]);
    assert_eq!(
        ticks(&discards(Delay, Discard, Delay), TickSource::Rtc),
        [2, 1, 0, 1]
    );
    assert_eq!(ticks(&delay, TickSource::Hpet(0)), [3, 1, 2, 0]);
    assert_eq!(
        ticks(&discards(Delay, Delay, Discard), TickSource::Hpet(0)),
        [3, 1, 0, 2]
    );
}

#[test]
fn typed_counts_and_wall() {
    let mut board = programmed();
    let counts = board
        .access(0, 5_000, Access::Counts(TickSource::Pit))
        .unwrap();
    assert_eq!(
        counts.counts(),
        Counts {
            due: 1,
            rose: 1,
            waiting: 0,
            lost: 0
        }
    );
    let msr = 0x4b56_4d00;
    board
        .access(0, 5_000, Access::MsrWrite { msr, value: 0x1000 })
        .unwrap();
    let wall = board.access(0, 5_000, Access::Wall).unwrap().wall();
    assert_eq!((wall.version, wall.sec), (2, 0));
}

/// Replies are equal where all that they give is; an error is a `core::error::Error`; a board can stand in a struct that
/// derives Debug.
#[test]
fn what_types_can_do() {
    let (mut first, mut second) = (programmed(), programmed());
    let reply = first.access(0, 5_000, Access::Step).unwrap();
    assert_eq!(reply, second.access(0, 5_000, Access::Step).unwrap());
    assert_eq!(reply.clone(), reply);
    assert_ne!(reply, first.access(0, 5_000, Access::Step).unwrap());
    let error: Box<dyn std::error::Error> = first.access(1, 0, Access::Step).unwrap_err().into();
    assert_eq!(error.to_string(), "the board has no such processor");
    assert_eq!(format!("{first:?}"), "Board { .. }");
}

/// A board of a format with two processors.
fn of_format(format: u8) -> Board {
    let setup = Setup {
        format,
        cpus: 2,
        ..Setup::default()
    };
    Board::power_on(&setup).unwrap()
}

#[test]
fn a_look_and_a_time() {
    let mut board = programmed();
    board.access(0, 5_000, Access::Step).unwrap();
    let view = board.look();
    assert_eq!((view.now_ns, view.accesses, view.lines), (5_000, 4, 1));
    assert_eq!((view.greatest_ns, view.format, view.cpus), (0, 1, 1));
    let mut setup = Setup::default();
    setup.set_time(951_782_399).unwrap();
    assert_eq!(setup.time, [0x59, 0x59, 0x23, 2, 0x28, 2, 0]);
    setup.set_time(951_782_400).unwrap();
    assert_eq!(setup.time, [0, 0, 0, 3, 0x29, 2, 0]);
    assert_eq!(setup.set_time(4_107_542_400), Err(Error::OutOfRange));
}

#[test]
fn the_numbers_of_a_tsc() {
    let mut board = of_format(1);
    let write = Access::MsrWrite {
        msr: 0x10,
        value: 5,
    };
    board.access(1, 1_000, write).unwrap();
    let tsc = board.tsc(1).unwrap();
    assert_eq!((tsc.khz, tsc.ratio), (1_000_000, 1 << 48));
    assert_eq!(tsc.offset.wrapping_add(1_000), 5);
    assert_eq!(board.tsc(2), Err(Error::NoProcessor));
}

/// A periodic timer of 1000 ns on processor 1.
#[test]
fn a_timer_of_a_local_apic() {
    let mut board = of_format(3);
    for (msr, value) in [(0x83e, 0xb), (0x832, 0x2_0030), (0x838, 1_000)] {
        board.access(1, 0, Access::MsrWrite { msr, value }).unwrap();
    }
    assert_eq!(
        (board.next_tick(1), board.next_tick(0)),
        (Some(1_000), None)
    );
    let counts = Access::Counts(TickSource::Apic(1));
    let counted = board.access(0, 2_500, counts).unwrap();
    assert_eq!(counted.values(), [2, 1, 0, 1]);
    board.access(1, 2_500, Access::Eoi).unwrap();
    let counted = board.access(0, 3_000, counts).unwrap();
    assert_eq!(counted.values(), [3, 2, 0, 1]);
}

#[test]
fn the_reference_page() {
    let mut board = of_format(4);
    assert_eq!(board.hv_time(0), Err(Error::PageOff));
    let write = Access::MsrWrite {
        msr: 0x4000_0021,
        value: 0x7fff,
    };
    board.access(0, 1_000, write).unwrap();
    let page = board.hv_page().unwrap();
    assert_eq!(
        (page.guest_address, page.enabled, page.sequence),
        (0x7000, true, 1)
    );
    assert_eq!(page.bytes[..8], [1, 0, 0, 0, 0, 0, 0, 0]);
    assert_eq!(board.hv_time(21_000), Ok(210));
    assert_eq!(of_format(3).hv_page(), Err(Error::NotOurs));
}

/// Timer 2 of the HPET sends data 31h each 1000 ns.
#[test]
fn messages() {
    let mut board = of_format(5);
    for (offset, width, value) in [
        (0x140, 4, 0x684c),
        (0x148, 8, 100),
        (0x150, 8, 0xfee0_0000_0000_0031),
        (0x10, 8, 1),
    ] {
        let write = Access::HpetWrite {
            offset,
            width,
            value,
        };
        board.access(0, 0, write).unwrap();
    }
    assert_eq!(board.next_message(), Some(1_000));
    let reply = board.access(0, 3_500, Access::Step).unwrap();
    let bursts: Vec<Burst> = reply.bursts().collect();
    assert_eq!(
        bursts,
        [Burst {
            timer: 2,
            first_ns: 1_000,
            count: 3,
            every_ns: 1_000,
            address: 0xfee0_0000,
            data: 0x31
        }]
    );
}

#[test]
fn the_longest_state() {
    let setup = Setup {
        format: 5,
        cpus: 64,
        ..Setup::default()
    };
    let mut bytes = [0; Board::STATE_MAX];
    assert_eq!(
        Board::power_on(&setup).unwrap().save(&mut bytes),
        Ok(Board::STATE_MAX)
    );
}
