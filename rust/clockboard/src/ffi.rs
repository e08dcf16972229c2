// SPDX-License-Identifier: Apache-2.0 OR MIT
//! The calls of the archive, as `c/clockboard.h` declares them.

/// `CLOCKBOARD_ABI` of the header.
pub const ABI: u32 = 9;

/// `CLOCKBOARD_SIZE` of the header.
pub const SIZE: usize = 9424;

#[derive(Clone, Copy)]
#[repr(C)]
pub struct Board {
    pub opaque: [u64; SIZE / 8],
}

#[repr(C)]
pub struct Setup {
    pub host_khz: u64,
    pub host_start: u64,
    pub base_ns: u64,
    pub guest_khz: u64,
    pub slew_ns: u64,
    pub wall_sec: u32,
    pub wall_nsec: u32,
    pub format: u8,
    pub cpus: u8,
    pub pit_policy: u8,
    pub rtc_policy: u8,
    pub hpet_policy: u8,
    pub time: [u8; 7],
}

#[derive(Clone, Copy)]
#[repr(C)]
pub struct Edge {
    pub at_ns: u64,
    pub line: u32,
    pub up: u32,
}

#[derive(Clone, Copy, Default)]
#[repr(C)]
pub struct Burst {
    pub first_ns: u64,
    pub count: u64,
    pub every_ns: u64,
    pub address: u32,
    pub data: u32,
    pub timer: u32,
    pub reserved: u32,
}

#[derive(Clone)]
#[repr(C)]
pub struct Reply {
    pub answer: u32,
    pub edge_count: u32,
    pub burst_count: u32,
    pub reserved: u32,
    pub number: u64,
    pub now_ns: u64,
    pub value: [u64; 4],
    pub edges: [Edge; 24],
    pub bursts: [Burst; 8],
}

impl Reply {
    /// A reply to be filled.
    pub fn empty() -> Reply {
        let edge = Edge {
            at_ns: 0,
            line: 0,
            up: 0,
        };
        Reply {
            answer: 0,
            edge_count: 0,
            burst_count: 0,
            reserved: 0,
            number: 0,
            now_ns: 0,
            value: [0; 4],
            edges: [edge; 24],
            bursts: [Burst::default(); 8],
        }
    }
}

#[repr(C)]
pub struct Page {
    pub guest_address: u64,
    pub enabled: u32,
    pub version: u32,
    pub bytes: [u8; 32],
}

#[derive(Default)]
#[repr(C)]
pub struct View {
    pub now_ns: u64,
    pub accesses: u64,
    pub greatest_ns: u64,
    pub lines: u32,
    pub format: u8,
    pub cpus: u8,
}

#[derive(Default)]
#[repr(C)]
pub struct Tsc {
    pub offset: u64,
    pub ratio: u64,
    pub khz: u64,
}

#[derive(Default)]
#[repr(C)]
pub struct HvPage {
    pub guest_address: u64,
    pub enabled: u32,
    pub sequence: u32,
    pub bytes: [u8; 24],
}

/// `struct clockboard_rates` of shared.h.
#[derive(Default)]
#[repr(C)]
pub struct Rates {
    pub seal: u64,
    pub host_start: u64,
    pub host_last: u64,
    pub ratio: u64,
    pub greatest_ns: u64,
    pub cpus: u64,
    pub format: u64,
}

/// `struct clockboard_words` of shared.h.
#[derive(Default)]
#[repr(C)]
pub struct Words {
    pub word: [u64; 5],
}

extern "C" {
    pub fn clockboard_abi() -> u32;
    pub fn clockboard_size() -> usize;
    pub fn clockboard_reply_size() -> usize;
    pub fn clockboard_blank() -> Board;
    pub fn clockboard_setup_at(setup: *mut Setup, seconds: u64) -> u32;
    pub fn clockboard_power_on(board: *mut Board, setup: *const Setup, reply: *mut Reply);
    pub fn clockboard_step(board: *mut Board, cpu: u8, host: u64, reply: *mut Reply);
    pub fn clockboard_port_read(
        board: *mut Board,
        cpu: u8,
        host: u64,
        port: u16,
        reply: *mut Reply,
    );
    pub fn clockboard_port_write(
        board: *mut Board,
        cpu: u8,
        host: u64,
        port: u16,
        byte: u8,
        reply: *mut Reply,
    );
    pub fn clockboard_hpet_read(
        board: *mut Board,
        cpu: u8,
        host: u64,
        offset: u16,
        width: u8,
        reply: *mut Reply,
    );
    pub fn clockboard_hpet_write(
        board: *mut Board,
        cpu: u8,
        host: u64,
        offset: u16,
        width: u8,
        value: u64,
        reply: *mut Reply,
    );
    pub fn clockboard_msr_read(board: *mut Board, cpu: u8, host: u64, msr: u32, reply: *mut Reply);
    pub fn clockboard_msr_write(
        board: *mut Board,
        cpu: u8,
        host: u64,
        msr: u32,
        value: u64,
        reply: *mut Reply,
    );
    pub fn clockboard_acknowledge(
        board: *mut Board,
        cpu: u8,
        host: u64,
        line: u8,
        reply: *mut Reply,
    );
    pub fn clockboard_eoi(board: *mut Board, cpu: u8, host: u64, reply: *mut Reply);
    pub fn clockboard_refresh(board: *mut Board, cpu: u8, host: u64, page: u8, reply: *mut Reply);
    pub fn clockboard_wall(board: *mut Board, cpu: u8, host: u64, reply: *mut Reply);
    pub fn clockboard_counts(board: *mut Board, cpu: u8, host: u64, source: u8, reply: *mut Reply);
    pub fn clockboard_rises(board: *mut Board, cpu: u8, host: u64, line: u8, reply: *mut Reply);
    pub fn clockboard_next_edge(board: *mut Board, at_ns: *mut u64) -> u32;
    pub fn clockboard_next_tick(board: *mut Board, cpu: u8, at_ns: *mut u64) -> u32;
    pub fn clockboard_next_message(board: *mut Board, at_ns: *mut u64) -> u32;
    pub fn clockboard_counter_of(board: *const Board, at_ns: u64, host: *mut u64) -> u32;
    pub fn clockboard_look(board: *mut Board, view: *mut View) -> u32;
    pub fn clockboard_tsc(board: *const Board, cpu: u8, tsc: *mut Tsc) -> u32;
    pub fn clockboard_hv_page(board: *const Board, page: *mut HvPage) -> u32;
    pub fn clockboard_hv_time(board: *const Board, host: u64, reply: *mut Reply);
    pub fn clockboard_page(board: *const Board, cpu: u8, page: *mut Page) -> u32;
    pub fn clockboard_clock(board: *mut Board, cpu: u8, host: u64, reply: *mut Reply);
    pub fn clockboard_save(
        board: *mut Board,
        bytes: *mut u8,
        room: usize,
        length: *mut usize,
    ) -> u32;
    pub fn clockboard_load(board: *mut Board, bytes: *const u8, length: usize, reply: *mut Reply);
    pub fn clockboard_move(board: *mut Board, khz: u64, start: u64, gap_ns: u64, reply: *mut Reply);
    pub fn clockboard_reset(board: *mut Board, reply: *mut Reply);
    pub fn clockboard_upgrade(board: *mut Board, format: u8) -> u32;
    pub fn clockboard_share(board: *mut Board, rates: *mut Rates) -> u32;
    pub fn clockboard_unshare(board: *mut Board, greatest_ns: u64) -> u32;
    pub fn clockboard_page_words(board: *const Board, cpu: u8, words: *mut Words) -> u32;
    pub fn clockboard_page_reading(
        rates: *const Rates,
        words: *const Words,
        host: u64,
        reading_ns: *mut u64,
    ) -> u32;
    pub fn clockboard_hv_words(board: *const Board, words: *mut Words) -> u32;
    pub fn clockboard_hv_reading(
        rates: *const Rates,
        words: *const Words,
        host: u64,
        reading: *mut u64,
    ) -> u32;
    pub fn clockboard_share_msr_write(
        board: *mut Board,
        cpu: u8,
        host: u64,
        msr: u32,
        value: u64,
        reply: *mut Reply,
    );
    pub fn clockboard_share_refresh(
        board: *mut Board,
        cpu: u8,
        host: u64,
        page: u8,
        reply: *mut Reply,
    );
}
