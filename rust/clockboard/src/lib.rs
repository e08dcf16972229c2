// SPDX-License-Identifier: Apache-2.0 OR MIT
//! The time hardware of a PC guest for a virtual machine monitor: Intel 8254, MC146818, HPET, the guest's TSC, pvclock
//! pages, timers of local APICs, and Hyper-V's reference page, over the library `clockboard_c`, whose calls are proved to do what the data sheets say.
//!
//! ```
//! use clockboard::{Access, Board, Setup};
//!
//! let mut board = Board::power_on(&Setup::default())?;
//! for byte in [4, 0] {
//!     board.access(0, 0, Access::PortWrite { port: 0x40, byte })?;
//! }
//! let reply = board.access(0, 5_000, Access::PortRead { port: 0x40 })?;
//! assert_eq!(reply.number(), 3);
//! # Ok::<(), clockboard::Error>(())
//! ```
//!
//! A [`Board`] holds no pointer and no lock: it is moved and copied as any value, and a monitor with several threads keeps
//! it behind a lock of its own. Clocks are read without that lock by its [`Pages`]. The crate takes no memory but in [`Board::save`], where the library takes some by the C
//! library's `malloc` and gives it back.
#![no_std]
#![warn(missing_docs)]

mod access;
mod board;
mod error;
mod ffi;
mod reply;
mod shared;

pub use access::{Access, Policy, Setup, TickSource};
pub use board::Board;
pub use error::{Error, StateFault};
pub use reply::{Burst, Clock, Counts, Edge, HvPage, Page, Reply, Tsc, View, Wall};
pub use shared::Pages;
