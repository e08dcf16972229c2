// SPDX-License-Identifier: Apache-2.0 OR MIT
//! How a monitor uses a board: exits of a guest, here a list, go to the board at the time at which they come, and one timer
//! stands at the next edge.
use clockboard::{Access, Board, Error, Reply};

/// An exit of the guest: the count of the host's counter, and what the guest did.
const EXITS: [(u64, Access); 4] = [
    (
        0,
        Access::PortWrite {
            port: 0x43,
            byte: 0x34,
        },
    ),
    (
        100,
        Access::PortWrite {
            port: 0x40,
            byte: 4,
        },
    ),
    (
        200,
        Access::PortWrite {
            port: 0x40,
            byte: 0,
        },
    ),
    (12_000, Access::PortRead { port: 0x40 }),
];

fn main() -> Result<(), Error> {
    let mut board = Board::default();
    for (host, access) in EXITS {
        // The timer goes off at each edge before the exit.
        while let Some(alarm) = board.next_edge().and_then(|at| board.counter_of(at)) {
            if alarm > host {
                break;
            }
            let reply = board.access(0, alarm, Access::Step)?;
            deliver(&reply);
            // The guest's handler ends its interrupt at once.
            let reply = board.access(0, alarm, Access::Acknowledge { line: 0 })?;
            deliver(&reply);
        }
        let reply = board.access(0, host, access)?;
        deliver(&reply);
        println!("{host} {access:?}: {}", reply.value());
    }
    Ok(())
}

/// What a monitor does with edges: each sets or clears an input of its interrupt controller.
fn deliver(reply: &Reply) {
    for edge in reply.edges() {
        println!(
            "{} line {} {}",
            edge.at_ns,
            edge.line,
            if edge.up { "up" } else { "down" }
        );
    }
}
