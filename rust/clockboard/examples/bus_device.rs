// SPDX-License-Identifier: Apache-2.0 OR MIT
//! A board as devices of a monitor's buses: the traits have the shape of those of rust-vmm's crate vm-device, and none of its
//! code. A bus hands an exit to its device by the base of the device's range and an offset in it.
use clockboard::{Access, Board, Error, Reply, Setup};
use std::sync::{Arc, Mutex};

/// A device on the bus of ports, shared by the threads of all processors.
trait DevicePio {
    fn pio_read(&self, base: u16, offset: u16, data: &mut [u8]);
    fn pio_write(&self, base: u16, offset: u16, data: &[u8]);
}

/// A device in memory.
trait DeviceMmio {
    fn mmio_read(&self, base: u64, offset: u64, data: &mut [u8]);
    fn mmio_write(&self, base: u64, offset: u64, data: &[u8]);
}

/// The board with what it is wired to: a counter of the host's, and inputs of the interrupt controller.
struct TimeHardware<Counter, Input> {
    wired: Mutex<(Board, Input)>,
    counter: Counter,
}

impl<Counter: Fn() -> u64, Input: FnMut(u8, bool)> TimeHardware<Counter, Input> {
    /// One access; the edges go to the inputs before the lock is given up, so in the order of time. These devices have one time
    /// for all processors, so processor 0 stands for each.
    fn access(&self, access: Access) -> Result<Reply, Error> {
        let (board, input) = &mut *self.wired.lock().expect("no access panics");
        let reply = board.access(0, (self.counter)(), access)?;
        for edge in reply.edges() {
            input(edge.line, edge.up);
        }
        Ok(reply)
    }
}

/// A wide access to ports is one of its bytes each, at the ports that follow. What no board takes floats high.
impl<Counter: Fn() -> u64, Input: FnMut(u8, bool)> DevicePio for TimeHardware<Counter, Input> {
    fn pio_read(&self, base: u16, offset: u16, data: &mut [u8]) {
        for (port, byte) in (base + offset..).zip(data) {
            *byte = self
                .access(Access::PortRead { port })
                .map_or(0xff, |reply| reply.value() as u8);
        }
    }

    fn pio_write(&self, base: u16, offset: u16, data: &[u8]) {
        for (port, &byte) in (base + offset..).zip(data) {
            // A refused write changes nothing.
            let _ = self.access(Access::PortWrite { port, byte });
        }
    }
}

/// The HPET, mapped at `base`. A width that isn't a register's is refused by the board.
impl<Counter: Fn() -> u64, Input: FnMut(u8, bool)> DeviceMmio for TimeHardware<Counter, Input> {
    fn mmio_read(&self, _base: u64, offset: u64, data: &mut [u8]) {
        let access = u16::try_from(offset).map(|offset| Access::HpetRead {
            offset,
            width: data.len() as u8,
        });
        let value = access
            .ok()
            .and_then(|access| self.access(access).ok())
            .map_or(u64::MAX, |reply| reply.value());
        for (byte, of_value) in data.iter_mut().zip(value.to_le_bytes()) {
            *byte = of_value;
        }
    }

    fn mmio_write(&self, _base: u64, offset: u64, data: &[u8]) {
        let mut bytes = [0; 8];
        if let (Ok(offset), Some(room)) = (u16::try_from(offset), bytes.get_mut(..data.len())) {
            room.copy_from_slice(data);
            let _ = self.access(Access::HpetWrite {
                offset,
                width: data.len() as u8,
                value: u64::from_le_bytes(bytes),
            });
        }
    }
}

fn main() -> Result<(), Box<dyn std::error::Error>> {
    let host = Arc::new(Mutex::new(0));
    let counter = {
        let host = Arc::clone(&host);
        move || *host.lock().expect("no reader panics")
    };
    let levels = Arc::new(Mutex::new(Vec::new()));
    let input = {
        let levels = Arc::clone(&levels);
        move |line, up| levels.lock().expect("no writer panics").push((line, up))
    };
    let board = Board::power_on(&Setup::default())?;
    let device = TimeHardware {
        wired: Mutex::new((board, input)),
        counter,
    };
    // Counter 0 of the 8254 in mode 2 with count 4, and the HPET's counter by an access of 8 bytes.
    device.pio_write(0x40, 3, &[0x34]);
    device.pio_write(0x40, 0, &[4]);
    device.pio_write(0x40, 0, &[0]);
    device.mmio_write(0xfed0_0000, 0x10, &1_u64.to_le_bytes());
    *host.lock().expect("no reader panics") = 5_000;
    let (mut count, mut main_counter) = ([0; 1], [0; 8]);
    device.pio_read(0x40, 0, &mut count);
    device.mmio_read(0xfed0_0000, 0xf0, &mut main_counter);
    assert_eq!(
        (count, levels.lock().expect("no writer panics").as_slice()),
        ([4], &[(0, true)][..])
    );
    println!(
        "counter 0 {}, HPET {}",
        count[0],
        u64::from_le_bytes(main_counter)
    );
    Ok(())
}
