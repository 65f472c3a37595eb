//! The monitor of examples/monitor.c in Rust: it prints the same.
use x86emu::{Access, End, Machine, Refused, Region, PORT};

const SERIAL: u64 = 0x3F8;
const DISK: u64 = 0x1F0;

const SECTOR: &[u8] = &[
    0xBA, 0xF0, 0x01, 0xED, 0xBA, 0xF8, 0x03, 0xB9, 0x03, 0x00, 0xBE, 0x17, 0x7C, 0xF3, 0x6E, 0xEE, 0x88, 0xE0, 0xEE, 0xF4, 0x90, 0x90, 0x90, b'H', b'i', b' ',
];

/// The devices: a serial port, and a disk that is ready after three times that it is asked.
#[derive(Default)]
struct Devices {
    asked: u32,
}

impl Devices {
    /// Makes an access where the device is ready.
    fn access(&mut self, a: &Access) -> Option<u64> {
        match (a.space, a.address, a.write) {
            (PORT, SERIAL, true) => {
                println!("serial: {}", a.value as u8 as char);
                Some(0)
            }
            (PORT, DISK, false) => {
                self.asked += 1;
                if self.asked > 3 {
                    return Some(0x4B4F);
                }
                println!("disk: not ready");
                None
            }
            (_, _, true) => Some(0),
            _ => Some(u64::MAX >> (64 - 8 * u32::from(a.size))),
        }
    }
}

fn main() -> Result<(), Refused> {
    let mut m = Machine::new(&[Region { start: 0, length: 0x10000 }])?;
    let mut devices = Devices::default();
    m.write(0x7C00, SECTOR)?;
    let mut cpu = m.cpu();
    cpu.rip = 0x7C00;
    m.set_cpu(&cpu)?;
    let (number, retire) = loop {
        match m.run(1)?.1 {
            End::Pending(a) => {
                if let Some(value) = devices.access(&a) {
                    m.answer(value)?;
                }
            }
            End::Done { retire, .. } if retire & 4 != 0 => break (1, retire),
            End::Done { .. } => {}
            other => panic!("the guest ended with {other:?}"),
        }
    };
    let cpu = m.cpu();
    println!("end {number}, retire {retire}, rip {:x}, ax {:x}, cx {:x}", cpu.rip, cpu.gpr[0] & 0xFFFF, cpu.gpr[1]);
    Ok(())
}
