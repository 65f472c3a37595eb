//! Safe Rust over `include/x86emu.h`: a machine that ends itself, and each end of a run as an enum. No `unsafe` outside this file.
use std::fmt;
use std::os::raw::c_void;

#[repr(C)]
#[derive(Clone, Copy, Debug, Default, PartialEq, Eq)]
pub struct Region {
    pub start: u64,
    pub length: u64,
}

#[repr(C)]
#[derive(Clone, Copy, Debug, Default, PartialEq, Eq)]
pub struct Segment {
    pub base: u64,
    pub limit: u32,
    pub selector: u16,
    pub attributes: u16,
}

#[repr(C)]
#[derive(Clone, Copy, Debug, Default, PartialEq, Eq)]
pub struct Table {
    pub base: u64,
    pub limit: u16,
}

#[repr(C)]
#[derive(Clone, Copy, Debug, Default, PartialEq, Eq)]
pub struct Cpu {
    pub gpr: [u64; 16],
    pub rip: u64,
    pub rflags: u64,
    pub es: Segment,
    pub cs: Segment,
    pub ss: Segment,
    pub ds: Segment,
    pub fs: Segment,
    pub gs: Segment,
    pub ldtr: Segment,
    pub tr: Segment,
    pub gdtr: Table,
    pub idtr: Table,
    pub cr0: u64,
    pub cr2: u64,
    pub cr3: u64,
    pub cr4: u64,
    pub cr8: u64,
    pub efer: u64,
    pub kgs: u64,
    pub cpl: u8,
}

#[repr(C)]
#[derive(Clone, Copy, Debug, Default, PartialEq, Eq)]
pub struct Access {
    pub address: u64,
    pub value: u64,
    pub space: u32,
    pub size: u8,
    pub write: bool,
}

pub const MEM: u32 = 0;
pub const PORT: u32 = 1;
pub const MSR: u32 = 2;
pub const CPUID: u32 = 3;

#[repr(C)]
#[derive(Clone, Copy, Debug, Default)]
struct RawReport {
    end: u32,
    elements: u32,
    accesses: u32,
    kind: u32,
    code: u32,
    at: u16,
    vector: u8,
    retire: u8,
    more: bool,
    has_code: bool,
    has_cr2: bool,
    has_wanted: bool,
    value: u64,
    info1: u64,
    info2: u64,
    access: Access,
    wanted: Access,
}

#[repr(C)]
struct Raw {
    live: bool,
    held: *mut c_void,
}

// The layouts that the library was built for, as the header's.
const _: () = assert!(std::mem::size_of::<Raw>() == 16 && std::mem::size_of::<Cpu>() == 368 && std::mem::size_of::<RawReport>() == 104);

extern "C" {
    fn x86emu_abi() -> u32;
    fn x86emu_create(m: *mut Raw, regions: *const Region, count: usize) -> u32;
    fn x86emu_destroy(m: *mut Raw) -> u32;
    fn x86emu_read(m: *mut Raw, address: u64, bytes: *mut u8, count: usize) -> u32;
    fn x86emu_write(m: *mut Raw, address: u64, bytes: *const u8, count: usize) -> u32;
    fn x86emu_set_cpu(m: *mut Raw, cpu: *const Cpu) -> u32;
    fn x86emu_get_cpu(m: *mut Raw, cpu: *mut Cpu) -> u32;
    fn x86emu_intercept(m: *mut Raw, name: u32) -> u32;
    fn x86emu_run(m: *mut Raw, batch: u32, report: *mut RawReport) -> u32;
    fn x86emu_answer(m: *mut Raw, value: u64) -> u32;
    fn x86emu_answer_none(m: *mut Raw) -> u32;
    fn x86emu_abandon(m: *mut Raw) -> u32;
}

/// How a run ended.
#[derive(Clone, Copy, Debug, PartialEq, Eq)]
pub enum End {
    Done { more: bool, retire: u8 },
    Pending(Access),
    Fault { vector: u8, code: Option<u32>, cr2: Option<u64> },
    Exit { code: u32, info1: u64, info2: u64 },
    Event { kind: u32, vector: u8, next: u64 },
    Handoff { kind: u32, value: u64 },
    Unhandled,
    BusFault(Access),
    Diverged { at: u16, kept: Access, wanted: Option<Access> },
}

/// Why a call was refused: the status of the header.
#[derive(Clone, Copy, Debug, PartialEq, Eq)]
pub struct Refused(pub u32);

impl fmt::Display for Refused {
    fn fmt(&self, f: &mut fmt::Formatter<'_>) -> fmt::Result {
        write!(f, "x86emu refused the call with status {}", self.0)
    }
}

impl std::error::Error for Refused {}

fn checked(status: u32) -> Result<(), Refused> {
    if status == 0 {
        Ok(())
    } else {
        Err(Refused(status))
    }
}

/// A machine, which is ended when it is dropped.
pub struct Machine {
    raw: Raw,
}

// The library proves that what a machine holds may go to another thread; calls take `&mut self`, so one at a time.
unsafe impl Send for Machine {}

impl Machine {
    pub fn new(regions: &[Region]) -> Result<Machine, Refused> {
        assert_eq!(unsafe { x86emu_abi() }, 1, "another face of x86emu");
        let mut raw = Raw { live: false, held: std::ptr::null_mut() };
        checked(unsafe { x86emu_create(&mut raw, regions.as_ptr(), regions.len()) })?;
        Ok(Machine { raw })
    }

    pub fn read(&mut self, address: u64, bytes: &mut [u8]) -> Result<(), Refused> {
        checked(unsafe { x86emu_read(&mut self.raw, address, bytes.as_mut_ptr(), bytes.len()) })
    }

    pub fn write(&mut self, address: u64, bytes: &[u8]) -> Result<(), Refused> {
        checked(unsafe { x86emu_write(&mut self.raw, address, bytes.as_ptr(), bytes.len()) })
    }

    pub fn cpu(&mut self) -> Cpu {
        let mut cpu = Cpu::default();
        unsafe { x86emu_get_cpu(&mut self.raw, &mut cpu) };
        cpu
    }

    pub fn set_cpu(&mut self, cpu: &Cpu) -> Result<(), Refused> {
        checked(unsafe { x86emu_set_cpu(&mut self.raw, cpu) })
    }

    /// Intercepts what has this number in the header's `enum x86emu_name`.
    pub fn intercept(&mut self, name: u32) -> Result<(), Refused> {
        checked(unsafe { x86emu_intercept(&mut self.raw, name) })
    }

    /// One turn: how many steps finished, and how it ended.
    pub fn run(&mut self, batch: u32) -> Result<(u32, End), Refused> {
        let mut r = RawReport::default();
        checked(unsafe { x86emu_run(&mut self.raw, batch, &mut r) })?;
        let end = match r.end {
            1 => End::Done { more: r.more, retire: r.retire },
            2 => End::Pending(r.access),
            3 => End::Fault { vector: r.vector, code: r.has_code.then_some(r.code), cr2: r.has_cr2.then_some(r.value) },
            4 => End::Exit { code: r.code, info1: r.info1, info2: r.info2 },
            5 => End::Event { kind: r.kind, vector: r.vector, next: r.value },
            6 => End::Handoff { kind: r.kind, value: r.value },
            7 => End::Unhandled,
            8 => End::BusFault(r.access),
            9 => End::Diverged { at: r.at, kept: r.access, wanted: r.has_wanted.then_some(r.wanted) },
            other => unreachable!("x86emu told the end {other}"),
        };
        Ok((r.elements, end))
    }

    pub fn answer(&mut self, value: u64) -> Result<(), Refused> {
        checked(unsafe { x86emu_answer(&mut self.raw, value) })
    }

    pub fn answer_none(&mut self) -> Result<(), Refused> {
        checked(unsafe { x86emu_answer_none(&mut self.raw) })
    }

    pub fn abandon(&mut self) {
        unsafe { x86emu_abandon(&mut self.raw) };
    }
}

impl Drop for Machine {
    fn drop(&mut self) {
        unsafe { x86emu_destroy(&mut self.raw) };
    }
}
