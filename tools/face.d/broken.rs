//! Faces that are wrong in one place each. Each has to be caught, so that a run that finds nothing says something.

use crate::module::{Event, Module, Refused};
use pch_pic::PchPic;
use pch_pic::axdevice::{AccessWidth, LoongArchPchPic};
use std::cell::RefCell;

type Face = LoongArchPchPic<RefCell<PchPic>>;

#[derive(Clone, Copy, Debug, PartialEq, Eq)]
pub enum Fault {
    LevelIgnored,
    InputsGoRound,
    PendingLatches,
    DrainOfOne,
    DrainOfThoseThatWaited,
    EventsInReverse,
    FlagTurned,
    TakeNotTaken,
    LastByteOutside,
    EndInside,
    OverhangRefused,
    AddressNotTold,
    ValueCut,
    WordAsHalfADword,
    DropsForgotten,
}

pub const FAULTS: [Fault; 15] = [
    Fault::LevelIgnored,
    Fault::InputsGoRound,
    Fault::PendingLatches,
    Fault::DrainOfOne,
    Fault::DrainOfThoseThatWaited,
    Fault::EventsInReverse,
    Fault::FlagTurned,
    Fault::TakeNotTaken,
    Fault::LastByteOutside,
    Fault::EndInside,
    Fault::OverhangRefused,
    Fault::AddressNotTold,
    Fault::ValueCut,
    Fault::WordAsHalfADword,
    Fault::DropsForgotten,
];

pub struct Broken {
    face: Face,
    end: usize,
    fault: Fault,
}

impl Broken {
    pub fn new(base: usize, size: usize, fault: Fault) -> Self {
        let size = if fault == Fault::EndInside { size.saturating_add(1) } else { size };
        let make = if fault == Fault::OverhangRefused { Face::wholly_inside } else { Face::new };
        Broken { face: make(base.into(), size), end: base.saturating_add(size), fault }
    }

    fn irq(&self, irq: usize) -> usize {
        if self.fault == Fault::InputsGoRound { irq % 64 } else { irq }
    }

    /// What an access that is refused tells of its address, and one that is not should be.
    fn outcome<T>(&self, addr: usize, done: Result<T, Refused>) -> Result<T, Refused> {
        match self.fault {
            Fault::LastByteOutside if addr.checked_add(1) == Some(self.end) => Err(Refused::OutOfRange(addr as u64)),
            Fault::AddressNotTold => done.map_err(|_| Refused::OutOfRange(0)),
            _ => done,
        }
    }

    fn waiting(&self) -> Vec<Event> {
        std::iter::from_fn(|| Module::take_output_event(&self.face)).collect()
    }
}

impl Module for Broken {
    fn set_irq_level(&self, irq: usize, level: bool) -> Option<usize> {
        self.face.set_irq_level(self.irq(irq), level || self.fault == Fault::LevelIgnored)
    }

    fn pending_vector(&self, irq: usize) -> Option<usize> {
        if self.fault == Fault::PendingLatches { self.face.set_irq_level(irq, true) } else { self.face.pending_vector(self.irq(irq)) }
    }

    fn drain_output_events(&self, mut f: impl FnMut(Event)) {
        match self.fault {
            Fault::DrainOfOne => Module::take_output_event(&self.face).into_iter().for_each(f),
            Fault::DrainOfThoseThatWaited => self.waiting().into_iter().for_each(f),
            Fault::EventsInReverse => self.waiting().into_iter().rev().for_each(f),
            Fault::FlagTurned => Module::drain_output_events(&self.face, |(vector, asserted)| f((vector, !asserted))),
            _ => Module::drain_output_events(&self.face, f),
        }
    }

    fn take_output_event(&self) -> Option<Event> {
        if self.fault == Fault::TakeNotTaken { None } else { Module::take_output_event(&self.face) }
    }

    fn read_register(&self, addr: usize, width: AccessWidth) -> Result<usize, Refused> {
        let done = match (self.fault, width) {
            (Fault::WordAsHalfADword, AccessWidth::Word) => {
                Module::read_register(&self.face, addr, AccessWidth::Dword).map(|value| value & 0xffff)
            }
            _ => Module::read_register(&self.face, addr, width),
        };
        self.outcome(addr, done)
    }

    fn write_register(&self, addr: usize, width: AccessWidth, val: usize) -> Result<(), Refused> {
        let val = if self.fault == Fault::ValueCut { val as u32 as usize } else { val };
        self.outcome(addr, Module::write_register(&self.face, addr, width, val))
    }

    fn drops(&self) -> u64 {
        if self.fault == Fault::DropsForgotten { 0 } else { Module::drops(&self.face) }
    }
}
