// A module by its functions (`Direct`), and by the bus front that its factory builds (`Front`), whose sink gets the events within the access. The file is
// included twice: `text` is the published module there, or the module after the swap.

use crate::bus::{Context, Controller, Told, refused, theirs};
use crate::module::{Event, Module, Refused};
use axdevice_base::{BusKind, Device, DeviceAccess, VirtualInterruptController};
use pch_pic::axdevice::AccessWidth;
use std::cell::Cell;
use std::sync::{Arc, Mutex};
use text::{DeviceManagerResult, DeviceModel, LoongArchInterruptDomainFactory, LoongArchPchPic, LoongArchPchPicFactory};
use text::{PchPicOutputEvent, PchPicOutputPort, PchPicOutputSink};

fn plain(event: PchPicOutputEvent) -> Event {
    (event.vector, event.asserted)
}

pub struct Direct {
    pic: LoongArchPchPic,
    warnings: Cell<u64>,
}

impl Direct {
    pub fn new(base: usize, size: usize) -> Self {
        Direct { pic: LoongArchPchPic::new(base.into(), size), warnings: Cell::new(0) }
    }
}

impl Module for Direct {
    fn set_irq_level(&self, irq: usize, level: bool) -> Option<usize> {
        self.pic.set_irq_level(irq, level)
    }

    fn pending_vector(&self, irq: usize) -> Option<usize> {
        self.pic.pending_vector(irq)
    }

    fn drain_output_events(&self, mut f: impl FnMut(Event)) {
        self.pic.drain_output_events(|event| f(plain(event)));
    }

    fn take_output_event(&self) -> Option<Event> {
        PchPicOutputPort::take_output_event(&self.pic).map(plain)
    }

    fn read_register(&self, addr: usize, width: AccessWidth) -> Result<usize, Refused> {
        self.pic.read_register(addr.into(), theirs(width)).map_err(refused)
    }

    fn write_register(&self, addr: usize, width: AccessWidth, val: usize) -> Result<(), Refused> {
        text::take_warnings();
        let done = self.pic.write_register(addr.into(), theirs(width), val).map_err(refused);
        self.warnings.set(self.warnings.get() + text::take_warnings());
        done
    }

    fn drops(&self) -> u64 {
        self.warnings.get()
    }
}

/// What the factory handed to the domain and to the sink.
#[derive(Default)]
struct Seen {
    pic: Mutex<Option<Arc<LoongArchPchPic>>>,
    events: Mutex<Vec<Event>>,
}

impl LoongArchInterruptDomainFactory for Seen {
    fn create(&self, pic: Arc<LoongArchPchPic>) -> Arc<dyn VirtualInterruptController> {
        *self.pic.lock().unwrap() = Some(pic);
        Arc::new(Controller)
    }
}

impl PchPicOutputSink for Seen {
    fn publish(&self, event: PchPicOutputEvent) -> DeviceManagerResult {
        self.events.lock().unwrap().push(plain(event));
        Ok(())
    }
}

pub struct Front {
    device: Arc<dyn Device>,
    seen: Arc<Seen>,
    warnings: Cell<u64>,
}

impl Front {
    pub fn new(base: usize, size: usize) -> Self {
        let seen = Arc::new(Seen::default());
        let factory = LoongArchPchPicFactory::new(base, size, seen.clone(), seen.clone());
        let bundle = factory.build(&mut text::DeviceBuildContext::new(base as u64, size as u64)).expect("the range is the factory's own");
        Front { device: bundle.device(), seen, warnings: Cell::new(0) }
    }

    fn pic(&self) -> Arc<LoongArchPchPic> {
        self.seen.pic.lock().unwrap().clone().expect("the factory made it")
    }

    pub fn told(&self) -> Told {
        let elsewhere = DeviceAccess::new(BusKind::Other, 0x20, axdevice_base::AccessWidth::Dword);
        Told {
            name: self.device.name().into(),
            resources: format!("{:?}", self.device.resources()),
            elsewhere: [
                self.device.read(&elsewhere, &mut Context).err().map(refused),
                self.device.write(&elsewhere, 0, &mut Context).err().map(refused),
            ],
        }
    }
}

impl Module for Front {
    fn set_irq_level(&self, irq: usize, level: bool) -> Option<usize> {
        self.pic().set_input_level(irq, level)
    }

    fn pending_vector(&self, irq: usize) -> Option<usize> {
        self.pic().pending_vector(irq)
    }

    /// What the sink was handed since the last drain. Nothing waits behind it.
    fn drain_output_events(&self, f: impl FnMut(Event)) {
        let events = std::mem::take(&mut *self.seen.events.lock().unwrap());
        events.into_iter().for_each(f);
    }

    fn take_output_event(&self) -> Option<Event> {
        PchPicOutputPort::take_output_event(&*self.pic()).map(plain)
    }

    fn read_register(&self, addr: usize, width: AccessWidth) -> Result<usize, Refused> {
        let access = DeviceAccess::new(BusKind::Mmio, addr as u64, theirs(width));
        self.device.read(&access, &mut Context).map(|value| value as usize).map_err(refused)
    }

    fn write_register(&self, addr: usize, width: AccessWidth, val: usize) -> Result<(), Refused> {
        let access = DeviceAccess::new(BusKind::Mmio, addr as u64, theirs(width));
        text::take_warnings();
        let done = self.device.write(&access, val as u64, &mut Context).map_err(refused);
        self.warnings.set(self.warnings.get() + text::take_warnings());
        done
    }

    fn drops(&self) -> u64 {
        self.warnings.get()
    }
}
