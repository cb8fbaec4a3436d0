//! A call as data, and all that it gave.

use crate::module::{Event, Module, Refused};
use pch_pic::axdevice::AccessWidth;

#[derive(Clone, Copy, Debug)]
pub enum Step {
    Level { irq: usize, level: bool },
    Pending { irq: usize },
    Read { addr: usize, width: AccessWidth },
    Write { addr: usize, width: AccessWidth, val: usize },
    Take,
}

#[derive(Clone, Debug)]
pub enum Call {
    Step(Step),
    /// A drain whose closure makes one of these steps at each event, while there are any left.
    Drain {
        within: Vec<Step>,
    },
}

#[derive(Clone, Debug, PartialEq, Eq)]
pub enum Gave {
    Vector(Option<usize>),
    Read(Result<usize, Refused>),
    Write(Result<(), Refused>),
    Taken(Option<Event>),
    Handed(Event),
}

impl Step {
    fn make(self, module: &impl Module) -> Gave {
        match self {
            Step::Level { irq, level } => Gave::Vector(module.set_irq_level(irq, level)),
            Step::Pending { irq } => Gave::Vector(module.pending_vector(irq)),
            Step::Read { addr, width } => Gave::Read(module.read_register(addr, width)),
            Step::Write { addr, width, val } => Gave::Write(module.write_register(addr, width, val)),
            Step::Take => Gave::Taken(module.take_output_event()),
        }
    }
}

impl Call {
    /// The outcomes in order, those of the steps within a drain among the events that it hands over.
    pub fn make(&self, module: &impl Module, gave: &mut Vec<Gave>) {
        match self {
            Call::Step(step) => gave.push(step.make(module)),
            Call::Drain { within } => {
                let mut left = within.iter();
                module.drain_output_events(|event| {
                    gave.push(Gave::Handed(event));
                    gave.extend(left.next().map(|step| step.make(module)));
                });
            }
        }
    }
}
