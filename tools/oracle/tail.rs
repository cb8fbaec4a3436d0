
// ---- Appended by tools/oracle/build. Everything above is the published text, byte for byte. This tail only reads and sets its private
// fields, so that a test can look at the state and start from any.

/// All that the device keeps: the registers, the tables, and the ring's events in order, the oldest first, with its head and length.
#[derive(Clone, Copy, Debug, PartialEq, Eq)]
pub struct Plain {
    pub int_mask: u64,
    pub htmsi_en: u64,
    pub intedge: u64,
    pub last_intirr: u64,
    pub intirr: u64,
    pub intisr: u64,
    pub int_polarity: u64,
    pub auto_ctrl0: u64,
    pub auto_ctrl1: u64,
    pub route_entry: [u8; PCH_PIC_IRQ_COUNT],
    pub htmsi_vector: [u8; PCH_PIC_IRQ_COUNT],
    pub events: [Option<PchPicOutputEvent>; PCH_PIC_OUTPUT_QUEUE_CAPACITY],
    pub output_head: usize,
    pub output_len: usize,
}

impl LoongArchPchPic {
    pub fn plain(&self) -> Plain {
        let state = self.state.lock_irqsave();
        let mut events = [None; PCH_PIC_OUTPUT_QUEUE_CAPACITY];
        for (age, event) in events.iter_mut().enumerate() {
            *event = state.output_events[(state.output_head + age) % PCH_PIC_OUTPUT_QUEUE_CAPACITY];
        }
        Plain {
            int_mask: state.int_mask,
            htmsi_en: state.htmsi_en,
            intedge: state.intedge,
            last_intirr: state.last_intirr,
            intirr: state.intirr,
            intisr: state.intisr,
            int_polarity: state.int_polarity,
            auto_ctrl0: state.auto_ctrl0,
            auto_ctrl1: state.auto_ctrl1,
            route_entry: state.route_entry,
            htmsi_vector: state.htmsi_vector,
            events,
            output_head: state.output_head,
            output_len: state.output_len,
        }
    }

    pub fn set_plain(&self, plain: &Plain) {
        let mut state = self.state.lock_irqsave();
        state.int_mask = plain.int_mask;
        state.htmsi_en = plain.htmsi_en;
        state.intedge = plain.intedge;
        state.last_intirr = plain.last_intirr;
        state.intirr = plain.intirr;
        state.intisr = plain.intisr;
        state.int_polarity = plain.int_polarity;
        state.auto_ctrl0 = plain.auto_ctrl0;
        state.auto_ctrl1 = plain.auto_ctrl1;
        state.route_entry = plain.route_entry;
        state.htmsi_vector = plain.htmsi_vector;
        for (age, event) in plain.events.iter().enumerate() {
            let slot = (plain.output_head + age) % PCH_PIC_OUTPUT_QUEUE_CAPACITY;
            state.output_events[slot] = *event;
        }
        state.output_head = plain.output_head;
        state.output_len = plain.output_len;
    }

    /// The published reset state, as a new device has it.
    pub fn reset(&self) {
        *self.state.lock_irqsave() = PchPicState::default();
    }

    /// Moves the window of a device that is there already: a new device would allocate.
    pub fn set_window(&mut self, base: usize, size: usize) {
        self.base = GuestPhysAddr::from_usize(base);
        self.size = size;
    }
}
