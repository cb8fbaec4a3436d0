//! Guests that no driver would write, and what a host makes of them: after each step the vectors that are on above are those of the inputs
//! in service.

use pch_pic::{reg, Change, Error, Form, PchPic, Width, Window, Wires, EVENTS, INPUTS, VECTORS};

const WINDOW: Window = Window::at(0);
const WIDTHS: [Width; 4] = [Width::Byte, Width::Word, Width::Dword, Width::Qword];

/// The controller above: which vectors are on, how often it was told something, and how often what it knew; and the numbers of the events that told it.
#[derive(Default)]
struct Above {
    on: Vec<u8>,
    told: usize,
    again: usize,
    numbers: Vec<Option<u16>>,
}

impl Above {
    fn route(&mut self, change: Change) {
        self.told += 1;
        self.numbers.push(change.number);
        self.again += usize::from(self.on.contains(&change.vector) == change.asserted);
        self.on.retain(|vector| *vector != change.vector);
        if change.asserted {
            self.on.push(change.vector);
            self.on.sort_unstable();
        }
    }
}

struct Host {
    pic: PchPic,
    wires: Wires,
    above: Above,
}

impl Host {
    fn new(pic: PchPic) -> Self {
        Host { pic, wires: Wires::new(), above: Above::default() }
    }

    /// The device after reset, all unmasked.
    fn unmasked() -> Self {
        let mut host = Host::new(PchPic::new());
        host.writes(reg::MASK, Width::Qword, 0);
        host
    }

    fn writes(&mut self, offset: u64, width: Width, value: u64) {
        self.pic.write(WINDOW, offset, width, value).unwrap();
        self.settle();
    }

    fn settle(&mut self) {
        self.wires.settle(&mut self.pic, |change| self.above.route(change));
        self.in_line();
    }

    fn line(&mut self, input: u64, high: bool) {
        self.wires.line(&mut self.pic, input, high, |change| self.above.route(change)).unwrap();
        self.in_line();
    }

    fn pulse(&mut self, input: u64) {
        self.line(input, true);
        self.line(input, false);
    }

    /// The same device below a new controller, by way of a form.
    fn loaded(self, form: Form) -> Self {
        let mut host = Host::new(PchPic::load(form, &self.pic.save(form)).unwrap());
        host.resume(self.wires.high());
        host
    }

    fn resume(&mut self, high: u64) {
        self.wires.resume(&mut self.pic, high, |change| self.above.route(change));
        self.in_line();
    }

    /// The vectors that ought to be on, found out by calls alone: on a copy, lowering an input returns its vector if it was in service.
    fn in_line(&self) {
        let mut copy = self.pic.clone();
        let lowered = (0..INPUTS as u64).flat_map(|input| copy.set_level(input, false).unwrap());
        let mut want: Vec<u8> = lowered.map(|event| event.vector).collect();
        want.sort_unstable();
        want.dedup();
        assert_eq!(self.above.on, want);
        assert_eq!(self.wires.vectors_on().collect::<Vec<_>>(), want);
        let masked = self.pic.read(WINDOW, reg::MASK, Width::Qword).unwrap();
        let edges = self.pic.read(WINDOW, reg::EDGE, Width::Qword).unwrap();
        let waits = (self.wires.high() & !edges | self.pic.latched()) & !masked & !self.pic.in_service();
        assert_eq!(waits, 0, "what is high and no edge, or latched, and unmasked, is in service");
    }

    #[track_caller]
    fn expect(&self, on: &[u8], told: usize, again: usize) {
        assert_eq!((&self.above.on[..], self.above.told, self.above.again), (on, told, again));
    }
}

#[test]
fn a_vector_changed_in_service() {
    let mut host = Host::unmasked();
    host.line(0, true);
    host.expect(&[0], 1, 0);
    host.writes(reg::VECTORS, Width::Byte, 0x77);
    host.expect(&[0x77], 3, 0);
    host.line(0, false);
    host.expect(&[], 4, 0);
    // What the change of the vector made of it no event told.
    assert_eq!(host.above.numbers, [Some(0), None, None, Some(1)]);
}

#[test]
fn a_write_of_isr() {
    let mut host = Host::new(PchPic::new());
    host.writes(reg::ISR, Width::Qword, 0x8000_0000_0000_0020);
    assert_eq!(host.pic.read(WINDOW, reg::ISR, Width::Qword), Ok(0));
    host.expect(&[5, 63], 2, 0);
    host.line(5, false);
    host.expect(&[63], 3, 0);
    host.writes(reg::ISR, Width::Qword, 0);
    host.expect(&[], 4, 0);
    host.writes(reg::MASK, Width::Qword, 0);
    host.line(9, true);
    host.writes(reg::ISR, Width::Qword, 0);
    host.expect(&[9], 7, 0); // still high: off, and on again
    host.line(9, false);
    host.expect(&[], 8, 0);
}

#[test]
fn a_shared_vector() {
    let mut host = Host::unmasked();
    host.writes(reg::VECTORS + 1, Width::Byte, 0);
    host.line(0, true);
    host.line(1, true);
    host.expect(&[0], 2, 1); // the second input asks again
    host.line(0, false);
    host.expect(&[0], 2, 1);
    host.line(0, true);
    host.writes(reg::VECTORS + 1, Width::Byte, 1);
    host.expect(&[0, 1], 4, 2);
    host.writes(reg::VECTORS + 1, Width::Byte, 0);
    host.expect(&[0], 5, 2);
    host.writes(reg::MASK, Width::Dword, 3);
    host.expect(&[], 6, 2);
}

/// Inputs that are latched, though no line of the wires is high: the unmask announces one of each half, and the sweep wakes the others.
#[test]
fn one_sweep() {
    let mut host = Host::new(PchPic::new());
    for input in [3, 5, 40, 63] {
        assert_eq!(host.pic.set_level(input, true).unwrap(), None);
    }
    host.writes(reg::MASK, Width::Qword, 0);
    host.expect(&[3, 5, 40, 63], 4, 0);
    host.writes(reg::ISR, Width::Qword, 0);
    host.expect(&[3, 5, 40, 63], 12, 0); // off, and on again
    host.settle();
    host.expect(&[3, 5, 40, 63], 12, 0);
    host.writes(reg::MASK, Width::Qword, u64::MAX);
    host.expect(&[], 16, 0);
}

#[test]
fn dropped_events() {
    let mut host = Host::unmasked();
    for input in 0..32 {
        host.line(input, true);
    }
    host.writes(reg::MASK, Width::Dword, 0xffff_ffff);
    assert_eq!((host.pic.drops(), host.pic.waiting()), (16, 0));
    host.expect(&[], 64, 0);
    host.writes(reg::MASK, Width::Dword, 0);
    let all: Vec<u8> = (0..32).collect();
    host.expect(&all, 96, 0);
    host.writes(reg::CLEAR, Width::Dword, 0xffff_ffff);
    assert_eq!(host.pic.drops(), 32);
    host.expect(&all, 160, 0); // all off and on again, the dropped ones too
    host.pic.reset();
    host.settle();
    host.expect(&[], 192, 0);
    assert_eq!(host.pic.latched(), 0xffff_ffff);
}

/// Saved: 2 in service, its line falls before the load; 3 too, its line stays; 40 in service and masked; 7 unmasked, its event waits.
fn saved() -> PchPic {
    let mut host = Host::new(PchPic::new());
    host.writes(reg::MASK, Width::Qword, 0xffff_ffff_ffff_ff80);
    for input in [2, 3, 7] {
        host.line(input, true);
    }
    host.writes(reg::ISR + reg::HIGH, Width::Dword, 0x100);
    host.pic.write(WINDOW, reg::MASK, Width::Dword, 0xffff_ff00).unwrap();
    assert_eq!(host.pic.waiting(), 1);
    host.pic
}

#[test]
fn a_restore_into_a_fresh_host() {
    for form in [Form::One, Form::Two, Form::Numbered] {
        let mut host = Host::new(PchPic::load(form, &saved().save(form)).unwrap());
        host.resume(1 << 3 | 1 << 7);
        host.expect(&[3, 7, 40], 3, 0);
        assert_eq!((host.pic.latched(), host.wires.high()), (1 << 3 | 1 << 7, 1 << 3 | 1 << 7));
        // The waiting assert of 7 kept its number where the form has numbers, else it is the first.
        let number = if form == Form::Numbered { 2 } else { 0 };
        assert_eq!(host.above.numbers, [Some(number), None, None]);
    }
}

#[test]
fn a_restore_below_a_controller_that_was_restored() {
    let mut host = Host::new(saved());
    host.above.on = vec![2, 40];
    host.wires.assume(2, true);
    host.wires.assume(40, true);
    assert_eq!(format!("{:?}", host.wires), "Wires { high: 0x0000000000000000, on: [2, 40] }");
    host.resume(1 << 3 | 1 << 7);
    host.expect(&[3, 7, 40], 3, 0);
}

#[test]
fn there_is_no_input_64() {
    let mut host = Host::unmasked();
    let before = host.wires.clone();
    for input in [64, u64::MAX] {
        assert_eq!(host.wires.line(&mut host.pic, input, true, |_| unreachable!()), Err(Error::Input));
    }
    assert_eq!(host.wires, before);
    assert_eq!(host.wires, Wires::default());
}

/// A small generator, so that each run tries the same guests.
fn dice(mut state: u64) -> impl FnMut() -> u64 {
    move || {
        state ^= state << 13;
        state ^= state >> 7;
        state ^= state << 17;
        state
    }
}

#[test]
fn any_guest() {
    let mut chance = dice(0x9e37_79b9_7f4a_7c15);
    let mut host = Host::new(PchPic::new());
    for _ in 0..2000 {
        host.above.told = 0;
        match chance() % 16 {
            0..=7 => host.line(chance() % 64, chance() % 2 == 0),
            8..=14 => {
                let place = [reg::MASK, reg::CLEAR, reg::ISR, reg::VECTORS, reg::EDGE][(chance() % 5) as usize];
                let offset = place + chance() % if place == reg::VECTORS { 64 } else { 8 };
                host.writes(offset, WIDTHS[(chance() % 4) as usize], chance() & chance() & chance());
            }
            _ => {
                host = host.loaded([Form::One, Form::Two, Form::Numbered][(chance() % 3) as usize]);
            }
        }
        assert!(host.above.told <= EVENTS + VECTORS + INPUTS);
    }
}

/// Polls of those who wait, and raises of lines whose latch is gone, come to the same as polls of all 64 and raises of all lines: the same events with the same
/// numbers, and the same device.
#[test]
fn the_other_polls_do_nothing() {
    let mut chance = dice(0x2545_f491_4f6c_dd1d);
    let (mut pic, mut waited, mut polled) = (PchPic::new(), 0, 0);
    for _ in 0..2000 {
        let place = [reg::MASK, reg::MASK, reg::CLEAR, reg::ISR][(chance() % 4) as usize];
        pic.write(WINDOW, place, Width::Qword, chance() & chance()).unwrap();
        let _ = pic.set_level(chance() % 64, chance() % 4 != 0).unwrap();
        let (set, high, mut all) = (pic.waiting_inputs(), chance() & chance(), pic.clone());
        let [mut some_told, mut all_told] = [Vec::new(), Vec::new()];
        for input in 0..64 {
            all_told.extend(all.poll(input).unwrap().event());
            if set >> input & 1 == 1 {
                some_told.extend(pic.poll(input).unwrap().event());
                polled += 1;
            }
        }
        assert_eq!((&some_told, pic.waiting_inputs()), (&all_told, 0));
        assert_eq!(some_told.len() as u32, set.count_ones());
        let latched = pic.latched();
        for input in (0..64).filter(|input| high >> input & 1 == 1) {
            all_told.extend(all.set_level(input, true).unwrap().event());
            if latched >> input & 1 == 0 {
                some_told.extend(pic.set_level(input, true).unwrap().event());
            }
        }
        assert_eq!((&some_told, &pic), (&all_told, &all));
        waited += usize::from(set != 0);
        let _ = pic.drain_events().count();
    }
    assert!(waited > 500 && polled > 2000, "{waited} {polled}");
}

/// An unmasked input 7, edge-triggered.
fn with_an_edge() -> Host {
    let mut host = Host::unmasked();
    host.writes(reg::EDGE, Width::Qword, 1 << 7);
    host
}

#[test]
fn edges_are_told_once() {
    let mut host = with_an_edge();
    for count in 0..100 {
        host.pulse(7);
        host.expect(&[7], 2 * count + 1, 0);
        host.writes(reg::CLEAR, Width::Dword, 1 << 7);
        host.expect(&[], 2 * count + 2, 0);
    }
    // A held edge is one edge, whatever the guest writes.
    host.line(7, true);
    host.line(7, true);
    host.expect(&[7], 201, 0);
    for _ in 0..100 {
        host.writes(reg::CLEAR, Width::Dword, 1 << 7);
        host.writes(reg::MASK, Width::Dword, 1 << 7);
        host.writes(reg::MASK, Width::Dword, 0);
    }
    host.line(7, false);
    host.expect(&[], 202, 0);
    // A second edge before the guest clears the first adds nothing.
    host.pulse(7);
    host.pulse(7);
    host.expect(&[7], 203, 0);
    host.writes(reg::CLEAR, Width::Dword, 1 << 7);
    host.writes(reg::MASK, Width::Dword, 1 << 7);
    host.pulse(7);
    host.expect(&[], 204, 0);
    host.writes(reg::MASK, Width::Dword, 0);
    host.expect(&[7], 205, 0);
    host.pic.reset();
    host.settle();
    host.expect(&[], 206, 0);
}

#[test]
fn level_to_edge_and_back() {
    let mut host = Host::unmasked();
    host.line(7, true);
    host.writes(reg::EDGE, Width::Qword, 1 << 7);
    host.line(7, false);
    host.expect(&[7], 1, 0); // an edge now: it stays
    host.writes(reg::EDGE, Width::Qword, 0);
    host.expect(&[], 2, 0); // a level again: it follows its line
    host.writes(reg::EDGE, Width::Qword, 1 << 7);
    host.line(7, true);
    host.writes(reg::CLEAR, Width::Qword, 1 << 7);
    host.expect(&[], 4, 0);
    host.writes(reg::EDGE, Width::Qword, 0);
    host.expect(&[7], 5, 0);
    host.writes(reg::CLEAR, Width::Qword, 1 << 7);
    host.expect(&[7], 7, 0); // a level that is cleared comes again
    host.line(7, false);
    host.writes(reg::MASK, Width::Qword, u64::MAX);
    host.writes(reg::EDGE, Width::Qword, 1 << 7);
    host.pulse(7);
    host.writes(reg::EDGE, Width::Qword, 0);
    host.writes(reg::MASK, Width::Qword, 0);
    host.expect(&[], 8, 0);
}

/// Saved: 3 latched and masked, its line fell; 4 in service, its line fell; 5 served, its line held; 6 not yet risen.
#[test]
fn edges_across_a_load() {
    for form in [Form::One, Form::Two, Form::Numbered] {
        let mut old = Host::new(PchPic::new());
        old.writes(reg::EDGE, Width::Qword, 0x78);
        old.writes(reg::MASK, Width::Qword, !0x70);
        old.pulse(3);
        old.pulse(4);
        old.line(5, true);
        old.writes(reg::CLEAR, Width::Qword, 1 << 5);
        let mut host = Host::new(PchPic::load(form, &old.pic.save(form)).unwrap());
        host.resume(old.wires.high());
        host.expect(&[4], 1, 0);
        assert_eq!(host.pic.latched(), 0x18);
        host.line(6, true);
        host.expect(&[4, 6], 2, 0);
        host.writes(reg::MASK, Width::Qword, !0x78);
        host.expect(&[3, 4, 6], 3, 0);
        host.writes(reg::CLEAR, Width::Qword, 0x78);
        host.expect(&[], 6, 0);
        host.writes(reg::EDGE, Width::Qword, 0);
        host.expect(&[5, 6], 8, 0);
    }
}

/// Guests that flip EDGE at any time. What is latched is worked out beside the device: a level's latch is its line; an edge's comes with a rise, and goes with a
/// CLEAR or as it becomes a level while its line is low.
#[test]
fn any_flip_of_edge() {
    let mut chance = dice(0x2545_f491_4f6c_dd1d);
    let mut host = Host::new(PchPic::new());
    let (mut edges, mut latched) = (0_u64, 0_u64);
    for _ in 0..4000 {
        let half = chance() % 2 * 32;
        let bits = (chance() & chance() & chance() & 0xffff_ffff) << half;
        let mut write = |register| host.writes(register + half / 8, Width::Dword, bits >> half);
        match chance() % 16 {
            0 | 1 => {
                edges = edges & !(0xffff_ffff << half) | bits;
                write(reg::EDGE);
            }
            2 | 3 => {
                latched &= !bits;
                write(reg::CLEAR);
            }
            4 | 5 => write(reg::MASK),
            6 => host = host.loaded([Form::One, Form::Two, Form::Numbered][(chance() % 3) as usize]),
            7 if chance() % 8 == 0 => {
                (edges, latched) = (0, 0);
                host.pic.reset();
                host.settle();
            }
            _ => {
                let (input, high) = (chance() % 64, chance() % 2 == 0);
                latched |= u64::from(high && host.wires.high() >> input & 1 == 0) << input;
                host.line(input, high);
            }
        }
        latched = latched & edges | host.wires.high() & !edges;
        let masked = host.pic.read(WINDOW, reg::MASK, Width::Qword).unwrap();
        assert_eq!((host.pic.latched(), host.pic.in_service()), (latched, latched & !masked));
    }
}
