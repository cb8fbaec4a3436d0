//! The crate's `Wires` as a host under test: its calls for the board in C. The board has one device and one thread.

use pch_pic::{Change, Form, PchPic, Width, Window, Wires};
use std::cell::RefCell;

extern "C" {
    fn board_told(vector: u32, on: bool);
}

struct Host {
    pic: PchPic,
    wires: Wires,
    moves: usize,
}

thread_local! {
    static HOST: RefCell<Host> = RefCell::new(Host { pic: PchPic::new(), wires: Wires::new(), moves: 0 });
}

const WINDOW: Window = Window::at(0);

fn route(change: Change) {
    // SAFETY: the board's function takes any vector of a byte, and is called on the board's own thread.
    unsafe { board_told(u32::from(change.vector), change.asserted) }
}

fn with<T>(what: impl FnOnce(&mut Host) -> T) -> T {
    HOST.with(|host| what(&mut host.borrow_mut()))
}

fn width(bytes: u32) -> Width {
    Width::try_from(bytes as usize).expect("the guest's widths are 1, 2, 4 and 8")
}

#[no_mangle]
pub extern "C" fn rust_reset(lines: u64) {
    with(|host| {
        host.pic.reset();
        let high = host.wires.high();
        host.wires.settle(&mut host.pic, route);
        for input in 0..64 {
            if (high ^ lines) >> input & 1 == 1 {
                host.wires.line(&mut host.pic, input, lines >> input & 1 == 1, route).expect("the input is one");
            }
        }
    });
}

#[no_mangle]
pub extern "C" fn rust_read(offset: u64, bytes: u32) -> u64 {
    with(|host| host.pic.read(WINDOW, offset, width(bytes)).expect("the guest reads inside the window"))
}

#[no_mangle]
pub extern "C" fn rust_write(offset: u64, bytes: u32, value: u64) {
    with(|host| {
        host.pic.write(WINDOW, offset, width(bytes), value).expect("the guest writes inside the window");
        host.wires.settle(&mut host.pic, route);
    });
}

#[no_mangle]
pub extern "C" fn rust_line(input: u32, high: bool) {
    with(|host| host.wires.line(&mut host.pic, u64::from(input), high, route).expect("the input is one"));
}

/// Saved in each form in turn, and loaded into wires that know what the controller above has on and nothing else.
#[no_mangle]
pub extern "C" fn rust_move(lines: u64) {
    with(|host| {
        let form = [Form::One, Form::Two, Form::Numbered][host.moves % 3];
        host.moves += 1;
        host.pic = PchPic::load(form, &host.pic.save(form)).expect("what was saved is loaded");
        let mut fresh = Wires::new();
        host.wires.vectors_on().for_each(|vector| fresh.assume(vector, true));
        host.wires = fresh;
        host.wires.resume(&mut host.pic, lines, route);
    });
}

#[no_mangle]
pub extern "C" fn rust_latched() -> u64 {
    with(|host| host.pic.latched())
}

#[no_mangle]
pub extern "C" fn rust_service() -> u64 {
    with(|host| host.pic.in_service())
}

#[no_mangle]
pub extern "C" fn rust_on(vector: u32) -> bool {
    with(|host| host.wires.is_on(vector as u8))
}
