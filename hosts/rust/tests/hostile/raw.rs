//! The calls as they are, each made twice: by what does the work in this build, and by the plain copy of the proved text. Both leave the same bytes.

use crate::dice::{Dice, FORMS};
use crate::{proved, rounds};
use pch_pic::calls::{self, pch_pic_difference, pch_pic_read, pch_pic_reset, pch_pic_write};
use pch_pic::{LONG_SHEET_LEN, SHEET_LEN, TALLY_LEN, VECTORS};

/// The numbers that a call may hand back.
const NUMBERS: [u8; 17] = [0, 1, 2, 3, 4, 5, 7, 8, 9, 10, 11, 12, 13, 14, 15, 16, 17];

/// A call that is lent these areas and one for its answer.
trait Call<const N: usize>: FnOnce(&mut [Vec<u8>; N], &mut [u8]) -> u8 {}

impl<const N: usize, F: FnOnce(&mut [Vec<u8>; N], &mut [u8]) -> u8> Call<N> for F {}

/// The call of this build, and that of the plain copy.
macro_rules! twice {
    ($bench:ident, $name:literal, $areas:expr, |$lent:pat_param, $answer:ident| $call:ident($($word:expr),*)) => {
        $bench.tried($name, $areas, |$lent, $answer| calls::$call($($word),*), |$lent, $answer| proved::calls::$call($($word),*))
    };
}

struct Bench {
    dice: Dice,
    /// An accepted image of each form, as the last done call left it.
    good: Vec<Vec<u8>>,
    /// How many calls were done, and how many gave each refusal.
    told: [usize; 18],
}

impl Bench {
    fn new(seed: u64) -> Self {
        let good = FORMS.map(|len| {
            let mut image = vec![0xa5; len];
            assert_eq!(pch_pic_reset(&mut image, &mut [0; 16]), 0);
            image
        });
        Bench { dice: Dice(seed), good: good.to_vec(), told: [0; 18] }
    }

    fn image(&mut self) -> Vec<u8> {
        let good = self.good[self.dice.below(3)].clone();
        match self.dice.below(8) {
            0 => {
                let len = self.dice.len();
                self.dice.bytes(len)
            }
            1 => self.dice.bytes(good.len()),
            2 | 3 => self.dice.damaged(&good),
            _ => good,
        }
    }

    /// Makes the call twice and looks at what it left. Where the name ends so, the first area is an image that goes on.
    fn tried<const N: usize>(&mut self, name: &str, areas: [Vec<u8>; N], call: impl Call<N>, plain: impl Call<N>) {
        let len = if self.dice.once_in(8) { self.dice.of(&[0, 1, 15]) } else { self.dice.of(&[16, 17, 40]) };
        let unanswered = self.dice.bytes(len);
        let [mut left, mut left_plain] = [areas.clone(), areas.clone()];
        let [mut answer, mut answer_plain] = [unanswered.clone(), unanswered.clone()];
        let number = call(&mut left, &mut answer);
        let number_plain = plain(&mut left_plain, &mut answer_plain);
        assert!(
            (number, &left, &answer) == (number_plain, &left_plain, &answer_plain),
            "{name} and the plain copy differ: {number}, {number_plain}"
        );
        assert!(NUMBERS.contains(&number), "{name} handed back {number}");
        self.told[usize::from(number)] += 1;
        if number != 0 {
            assert!(left == areas, "{name} was refused with {number} and changed something");
        }
        if number == 7 {
            assert_eq!(answer, unanswered, "{name}");
        } else {
            assert!(len >= 16, "{name} has no room for its answer");
            assert_eq!((answer[0], &answer[2..8], &answer[16..]), (number, &[0; 6][..], &unanswered[16..]), "{name}");
            assert!(answer[1] == 1 || (answer[1] == 0 && answer[8..16] == [0; 8]), "{name}");
        }
        let [first, ..] = &left[..] else { return };
        self.keep(name, number, first);
    }

    /// What a done call leaves in an image is accepted, and the next calls are made on it.
    fn keep(&mut self, name: &str, number: u8, image: &[u8]) {
        if number == 0 && name.ends_with(" image") {
            assert_eq!(pch_pic_read(image, 0, 0x400, 0, 4, &mut [0; 16]), 0, "{name} left an image that is refused");
            let form = FORMS.iter().position(|len| *len == image.len()).expect("an image of a done call has a form");
            // A reset now and then, lest every image be one.
            if !name.contains("reset") || self.dice.once_in(8) {
                self.good[form] = image.to_vec();
            }
        }
    }

    fn plain_calls(&mut self) {
        let ([base, size, address], width, value) = (self.dice.access(), self.dice.width(), self.dice.any());
        let (input, level) = (self.dice.input(), self.dice.number());
        let place = self.dice.of(&[0, 0, 0, 1, 63, 64, 65, usize::MAX, usize::MAX - 1]);
        let [a, b, c, d, e, f, g, h] = [(); 8].map(|()| [self.image()]);
        let drained = [self.image(), self.dice.area(64)];
        twice!(self, "reset of an image", a, |[image], answer| pch_pic_reset(image, answer));
        twice!(self, "read", b, |[image], answer| pch_pic_read(image, base, size, address, width, answer));
        twice!(self, "write to an image", c, |[image], answer| pch_pic_write(image, base, size, address, width, value, answer));
        twice!(self, "level of an image", d, |[image], answer| pch_pic_level(image, input, level, answer));
        twice!(self, "poll of an image", e, |[image], answer| pch_pic_poll(image, input, answer));
        twice!(self, "drain of an image", drained, |[image, events], answer| pch_pic_drain(image, events, place, answer));
        twice!(self, "waiting", h, |[image], answer| pch_pic_waiting(image, answer));
        twice!(self, "table_read", f, |[image], answer| pch_pic_table_read(image, base, size, address, width, answer));
        twice!(self, "table_write to an image", g, |[image], answer| pch_pic_table_write(image, base, size, address, width, value, answer));
    }

    fn board_calls(&mut self) {
        let ([base, size, address], width, value) = (self.dice.access(), self.dice.width(), self.dice.any());
        let (input, level) = (self.dice.input(), self.dice.number());
        let place = self.dice.of(&[0, 0, 0, 1, 63, 64, 65, usize::MAX]);
        let (vector, flag) = (self.dice.number() as u8, self.dice.number() as u8);
        let [a, b, c, d, e] = [(); 5].map(|()| [self.image(), self.dice.area(VECTORS)]);
        let drained = [self.image(), self.dice.area(VECTORS), self.dice.area(64)];
        let heard = [self.dice.area(VECTORS)];
        twice!(self, "board_reset of an image", a, |[image, board], answer| pch_pic_board_reset(image, board, answer));
        twice!(self, "board_read", b, |[image, board], answer| pch_pic_board_read(image, board, base, size, address, width, answer));
        twice!(self, "board_write to an image", c, |[image, board], answer| pch_pic_board_write(
            image, board, base, size, address, width, value, answer
        ));
        twice!(self, "board_level of an image", d, |[image, board], answer| pch_pic_board_level(image, board, input, level, answer));
        twice!(self, "board_poll of an image", e, |[image, board], answer| pch_pic_board_poll(image, board, input, answer));
        twice!(self, "board_drain of an image", drained, |[image, board, events], answer| pch_pic_board_drain(
            image, board, events, place, answer
        ));
        twice!(self, "board_event", heard, |[board], answer| pch_pic_board_event(board, vector, flag, answer));
    }

    fn hoist_calls(&mut self) {
        let ([base, size, address], width, value) = (self.dice.access(), self.dice.width(), self.dice.any());
        let [a, b, c] = [(); 3].map(|()| [self.image(), self.phase()]);
        let read = [self.image()];
        twice!(self, "hoist_reset of an image", a, |[image, phase], answer| pch_pic_hoist_reset(image, phase, answer));
        twice!(self, "hoist_read", read, |[image], answer| pch_pic_hoist_read(image, base, size, address, width, answer));
        twice!(self, "hoist_write to an image", b, |[image, phase], answer| pch_pic_hoist_write(
            image, phase, base, size, address, width, value, answer
        ));
        twice!(self, "hoist_end_startup", c, |[image, phase], answer| pch_pic_hoist_end_startup(image, phase, answer));
    }

    fn phase(&mut self) -> Vec<u8> {
        let len = self.dice.of(&[0, 1, 1, 1, 2]);
        (0..len).map(|_| self.dice.of(&[0, 0, 1, 0xff])).collect()
    }

    /// Any bytes, or numbers of which most are sound.
    fn tally(&mut self) -> Vec<u8> {
        if self.dice.once_in(4) {
            return self.dice.area(TALLY_LEN);
        }
        let mut numbers: Vec<u64> = (0..TALLY_LEN / 8).map(|_| self.dice.any() >> 2).collect();
        let counted = (1 << 62) + (self.dice.any() >> 2);
        numbers[640] = counted;
        if self.dice.once_in(2) {
            let place = self.dice.below(numbers.len());
            numbers[place] = self.dice.of(&[counted, counted + 1, u64::MAX, 1 << 63, (1 << 63) - 1]);
        }
        numbers.into_iter().flat_map(u64::to_le_bytes).collect()
    }

    fn whole_calls(&mut self) {
        let trace = if self.dice.once_in(8) { self.image() } else { self.dice.trace() };
        let (image, target) = (self.image(), self.dice.of(&FORMS));
        let (converted, sheet) = ([self.dice.area(target)], [self.dice.area(SHEET_LEN)]);
        let played = [self.image(), self.dice.area(16 * 60), self.dice.area(64 * 60)];
        let salvaged = [self.dice.area(trace.len()), self.dice.area(20)];
        twice!(self, "convert to an image", converted, |[target], answer| pch_pic_convert(&image, target, answer));
        let on = [self.image(), self.dice.area(16 * 60), self.dice.area(64 * 60)];
        twice!(self, "play from a reset", played, |[image, answers, events], answer| pch_pic_play(&trace, image, answers, events, answer));
        twice!(self, "play on", on, |[image, answers, events], answer| pch_pic_play_on(&trace, image, answers, events, answer));
        twice!(self, "salvage", salvaged, |[kept, list], answer| pch_pic_salvage(&trace, kept, list, answer));
        twice!(self, "sheet", sheet, |[sheet], answer| pch_pic_sheet(&trace, sheet, answer));
        let (begun, added, summed) = ([self.dice.area(TALLY_LEN)], [self.tally()], [self.dice.area(LONG_SHEET_LEN)]);
        let (image, tally) = (self.image(), self.tally());
        twice!(self, "tally_begin", begun, |[tally], answer| pch_pic_tally_begin(tally, answer));
        twice!(self, "tally_add", added, |[tally], answer| pch_pic_tally_add(&trace, &image, tally, answer));
        twice!(self, "tally_sheet", summed, |[sheet], answer| pch_pic_tally_sheet(&tally, sheet, answer));
        let (later, earlier) = (self.dice.any() as u16, self.dice.any() as u16);
        assert_eq!(pch_pic_difference(later, earlier), later.wrapping_sub(earlier) as i16);
    }
}

/// Every refusal is met, so that what is tried is not the first test of each call alone.
#[test]
fn any_bytes_at_any_call() {
    let mut bench = Bench::new(1);
    for _ in 0..rounds() {
        bench.plain_calls();
        bench.board_calls();
        bench.hoist_calls();
        bench.whole_calls();
    }
    for number in NUMBERS {
        assert!(bench.told[usize::from(number)] > 0, "no call handed back {number}: {:?}", bench.told);
    }
    assert!(bench.told[0] > 8 * rounds(), "{:?}", bench.told);
}

/// A window may be anywhere, and of any size: what is far behind the registers reads 0 and takes nothing, and no access at the end of the addresses goes
/// round.
#[test]
fn windows_at_their_ends() {
    let mut image = [0; FORMS[2]];
    assert_eq!(pch_pic_reset(&mut image, &mut [0; 16]), 0);
    let reset = image;
    for base in [0, 1, u64::MAX - 0x400, u64::MAX - 8, u64::MAX] {
        for offset in [0x20, 0x400, 1 << 32, (1 << 32) + 0x20, u64::MAX - 0x20, u64::MAX] {
            for width in [1, 2, 4, 8] {
                let (address, mut answer) = (base.wrapping_add(offset), [0; 16]);
                let inside = base.checked_add(offset).and_then(|first| first.checked_add(width)).is_some();
                let read = pch_pic_read(&image, base, u64::MAX, address, width, &mut answer);
                assert_eq!(read, u8::from(!inside), "{base:x} {offset:x} {width}");
                if inside {
                    // At 0x20 is MASK, all ones after a reset.
                    let value = if offset == 0x20 { u64::MAX >> (64 - 8 * width) } else { 0 };
                    assert_eq!(answer[8..], value.to_le_bytes(), "{base:x} {offset:x} {width}");
                }
                assert_eq!(pch_pic_write(&mut image, base, u64::MAX, address, width, u64::MAX, &mut answer), read);
                assert!(image == reset);
            }
        }
    }
}
