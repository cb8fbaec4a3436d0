//! The calls with their answers read: what each gives, or why it was refused. The calls that move a device are made with its board, but for those of the
//! hoist profile.

use crate::{calls, Error, Window};

pub const ANSWER_LEN: usize = 16;

pub type Answer = [u8; ANSWER_LEN];

/// What a call gives: the value, if one is present, or why it was refused.
pub type Outcome = Result<Option<u64>, Error>;

/// The number handed back, and the value of the answer area.
pub fn of(number: u8, answer: &Answer) -> Outcome {
    let mut bytes = [0; 8];
    bytes.copy_from_slice(&answer[8..]);
    let value = (answer[1] == 1).then_some(u64::from_le_bytes(bytes));
    match (number, Error::from_answer(number, value)) {
        (0, _) => Ok(value),
        (_, Some(error)) => Err(error),
        // The calls are proved to hand back no other number; so they are those of another library.
        (_, None) => panic!("a call handed back {number}: it is not one of this crate's"),
    }
}

/// A call that is lent an answer area, and what it gives.
fn asked(call: impl FnOnce(&mut [u8]) -> u8) -> Outcome {
    let mut answer: Answer = [0; ANSWER_LEN];
    let number = call(&mut answer);
    of(number, &answer)
}

pub fn reset(image: &mut [u8], board: &mut [u8]) -> Outcome {
    asked(|answer| calls::pch_pic_board_reset(image, board, answer))
}

pub fn read(image: &[u8], window: Window, address: u64, width: usize) -> Outcome {
    asked(|answer| calls::pch_pic_read(image, window.base, window.size, address, width as u64, answer))
}

/// Brings the board up to date with an image, by a read of ID, which changes nothing.
pub fn count(image: &[u8], board: &mut [u8]) -> Outcome {
    let window = Window::at(0);
    asked(|answer| calls::pch_pic_board_read(image, board, window.base, window.size, crate::reg::ID, 4, answer))
}

pub fn write(image: &mut [u8], board: &mut [u8], window: Window, address: u64, width: usize, value: u64) -> Outcome {
    asked(|answer| calls::pch_pic_board_write(image, board, window.base, window.size, address, width as u64, value, answer))
}

pub fn table_read(image: &[u8], window: Window, address: u64, width: usize) -> Outcome {
    asked(|answer| calls::pch_pic_table_read(image, window.base, window.size, address, width as u64, answer))
}

pub fn table_write(image: &mut [u8], window: Window, address: u64, width: usize, value: u64) -> Outcome {
    asked(|answer| calls::pch_pic_table_write(image, window.base, window.size, address, width as u64, value, answer))
}

pub fn level(image: &mut [u8], board: &mut [u8], input: u64, level: bool) -> Outcome {
    asked(|answer| calls::pch_pic_board_level(image, board, input, u64::from(level), answer))
}

pub fn poll(image: &mut [u8], board: &mut [u8], input: u64) -> Outcome {
    asked(|answer| calls::pch_pic_board_poll(image, board, input, answer))
}

pub fn waiting(image: &[u8]) -> Outcome {
    asked(|answer| calls::pch_pic_waiting(image, answer))
}

pub fn drain(image: &mut [u8], board: &mut [u8], events: &mut [u8], place: usize) -> Outcome {
    asked(|answer| calls::pch_pic_board_drain(image, board, events, place, answer))
}

pub fn hear(board: &mut [u8], vector: u8, flag: u8) -> Outcome {
    asked(|answer| calls::pch_pic_board_event(board, vector, flag, answer))
}

pub fn convert(image: &[u8], target: &mut [u8]) -> Outcome {
    asked(|answer| calls::pch_pic_convert(image, target, answer))
}

#[cfg(any(feature = "std", test))]
pub fn play(trace: &[u8], image: &mut [u8], answers: &mut [u8], events: &mut [u8]) -> Outcome {
    asked(|answer| calls::pch_pic_play(trace, image, answers, events, answer))
}

#[cfg(any(feature = "std", test))]
pub fn play_on(trace: &[u8], image: &mut [u8], answers: &mut [u8], events: &mut [u8]) -> Outcome {
    asked(|answer| calls::pch_pic_play_on(trace, image, answers, events, answer))
}

#[cfg(any(feature = "std", test))]
pub fn salvage(trace: &[u8], kept: &mut [u8], list: &mut [u8]) -> Outcome {
    asked(|answer| calls::pch_pic_salvage(trace, kept, list, answer))
}

pub fn hoist_reset(image: &mut [u8], phase: &mut u8) -> Outcome {
    asked(|answer| calls::pch_pic_hoist_reset(image, core::slice::from_mut(phase), answer))
}

pub fn hoist_read(image: &[u8], window: Window, address: u64, width: usize) -> Outcome {
    asked(|answer| calls::pch_pic_hoist_read(image, window.base, window.size, address, width as u64, answer))
}

pub fn hoist_write(image: &mut [u8], phase: &u8, window: Window, address: u64, width: usize, value: u64) -> Outcome {
    let phase = core::slice::from_ref(phase);
    asked(|answer| calls::pch_pic_hoist_write(image, phase, window.base, window.size, address, width as u64, value, answer))
}

pub fn hoist_end_startup(image: &[u8], phase: &mut u8) -> Outcome {
    asked(|answer| calls::pch_pic_hoist_end_startup(image, core::slice::from_mut(phase), answer))
}

#[cfg(feature = "std")]
pub fn sheet(trace: &[u8], sheet: &mut [u8]) -> Outcome {
    asked(|answer| calls::pch_pic_sheet(trace, sheet, answer))
}

#[cfg(feature = "std")]
pub fn tally_begin(tally: &mut [u8]) -> Outcome {
    asked(|answer| calls::pch_pic_tally_begin(tally, answer))
}

#[cfg(feature = "std")]
pub fn tally_add(trace: &[u8], image: &[u8], tally: &mut [u8]) -> Outcome {
    asked(|answer| calls::pch_pic_tally_add(trace, image, tally, answer))
}

#[cfg(feature = "std")]
pub fn tally_sheet(tally: &[u8], sheet: &mut [u8]) -> Outcome {
    asked(|answer| calls::pch_pic_tally_sheet(tally, sheet, answer))
}

#[cfg(test)]
mod tests {
    use super::*;

    #[test]
    fn a_value_is_read_little_end_first() {
        let mut answer = [0; ANSWER_LEN];
        assert_eq!(of(0, &answer), Ok(None));
        answer[1] = 1;
        answer[8] = 0x34;
        answer[9] = 0x12;
        assert_eq!(of(0, &answer), Ok(Some(0x1234)));
        assert_eq!(of(1, &answer), Err(Error::Outside(0x1234)));
    }

    #[test]
    #[should_panic(expected = "handed back 9")]
    fn another_library_is_noticed() {
        let _ = of(9, &[0; ANSWER_LEN]);
    }

    #[test]
    fn every_call_refuses_a_short_image() {
        let window = Window::at(0);
        let (mut image, mut board) = ([0; crate::IMAGE_LEN - 1], [0xa5; crate::VECTORS]);
        assert_eq!(reset(&mut image, &mut board), Err(Error::Length));
        assert_eq!(read(&image, window, 0, 4), Err(Error::Length));
        assert_eq!(count(&image, &mut board), Err(Error::Length));
        assert_eq!(write(&mut image, &mut board, window, 0, 4, 0), Err(Error::Length));
        assert_eq!(table_read(&image, window, 0, 4), Err(Error::Length));
        assert_eq!(table_write(&mut image, window, 0, 4, 0), Err(Error::Length));
        assert_eq!(level(&mut image, &mut board, 0, true), Err(Error::Length));
        assert_eq!(poll(&mut image, &mut board, 0), Err(Error::Length));
        assert_eq!(drain(&mut image, &mut board, &mut [], 0), Err(Error::Length));
        assert_eq!(convert(&image, &mut [0; crate::IMAGE_LEN]), Err(Error::Length));
        assert_eq!(play(&[], &mut image, &mut [], &mut []), Err(Error::Length));
        assert_eq!(board, [0xa5; crate::VECTORS]);
        let mut phase = 9;
        assert_eq!(hoist_reset(&mut image, &mut phase), Err(Error::Length));
        assert_eq!(hoist_read(&image, window, 0, 4), Err(Error::Length));
        assert_eq!(hoist_write(&mut image, &phase, window, 0, 4, 0), Err(Error::Length));
        assert_eq!(hoist_end_startup(&image, &mut phase), Err(Error::Length));
        assert_eq!(phase, 9);
    }

    /// A board under 256 bytes is refused first, and of a longer one the bytes past them stay.
    #[test]
    fn a_board_has_256_bytes() {
        let window = Window::at(0);
        let (mut image, mut board) = ([0xa5; crate::IMAGE_LEN], [0xa5; crate::VECTORS + 1]);
        let short = &mut board[..crate::VECTORS - 1];
        assert_eq!(reset(&mut image[..1], short), Err(Error::Room));
        assert_eq!(count(&image[..1], short), Err(Error::Room));
        assert_eq!(write(&mut image[..1], short, window, 0, 3, 0), Err(Error::Room));
        assert_eq!(level(&mut image[..1], short, 64, true), Err(Error::Room));
        assert_eq!(poll(&mut image[..1], short, 64), Err(Error::Room));
        assert_eq!(drain(&mut image[..1], short, &mut [], 0), Err(Error::Room));
        assert_eq!(hear(short, 0, 0), Err(Error::Room));
        assert_eq!((image, board), ([0xa5; crate::IMAGE_LEN], [0xa5; crate::VECTORS + 1]));
        assert_eq!(reset(&mut image, &mut board), Ok(None));
        assert_eq!((board[..crate::VECTORS] == [0; crate::VECTORS], board[crate::VECTORS]), (true, 0xa5));
        assert_eq!(write(&mut image, &mut board, window, crate::reg::ISR, 4, 1 << 7), Ok(Some(0)));
        assert_eq!((board[6], board[7], board[8]), (0, 1, 0));
    }

    /// Within 0 and 255; any flag but 0 is an assert.
    #[test]
    fn a_board_hears_events() {
        let mut board = [0; crate::VECTORS];
        assert_eq!(hear(&mut board, 255, 0), Ok(Some(0)));
        assert_eq!(hear(&mut board, 255, 1), Ok(Some(1)));
        assert_eq!(hear(&mut board, 255, 2), Ok(Some(2)));
        assert_eq!(hear(&mut board, 255, 0), Ok(Some(1)));
        board[0] = 254;
        assert_eq!(hear(&mut board, 0, 1), Ok(Some(255)));
        assert_eq!(hear(&mut board, 0, 0xff), Ok(Some(255)));
        assert_eq!((board[0], board[1], board[255]), (255, 0, 1));
    }

    /// One block of one record, a drain of all: 16 bytes for its answer, and 64 for its events.
    #[test]
    fn a_play_is_refused_in_order() {
        let mut trace = [1, 0, 6, 0, 1, 0, 6, 0, 0, 0, 0, 0, 0, 0, 0, 0, 0, 0, 0, 0, 0, 0];
        let (mut image, mut answers, mut events) = ([0xa5; crate::IMAGE_LEN], [0xa5; 17], [0xa5; 65]);
        assert_eq!(play(&trace[1..], &mut image, &mut [], &mut []), Err(Error::Trace));
        trace[9] = 1;
        assert_eq!(play(&trace, &mut image, &mut [], &mut []), Err(Error::Record(0)));
        trace[9] = 0;
        assert_eq!(play(&trace, &mut image, &mut answers[..15], &mut events), Err(Error::Room));
        assert_eq!(play(&trace, &mut image, &mut answers, &mut events[..63]), Err(Error::Room));
        assert_eq!((image, answers, events), ([0xa5; crate::IMAGE_LEN], [0xa5; 17], [0xa5; 65]));
        assert_eq!(play(&trace, &mut image, &mut answers, &mut events), Ok(Some(1)));
        assert_eq!((image[0], answers[..2] == [0, 1], answers[16], events), (1, true, 0xa5, [0xa5; 65]));
    }

    /// Two blocks of one record, of which the second is bad.
    #[test]
    fn a_salvage_is_refused_in_order() {
        let mut trace = [[2, 0, 10, 0, 1, 0, 26, 0, 1, 0].to_vec(), vec![6], vec![0; 15], vec![0; 16]].concat();
        let (mut kept, mut list) = ([0xa5; 23], [0xa5; 5]);
        assert_eq!(salvage(&trace[1..], &mut kept, &mut list), Err(Error::Trace));
        trace[10] = 7;
        assert_eq!(salvage(&trace, &mut [], &mut []), Err(Error::Empty));
        trace[10] = 6;
        assert_eq!(salvage(&trace, &mut kept[..21], &mut list), Err(Error::Room));
        assert_eq!(salvage(&trace, &mut kept, &mut list[..3]), Err(Error::Room));
        assert_eq!((kept, list), ([0xa5; 23], [0xa5; 5]));
        assert_eq!(salvage(&trace, &mut kept, &mut list), Ok(Some(22)));
        assert_eq!((&kept[..7], kept[22], list), (&[1, 0, 6, 0, 1, 0, 6][..], 0xa5, [1, 0, 0, 0, 0xa5]));
    }

    #[test]
    fn a_refused_conversion_leaves_its_target() {
        let mut image = [0; crate::IMAGE2_NUMBERED_LEN];
        let mut target = [0xa5; crate::IMAGE_LEN + 1];
        assert_eq!(convert(&image, &mut target[..crate::IMAGE_LEN]), Err(Error::Contents));
        assert_eq!(reset(&mut image, &mut [0; crate::VECTORS]), Ok(None));
        assert_eq!(convert(&image, &mut target), Err(Error::Length));
        assert_eq!(target, [0xa5; crate::IMAGE_LEN + 1]);
        assert_eq!(convert(&image, &mut target[..crate::IMAGE_LEN]), Ok(None));
        assert_eq!((target[0], target[crate::IMAGE_LEN]), (1, 0xa5));
    }
}
