//! The sheet of a day (02, C-21), and the tally of several traces: the device's lines are kept as words, the rows where they stand in the sheet. While the day lasts the column of open
//! waits has the number of the record behind the one at which a wait began, and 0 where none is open.

use super::{Form, Outcome, accepted, by_length, fault, records_of, told, word};
use super::{Numbered, One, Two};

mod short {
    use super::super::{number, offset_of, word};
    type Cell = u32;
    const BYTES: usize = 4;
    include!("day.rs");
}

mod wide {
    use super::super::{number, offset_of, word};
    type Cell = u64;
    const BYTES: usize = 8;
    include!("day.rs");
}

#[inline(never)]
pub fn sheet(trace: &[u8], sheet: &mut [u8], answer: &mut [u8]) -> u8 {
    let (Some(answer), Some(sheet)) = (answer.first_chunk_mut(), sheet.first_chunk_mut::<2600>()) else { return 7 };
    let records = match records_of(trace) {
        Ok(records) => records,
        Err(refused) => return told(answer, refused),
    };
    let rows: &mut [short::Row; 65] = sheet.as_chunks_mut().0.as_chunks_mut().0.try_into().unwrap();
    // In parts: a fill of 2,048 bytes or more is one instruction that counts as many.
    for part in rows.chunks_mut(13) {
        part.fill([[0; 4]; 10]);
    }
    let mut day = short::Day { rows, mask: !0, irr: 0, isr: 0, waiting: 0, record: 0 };
    for record in records {
        day.take(record);
        day.record += 1;
    }
    day.end();
    told(answer, (0, Some(records.len() as u64)))
}

/// 17 with the place of the first number of a tally that none can have.
#[inline(always)]
fn wrong_number(rows: &[wide::Row; 65]) -> Option<Outcome> {
    let counted = wide::cell(&rows[64], 0);
    let wrong = |k: usize| {
        let number = wide::cell(&rows[k / 10], k % 10);
        number >> 63 != 0 || (k % 10 == wide::OPEN && k < 640 && number > counted)
    };
    (0..650).find(|&k| wrong(k)).map(|k| (17, Some(8 * k as u64)))
}

#[inline(always)]
fn add_in<F: Form<N>, const N: usize>(image: &[u8], trace: &[u8], tally: &mut [u8; 5200]) -> Outcome {
    let image: &[u8; N] = image.try_into().unwrap();
    if !accepted::<F, N>(image) {
        return fault::<F, N>(image);
    }
    let records = match records_of(trace) {
        Ok(records) => records,
        Err(refused) => return refused,
    };
    let rows: &mut [wide::Row; 65] = tally.as_chunks_mut().0.as_chunks_mut().0.try_into().unwrap();
    if let Some(wrong) = wrong_number(rows) {
        return wrong;
    }
    let (mask, irr, isr) = (word(image, F::MASK), word(image, F::IRR), word(image, F::ISR));
    let record = wide::cell(&rows[64], 0);
    let mut day = wide::Day { rows, mask, irr, isr, waiting: u32::from(image[F::COUNT]), record };
    for record in records {
        day.take(record);
        day.record += 1;
    }
    day.rows[64][0] = day.record.to_le_bytes();
    (0, None)
}

#[inline(never)]
pub fn tally_add(trace: &[u8], image: &[u8], tally: &mut [u8], answer: &mut [u8]) -> u8 {
    let (Some(answer), Some(tally)) = (answer.first_chunk_mut(), tally.first_chunk_mut()) else { return 7 };
    told(answer, by_length!(image, add_in, trace, tally))
}

#[inline(never)]
pub fn tally_sheet(tally: &[u8], sheet: &mut [u8], answer: &mut [u8]) -> u8 {
    let (Some(answer), Some(tally), Some(sheet)) = (answer.first_chunk_mut(), tally.first_chunk::<5200>(), sheet.first_chunk_mut::<5200>())
    else {
        return 7;
    };
    let counted: &[wide::Row; 65] = tally.as_chunks().0.as_chunks().0.try_into().unwrap();
    if let Some(wrong) = wrong_number(counted) {
        return told(answer, wrong);
    }
    let rows: &mut [wide::Row; 65] = sheet.as_chunks_mut().0.as_chunks_mut().0.try_into().unwrap();
    for (to, row) in rows.iter_mut().zip(counted) {
        *to = *row;
    }
    wide::Day { rows, mask: 0, irr: 0, isr: 0, waiting: 0, record: 0 }.end();
    told(answer, (0, None))
}
