//! What include/pch_pic.h says of a tally under A DAY OF SEVERAL TRACES: its records' calls are made on the device of the published Rust, as for a sheet, but from the image that is lent, with the
//! numbers that the tally has, and with numbers of records that run on. Written from that text, apart from the code under test.

use crate::boundary::Boundary;
use crate::call::Call;
use crate::image::{self, NUMBERED};
use crate::sheet::{Day, Row};
use crate::told::tell;
use crate::trace;

/// 65 rows of ten numbers of eight bytes; the sheet of a tally too.
pub const LENGTH: usize = 65 * 80;
/// Where the number of records stands, counted in numbers.
pub const COUNTED: usize = 640;

pub fn begin(tally: &mut [u8], answer: &mut [u8]) -> u8 {
    if answer.len() < 16 || tally.len() < LENGTH {
        return 7;
    }
    tally[..LENGTH].fill(0);
    tell(answer, 0, None)
}

pub fn add(boundary: &mut Boundary, trace: &[u8], image: &[u8], tally: &mut [u8], answer: &mut [u8]) -> u8 {
    if answer.len() < 16 || tally.len() < LENGTH {
        return 7;
    }
    match counted(boundary, trace, image, tally) {
        Ok(bytes) => {
            tally[..LENGTH].copy_from_slice(&bytes);
            tell(answer, 0, None)
        }
        Err((number, value)) => tell(answer, number, value),
    }
}

pub fn sheet(tally: &[u8], sheet: &mut [u8], answer: &mut [u8]) -> u8 {
    if answer.len() < 16 || tally.len() < LENGTH || sheet.len() < LENGTH {
        return 7;
    }
    let numbers = match test(tally) {
        Ok(numbers) => numbers,
        Err((number, value)) => return tell(answer, number, value),
    };
    let rows: Vec<Row> = rows(&numbers).into_iter().zip(waits(&numbers)).map(|(row, since)| row.shut(since)).collect();
    let total = rows.iter().copied().fold(Row::default(), Row::with);
    sheet[..LENGTH].copy_from_slice(&bytes(rows.iter().chain([&total]).flat_map(Row::numbers)));
    tell(answer, 0, None)
}

/// A number and its value, where something is refused.
type Refused = (u8, Option<u64>);

/// The bytes of the tally then. The tests come in the order image, trace, tally.
fn counted(boundary: &mut Boundary, trace: &[u8], image: &[u8], tally: &[u8]) -> Result<Vec<u8>, Refused> {
    match image::test(image) {
        (0, _) => {}
        refused => return Err(refused),
    }
    let records = trace::test(trace)?;
    let mut numbers = test(tally)?;
    let image = numbered(boundary, image);
    let mut day = Day { boundary, image, rows: rows(&numbers), since: waits(&numbers) };
    day.records(numbers[COUNTED], &records);
    for (n, (row, since)) in day.rows.iter().zip(day.since).enumerate() {
        numbers[10 * n..10 * n + 10].copy_from_slice(&row.numbers());
        numbers[10 * n + 9] = since.map_or(0, |raised| raised + 1);
    }
    numbers[COUNTED] += records.len() as u64;
    Ok(bytes(numbers))
}

/// The same device with numbers of events, which a sheet does not show.
fn numbered(boundary: &mut Boundary, image: &[u8]) -> Vec<u8> {
    let mut target = vec![0; NUMBERED.length];
    let call = Call::Convert { target: target.len() };
    let number = boundary.perform(&call, &mut image.to_vec(), &mut [0; 16], &mut [], &mut target);
    assert_eq!(number, 0, "an accepted image is converted");
    target
}

/// The 650 numbers; or 17 with the place of the first that none can have.
pub fn test(tally: &[u8]) -> Result<Vec<u64>, Refused> {
    let numbers: Vec<u64> =
        tally[..LENGTH].chunks_exact(8).map(|bytes| u64::from_le_bytes(bytes.try_into().expect("eight bytes"))).collect();
    let wrong = |k: usize| numbers[k] >= 1 << 63 || (k < COUNTED && k % 10 == 9 && numbers[k] > numbers[COUNTED]);
    match (0..numbers.len()).find(|&k| wrong(k)) {
        Some(k) => Err((17, Some(8 * k as u64))),
        None => Ok(numbers),
    }
}

fn bytes(numbers: impl IntoIterator<Item = u64>) -> Vec<u8> {
    numbers.into_iter().flat_map(u64::to_le_bytes).collect()
}

/// The rows of the inputs; their waits that are not over stand beside them.
fn rows(numbers: &[u64]) -> [Row; 64] {
    std::array::from_fn(|n| {
        let &[raises, lowers, asserts, deasserts, returned, offered, dropped, wait, withdrawn, _] = &numbers[10 * n..10 * n + 10] else {
            unreachable!("a row has ten numbers")
        };
        Row { raises, lowers, asserts, deasserts, returned, offered, dropped, wait, withdrawn, open: 0 }
    })
}

/// The number is that behind the raise.
fn waits(numbers: &[u64]) -> [Option<u64>; 64] {
    std::array::from_fn(|n| numbers[10 * n + 9].checked_sub(1))
}
