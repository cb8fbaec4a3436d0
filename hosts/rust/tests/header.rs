//! The C header and this crate name the same numbers. It needs the repository around the crate, and so it is not in a package.

/// Where an image has what: the crate keeps this to itself.
#[allow(dead_code)]
#[path = "../src/contents.rs"]
mod contents;

use pch_pic::{
    reg, Error, BLOCKS_MAX, DRAIN_ROOM, EVENTS, EVENT_LEN, IMAGE2_LEN, IMAGE2_NUMBERED_LEN, IMAGE_LEN, INPUTS, LONG_SHEET_LEN, RECORDS_MAX,
    RECORD_LEN, SHEET_LEN, TALLY_LEN, TRACE_MAX, VECTORS,
};
use std::collections::HashMap;

const HEADER: &str = include_str!("../../../include/pch_pic.h");

/// Each `PCH_PIC_NAME = NUMBER` of include/pch_pic.h, without its prefix.
fn header() -> HashMap<String, u64> {
    let text = HEADER;
    let pairs = text.lines().filter_map(|line| {
        let (name, rest) = line.trim().strip_prefix("PCH_PIC_")?.split_once(" = ")?;
        let number = rest.split([',', ' ']).next()?;
        let value = match number.strip_prefix("0x") {
            Some(digits) => u64::from_str_radix(digits, 16),
            None => number.parse(),
        };
        Some((name.to_string(), value.ok()?))
    });
    pairs.collect()
}

#[test]
fn sizes() {
    let header = header();
    for (name, value) in [
        ("BUILT_PROVED", 1),
        ("IMAGE_LEN", IMAGE_LEN),
        ("IMAGE2_LEN", IMAGE2_LEN),
        ("IMAGE2_NUMBERED_LEN", IMAGE2_NUMBERED_LEN),
        ("INPUTS", INPUTS),
        ("BOARD_LEN", VECTORS),
        ("EVENTS", EVENTS),
        ("EVENT_LEN", EVENT_LEN),
        ("DRAIN_ROOM", DRAIN_ROOM),
        ("TRACE_MAX", TRACE_MAX),
        ("RECORD_LEN", RECORD_LEN),
        ("RECORDS_MAX", RECORDS_MAX),
        ("BLOCKS_MAX", BLOCKS_MAX),
        ("SHEET_LEN", SHEET_LEN),
        ("SHEET_ROWS", INPUTS + 1),
        ("SHEET_TOTAL", INPUTS),
        ("TALLY_LEN", TALLY_LEN),
        ("LONG_SHEET_LEN", LONG_SHEET_LEN),
    ] {
        assert_eq!(header[name], value as u64, "{name}");
    }
}

#[test]
fn refusals() {
    let header = header();
    let text = |name| {
        let (_, rest) = HEADER.split_once(&format!("case PCH_PIC_{name}: return \""))?;
        rest.split_once('"').map(|(text, _)| text.to_string())
    };
    for (name, error) in [
        ("OUTSIDE", Error::Outside(0)),
        ("WIDTH", Error::Width),
        ("INPUT", Error::Input),
        ("LENGTH", Error::Length),
        ("CONTENTS", Error::Contents),
        ("ROOM", Error::Room),
        ("COPY", Error::Copy(0)),
        ("COUNT", Error::Count(0)),
        ("FLAG", Error::Flag(0)),
        ("UNUSED", Error::Unused(0)),
        ("TRACE", Error::Trace),
        ("RECORD", Error::Record(0)),
        ("ALIGN", Error::Align),
        ("PROFILE", Error::Profile),
        ("EMPTY", Error::Empty),
        ("TALLY", Error::Tally(0)),
    ] {
        assert_eq!(header[name], u64::from(error.number()), "{name}");
        // The crate's text tells the address, the place or the record too.
        let ours = error.to_string().replace(" at 0x0", "").replace(", at byte 0", "").replace(", number 0 from 0 on", "");
        assert_eq!(text(name), Some(ours), "{name}");
    }
}

#[test]
fn places_in_an_image() {
    let header = header();
    for (name, value) in [
        ("IMAGE_BODIES", contents::BODIES),
        ("IMAGE_ENTRIES", contents::ENTRIES),
        ("ENTRY_LEN", contents::ENTRY_LEN),
        ("KIND_REGISTERS", usize::from(contents::REGISTERS)),
        ("KIND_ROUTES", usize::from(contents::ROUTES)),
        ("KIND_VECTORS", usize::from(contents::VECTORS)),
        ("KIND_EVENTS", usize::from(contents::EVENTS)),
        ("KIND_NUMBERS", usize::from(contents::NUMBERS)),
        ("REGISTERS_IRR_BACK", contents::IRR_BACK),
        ("REGISTERS_ISR_BACK", contents::ISR_BACK),
        ("EVENTS_WAITING", contents::WAITING),
        ("EVENTS_DROPS", contents::DROPS),
        ("NUMBERS_NEXT", contents::NEXT),
    ] {
        assert_eq!(header[name], value as u64, "{name}");
    }
}

#[cfg(feature = "std")]
#[test]
fn records() {
    use pch_pic::Record;
    let header = header();
    for (name, record) in [
        ("RAISE", Record::Raise(0)),
        ("LOWER", Record::Lower(0)),
        ("POLL", Record::Poll(0)),
        ("READ", Record::Read { offset: 0, width: 0 }),
        ("WRITE", Record::Write { offset: 0, width: 0, value: 0 }),
        ("DRAIN", Record::Drain),
    ] {
        assert_eq!(header[name], u64::from(record.to_bytes()[0]), "{name}");
    }
    let bytes = Record::Write { offset: 1, width: 1, value: 1 }.to_bytes();
    for place in ["RECORD_BYTE", "RECORD_OFFSET", "RECORD_VALUE"] {
        assert_eq!(bytes[header[place] as usize], 1, "{place}");
    }
}

/// The columns of a sheet have their places, and one name in both hosts.
#[cfg(feature = "std")]
#[test]
fn columns() {
    use pch_pic::sheet::COLUMNS;
    let (header, source) = (header(), include_str!("../../c/sheet.c"));
    let places = ["RAISES", "LOWERS", "ASSERTS", "DEASSERTS", "RETURNED", "OFFERED", "DROPPED", "WAIT", "WITHDRAWN", "OPEN"];
    for (column, (place, name)) in places.iter().zip(COLUMNS).enumerate() {
        assert_eq!(header[&format!("SHEET_{place}")], column as u64, "{place}");
        assert!(source.contains(&format!("[PCH_PIC_SHEET_{place}] = \"{name}\",")), "{place}");
    }
    assert_eq!((header["SHEET_COLUMNS"], header["SHEET_ROW_LEN"]), (COLUMNS.len() as u64, 4 * COLUMNS.len() as u64));
    assert_eq!(header["LONG_ROW_LEN"], 8 * COLUMNS.len() as u64);
}

/// What a recorder refuses has one text in both hosts. In Rust no device is copied or set up anew while it is recorded: its recorder owns it.
#[cfg(feature = "std")]
#[test]
fn recorders() {
    use pch_pic::RecordError::{
        Again, Blocks, Byte, Empty, Ended, Full, Loaded, NotEmpty, Offset, Plan, Planned, Refused, Some as Few, Started,
    };
    let sources = [include_str!("../../c/recorder.c"), include_str!("../../c/days.c")];
    let told = sources
        .iter()
        .flat_map(|source| source.lines())
        .filter_map(|line| line.trim().strip_prefix("case PIC_")?.split_once(": return \""));
    let told: HashMap<_, _> = told.filter_map(|(name, rest)| Some((name, rest.strip_suffix("\";")?.to_string()))).collect();
    let ours = [
        ("FULL", Full),
        ("BLOCKS", Blocks),
        ("EMPTY", Empty),
        ("PLAN", Plan),
        ("PLANNED", Planned),
        ("BYTE", Byte),
        ("OFFSET", Offset),
        ("REFUSED", Refused),
        ("SOME", Few),
        ("AGAIN", Again),
        ("LOADED", Loaded),
        ("STARTED", Started),
        ("OCCUPIED", NotEmpty),
        ("DAY_OVER", Ended),
    ];
    let in_c_alone = ["COPIED", "SET_UP", "NO_DAY", "INSIDE"];
    assert!(in_c_alone.iter().all(|name| told.contains_key(name)));
    assert_eq!(told.len(), ours.len() + in_c_alone.len());
    for (name, error) in ours {
        assert_eq!(told[name], error.to_string(), "{name}");
    }
}

#[test]
fn version() {
    let define = |name: &str| HEADER.lines().find_map(|line| line.strip_prefix(&format!("#define PCH_PIC_VERSION{name} ")));
    let whole = pch_pic::version();
    assert_eq!(whole, env!("CARGO_PKG_VERSION"));
    assert_eq!(define(""), Some(format!("\"{whole}\"").as_str()));
    let parts = ["_MAJOR", "_MINOR", "_PATCH"].map(|part| define(part).unwrap());
    assert_eq!(parts.join("."), whole);
}

#[test]
fn registers() {
    let ours = [
        ("REG_ID", reg::ID),
        ("REG_MASK", reg::MASK),
        ("REG_HTMSI_EN", reg::HTMSI_EN),
        ("REG_EDGE", reg::EDGE),
        ("REG_CLEAR", reg::CLEAR),
        ("REG_AUTO0", reg::AUTO0),
        ("REG_AUTO1", reg::AUTO1),
        ("REG_ROUTES", reg::ROUTES),
        ("REG_VECTORS", reg::VECTORS),
        ("REG_IRR", reg::IRR),
        ("REG_ISR", reg::ISR),
        ("REG_POL", reg::POL),
        ("REG_HIGH", reg::HIGH),
    ];
    let header = header();
    for (name, value) in ours {
        assert_eq!(header[name], value, "{name}");
    }
    assert_eq!(header["WINDOW_LEN"], reg::WINDOW_LEN);
    assert_eq!(header.keys().filter(|name| name.starts_with("REG_")).count(), ours.len());
}
