// Made from crates/table/src/table_rows/rows.rt by tools/portable: do not change it here.
//! The table itself: a number for each of the 1,024 byte offsets, which tells what the byte belongs to. It has 32 rows of 32 bytes: a row for each
//! register, two for the route bytes, two for the vector bytes.

// ---- the numbers

// A register's eight bytes have eight numbers, from a multiple of eight on: four of the low half, four of the high half, from the lowest byte up.

const ID: u8 = 0x08;

const MASK: u8 = 0x10;

const HTMSI_EN: u8 = 0x18;

const EDGE: u8 = 0x20;

const CLEAR: u8 = 0x28;

const AUTO0: u8 = 0x30;

const AUTO1: u8 = 0x38;

const ISR: u8 = 0x40;

const POL: u8 = 0x48;

const IRR: u8 = 0x70;

/// An input's route byte, and its vector byte: the number of the first input's and the input.
const ROUTE: u8 = 0x80;

const VECTOR: u8 = 0xc0;

/// A byte that belongs to nothing.
const NO: u8 = 0;

// ---- the table, by its rows

pub static TABLE: [[u8; 32]; 32] = [
    // 0x000
    ID_ROW,
    MASK_ROW,
    HTMSI_EN_ROW,
    EDGE_ROW,
    CLEAR_ROW,
    NOTHING,
    AUTO0_ROW,
    AUTO1_ROW,
    // 0x100
    ROUTES_0_TO_31,
    ROUTES_32_TO_63,
    NOTHING,
    NOTHING,
    NOTHING,
    NOTHING,
    NOTHING,
    NOTHING,
    // 0x200
    VECTORS_0_TO_31,
    VECTORS_32_TO_63,
    NOTHING,
    NOTHING,
    NOTHING,
    NOTHING,
    NOTHING,
    NOTHING,
    // 0x300
    NOTHING,
    NOTHING,
    NOTHING,
    NOTHING,
    IRR_ROW,
    ISR_ROW,
    NOTHING,
    POL_ROW,
];

const NOTHING: [u8; 32] = [NO; 32];

/// 0x000..0x01f
const ID_ROW: [u8; 32] = [
    // low half
    ID,
    ID + 1,
    ID + 2,
    ID + 3,
    // high half
    ID + 4,
    ID + 5,
    ID + 6,
    ID + 7,
    // nothing
    NO,
    NO,
    NO,
    NO,
    NO,
    NO,
    NO,
    NO,
    NO,
    NO,
    NO,
    NO,
    NO,
    NO,
    NO,
    NO,
    NO,
    NO,
    NO,
    NO,
    NO,
    NO,
    NO,
    NO,
];

/// 0x020..0x03f
const MASK_ROW: [u8; 32] = [
    // low half
    MASK,
    MASK + 1,
    MASK + 2,
    MASK + 3,
    // high half
    MASK + 4,
    MASK + 5,
    MASK + 6,
    MASK + 7,
    // nothing
    NO,
    NO,
    NO,
    NO,
    NO,
    NO,
    NO,
    NO,
    NO,
    NO,
    NO,
    NO,
    NO,
    NO,
    NO,
    NO,
    NO,
    NO,
    NO,
    NO,
    NO,
    NO,
    NO,
    NO,
];

/// 0x040..0x05f
const HTMSI_EN_ROW: [u8; 32] = [
    // low half
    HTMSI_EN,
    HTMSI_EN + 1,
    HTMSI_EN + 2,
    HTMSI_EN + 3,
    // high half
    HTMSI_EN + 4,
    HTMSI_EN + 5,
    HTMSI_EN + 6,
    HTMSI_EN + 7,
    // nothing
    NO,
    NO,
    NO,
    NO,
    NO,
    NO,
    NO,
    NO,
    NO,
    NO,
    NO,
    NO,
    NO,
    NO,
    NO,
    NO,
    NO,
    NO,
    NO,
    NO,
    NO,
    NO,
    NO,
    NO,
];

/// 0x060..0x07f
const EDGE_ROW: [u8; 32] = [
    // low half
    EDGE,
    EDGE + 1,
    EDGE + 2,
    EDGE + 3,
    // high half
    EDGE + 4,
    EDGE + 5,
    EDGE + 6,
    EDGE + 7,
    // nothing
    NO,
    NO,
    NO,
    NO,
    NO,
    NO,
    NO,
    NO,
    NO,
    NO,
    NO,
    NO,
    NO,
    NO,
    NO,
    NO,
    NO,
    NO,
    NO,
    NO,
    NO,
    NO,
    NO,
    NO,
];

/// 0x080..0x09f
const CLEAR_ROW: [u8; 32] = [
    // low half
    CLEAR,
    CLEAR + 1,
    CLEAR + 2,
    CLEAR + 3,
    // high half
    CLEAR + 4,
    CLEAR + 5,
    CLEAR + 6,
    CLEAR + 7,
    // nothing
    NO,
    NO,
    NO,
    NO,
    NO,
    NO,
    NO,
    NO,
    NO,
    NO,
    NO,
    NO,
    NO,
    NO,
    NO,
    NO,
    NO,
    NO,
    NO,
    NO,
    NO,
    NO,
    NO,
    NO,
];

/// 0x0c0..0x0df
const AUTO0_ROW: [u8; 32] = [
    // low half
    AUTO0,
    AUTO0 + 1,
    AUTO0 + 2,
    AUTO0 + 3,
    // high half
    AUTO0 + 4,
    AUTO0 + 5,
    AUTO0 + 6,
    AUTO0 + 7,
    // nothing
    NO,
    NO,
    NO,
    NO,
    NO,
    NO,
    NO,
    NO,
    NO,
    NO,
    NO,
    NO,
    NO,
    NO,
    NO,
    NO,
    NO,
    NO,
    NO,
    NO,
    NO,
    NO,
    NO,
    NO,
];

/// 0x0e0..0x0ff
const AUTO1_ROW: [u8; 32] = [
    // low half
    AUTO1,
    AUTO1 + 1,
    AUTO1 + 2,
    AUTO1 + 3,
    // high half
    AUTO1 + 4,
    AUTO1 + 5,
    AUTO1 + 6,
    AUTO1 + 7,
    // nothing
    NO,
    NO,
    NO,
    NO,
    NO,
    NO,
    NO,
    NO,
    NO,
    NO,
    NO,
    NO,
    NO,
    NO,
    NO,
    NO,
    NO,
    NO,
    NO,
    NO,
    NO,
    NO,
    NO,
    NO,
];

/// 0x380..0x39f
const IRR_ROW: [u8; 32] = [
    // low half
    IRR,
    IRR + 1,
    IRR + 2,
    IRR + 3,
    // high half
    IRR + 4,
    IRR + 5,
    IRR + 6,
    IRR + 7,
    // nothing
    NO,
    NO,
    NO,
    NO,
    NO,
    NO,
    NO,
    NO,
    NO,
    NO,
    NO,
    NO,
    NO,
    NO,
    NO,
    NO,
    NO,
    NO,
    NO,
    NO,
    NO,
    NO,
    NO,
    NO,
];

/// 0x3a0..0x3bf
const ISR_ROW: [u8; 32] = [
    // low half
    ISR,
    ISR + 1,
    ISR + 2,
    ISR + 3,
    // high half
    ISR + 4,
    ISR + 5,
    ISR + 6,
    ISR + 7,
    // nothing
    NO,
    NO,
    NO,
    NO,
    NO,
    NO,
    NO,
    NO,
    NO,
    NO,
    NO,
    NO,
    NO,
    NO,
    NO,
    NO,
    NO,
    NO,
    NO,
    NO,
    NO,
    NO,
    NO,
    NO,
];

/// 0x3e0..0x3ff
const POL_ROW: [u8; 32] = [
    // low half
    POL,
    POL + 1,
    POL + 2,
    POL + 3,
    // high half
    POL + 4,
    POL + 5,
    POL + 6,
    POL + 7,
    // nothing
    NO,
    NO,
    NO,
    NO,
    NO,
    NO,
    NO,
    NO,
    NO,
    NO,
    NO,
    NO,
    NO,
    NO,
    NO,
    NO,
    NO,
    NO,
    NO,
    NO,
    NO,
    NO,
    NO,
    NO,
];

/// 0x100..0x11f
const ROUTES_0_TO_31: [u8; 32] = [
    ROUTE,
    ROUTE + 1,
    ROUTE + 2,
    ROUTE + 3,
    ROUTE + 4,
    ROUTE + 5,
    ROUTE + 6,
    ROUTE + 7,
    ROUTE + 8,
    ROUTE + 9,
    ROUTE + 10,
    ROUTE + 11,
    ROUTE + 12,
    ROUTE + 13,
    ROUTE + 14,
    ROUTE + 15,
    ROUTE + 16,
    ROUTE + 17,
    ROUTE + 18,
    ROUTE + 19,
    ROUTE + 20,
    ROUTE + 21,
    ROUTE + 22,
    ROUTE + 23,
    ROUTE + 24,
    ROUTE + 25,
    ROUTE + 26,
    ROUTE + 27,
    ROUTE + 28,
    ROUTE + 29,
    ROUTE + 30,
    ROUTE + 31,
];

/// 0x120..0x13f
const ROUTES_32_TO_63: [u8; 32] = [
    ROUTE + 32,
    ROUTE + 33,
    ROUTE + 34,
    ROUTE + 35,
    ROUTE + 36,
    ROUTE + 37,
    ROUTE + 38,
    ROUTE + 39,
    ROUTE + 40,
    ROUTE + 41,
    ROUTE + 42,
    ROUTE + 43,
    ROUTE + 44,
    ROUTE + 45,
    ROUTE + 46,
    ROUTE + 47,
    ROUTE + 48,
    ROUTE + 49,
    ROUTE + 50,
    ROUTE + 51,
    ROUTE + 52,
    ROUTE + 53,
    ROUTE + 54,
    ROUTE + 55,
    ROUTE + 56,
    ROUTE + 57,
    ROUTE + 58,
    ROUTE + 59,
    ROUTE + 60,
    ROUTE + 61,
    ROUTE + 62,
    ROUTE + 63,
];

/// 0x200..0x21f
const VECTORS_0_TO_31: [u8; 32] = [
    VECTOR,
    VECTOR + 1,
    VECTOR + 2,
    VECTOR + 3,
    VECTOR + 4,
    VECTOR + 5,
    VECTOR + 6,
    VECTOR + 7,
    VECTOR + 8,
    VECTOR + 9,
    VECTOR + 10,
    VECTOR + 11,
    VECTOR + 12,
    VECTOR + 13,
    VECTOR + 14,
    VECTOR + 15,
    VECTOR + 16,
    VECTOR + 17,
    VECTOR + 18,
    VECTOR + 19,
    VECTOR + 20,
    VECTOR + 21,
    VECTOR + 22,
    VECTOR + 23,
    VECTOR + 24,
    VECTOR + 25,
    VECTOR + 26,
    VECTOR + 27,
    VECTOR + 28,
    VECTOR + 29,
    VECTOR + 30,
    VECTOR + 31,
];

/// 0x220..0x23f
const VECTORS_32_TO_63: [u8; 32] = [
    VECTOR + 32,
    VECTOR + 33,
    VECTOR + 34,
    VECTOR + 35,
    VECTOR + 36,
    VECTOR + 37,
    VECTOR + 38,
    VECTOR + 39,
    VECTOR + 40,
    VECTOR + 41,
    VECTOR + 42,
    VECTOR + 43,
    VECTOR + 44,
    VECTOR + 45,
    VECTOR + 46,
    VECTOR + 47,
    VECTOR + 48,
    VECTOR + 49,
    VECTOR + 50,
    VECTOR + 51,
    VECTOR + 52,
    VECTOR + 53,
    VECTOR + 54,
    VECTOR + 55,
    VECTOR + 56,
    VECTOR + 57,
    VECTOR + 58,
    VECTOR + 59,
    VECTOR + 60,
    VECTOR + 61,
    VECTOR + 62,
    VECTOR + 63,
];
