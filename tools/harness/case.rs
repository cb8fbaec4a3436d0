//! A call of a front as data, with the bytes of all that it is lent.

use crate::call::{Call, From};
use crate::lent::Block;

/// The fronts' calls with their numbers, and the plain calls beside them. What a difference hands back is put into an area, as if it had been lent one.
#[derive(Clone, Copy, Debug, PartialEq, Eq)]
pub enum Front {
    Plain(Call),
    Convert,
    Difference { later: u16, earlier: u16 },
    Play(From),
    Board(Call),
    Event { vector: u8, flag: u8 },
    Hoist(Call),
    EndStartup,
    Salvage,
    Sheet,
    Waiting,
    TallyBegin,
    TallyAdd,
    TallySheet,
}

impl Front {
    /// What it is lent, in the order of the areas of a case.
    pub fn areas(&self) -> &'static [&'static str] {
        match self {
            Front::Plain(_) => &["image", "events", "answer"],
            Front::Convert => &["image", "target", "answer"],
            Front::Difference { .. } => &["difference"],
            Front::Play(_) => &["trace", "image", "answers", "events", "answer"],
            Front::Board(_) => &["image", "events", "answer", "board"],
            Front::Event { .. } => &["board", "answer"],
            Front::Hoist(_) | Front::EndStartup => &["image", "phase", "answer"],
            Front::Salvage => &["trace", "kept", "list", "answer"],
            Front::Sheet => &["trace", "sheet", "answer"],
            Front::Waiting => &["image", "answer"],
            Front::TallyBegin => &["tally", "answer"],
            Front::TallyAdd => &["trace", "image", "tally", "answer"],
            Front::TallySheet => &["tally", "sheet", "answer"],
        }
    }
}

/// The areas hold these bytes before the call; an empty one is a null pointer where `null` says so.
#[derive(Clone, Debug, PartialEq, Eq)]
pub struct Case {
    pub front: Front,
    pub areas: Vec<Vec<u8>>,
    pub null: bool,
}

impl Case {
    pub fn lent(&self) -> Vec<Block> {
        assert_eq!(self.areas.len(), self.front.areas().len(), "each area has its bytes");
        self.areas.iter().map(|bytes| Block::of(bytes, self.null)).collect()
    }
}

/// A case, the number that 02 expects of it, and the bytes of the areas after it.
#[allow(dead_code)]
#[derive(PartialEq, Eq)]
pub struct Made {
    pub case: Case,
    pub number: u8,
    pub left: Vec<Vec<u8>>,
}
