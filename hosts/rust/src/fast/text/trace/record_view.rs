// Made from crates/trace/src/record_view.rt by tools/portable: do not change it here.
//! A view over a lent trace: it holds the trace's bytes and a place, and shows the record there as a part of them.
//! Its methods are thin: what is to be worked out stands in `record_bytes`, over plain parameters. Callers reach a record by `record_at`, whose parameters are plain too.

use super::record_bytes::fields;
use super::record_bytes::part_at;
use super::record_bytes::Record;
use super::record_bytes::LENGTH;

#[derive(Clone, Copy)]
pub struct View<'a> {
    trace: &'a [u8],
    place: usize,
}

impl<'a> View<'a> {
    /// The view of a place.
    ///
    /// ```text
    /// requires { place + record_length ≤ length trace.now }
    /// ensures { Shows result trace.now place }
    /// ```
    #[inline]
    pub fn view_at(trace: &'a [u8], place: usize) -> View<'a> {
        assert!(16 <= trace.len() && place <= trace.len() - 16);
        View { trace, place }
    }

    /// The record that it shows, as a part of the trace.
    ///
    /// ```text
    /// requires { Inside self }
    /// ensures { result.now ≡ part_shown self.entry }
    /// ```
    #[inline]
    pub fn shown(self) -> &'a [u8] {
        part_at(self.trace, self.place)
    }

    /// That record by value.
    ///
    /// ```text
    /// requires { Inside self }
    /// ensures { record_view result ≡ record_of (part_shown self.entry) }
    /// ```
    #[inline]
    pub fn record_of(self) -> Record {
        fields(self.shown())
    }

    /// The view of the place behind that record.
    ///
    /// ```text
    /// requires { Inside self }
    /// ensures { Shows result self.entry.trace.now (self.entry.place + record_length) }
    /// ```
    #[inline]
    pub fn next(self) -> View<'a> {
        View {
            place: self.place + LENGTH,
            ..self
        }
    }
}

/// The record at a place, by way of a view of it.
///
/// ```text
/// requires { place + record_length ≤ length trace.now }
/// ensures { record_view result ≡ record_at place trace.now }
/// ```
#[inline]
pub fn record_at(trace: &[u8], place: usize) -> Record {
    assert!(16 <= trace.len() && place <= trace.len() - 16);
    View::view_at(trace, place).record_of()
}
