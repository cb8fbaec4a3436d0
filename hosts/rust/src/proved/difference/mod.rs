// Made from crates/difference/src/lib.rt by tools/portable: do not change it here.
//! The difference of the numbers of two events, for whoever puts returned and drained events in order (02, C-19). It requires nothing.

/// How far later stands ahead of earlier, from -32,768 to 32,767; negative where it stands behind. Since 0 comes after 65,535, the subtract is the one that
/// wraps; and it wraps numbers without a sign alone, so the sign is given here: from 32,768 on, what is left of the way round is the way back.
/// By hand, and not by a cast: each of its lines has an edit that makes it wrong.
///
/// ```text
/// ensures { result ≡ difference_of later earlier }
/// ```
pub fn pch_pic_difference(later: u16, earlier: u16) -> i16 {
    let ahead = u16::wrapping_sub(later, earlier);
    if ahead < 32768 {
        ahead as i16
    } else {
        (ahead as i32 - 65536) as i16
    }
}
