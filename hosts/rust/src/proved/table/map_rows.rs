// Made from crates/table/src/map_rows.rt by tools/portable: do not change it here.
//! The rows in which the map is printed: a register's half, the route bytes, the vector bytes, and what lies between.

use super::look;
use super::Place;

/// ```text
/// ensures { result ≡ is_nothing (place_view place) }
/// ```
fn is_nothing(place: Place) -> bool {
    matches!(place, Place::Nothing)
}

/// Whether a row begins at a place, behind a row that began at another.
///
/// ```text
/// ensures { result ≡ begins (place_view first) (place_view next) }
/// ```
fn begins(first: Place, next: Place) -> bool {
    match next {
        Place::Part { byte, .. } => byte == 0,
        Place::Route(input) | Place::Vector(input) => input == 0,
        Place::Nothing => !is_nothing(first),
    }
}

/// Where the row ends that begins at an offset.
///
/// ```text
/// requires { Agrees table.now × (start < 1024) }
/// ensures { Row start result }
/// ```
pub fn row_end(table: &[[u8; 32]; 32], start: usize) -> usize {
    let first = look(table, start);
    for at in start + 1..1024 {
        if begins(first, look(table, at)) {
            return at;
        }
    }
    1024
}
