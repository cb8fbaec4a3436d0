//! The picture: one SVG, with a lane for each input and records from left to right.
//!
//! What belongs to records is drawn in an inner SVG whose unit is a record, so that it may be drawn as wide as is wished; widths of lines, marks and letters
//! do not grow with it. A run of records is a piece of a path, so a lane has a handful of elements, however long the day is. Where even the pieces are too many, a step
//! of the picture is several records, and what was in one of them is drawn in all of the step.

use crate::lanes::{Day, Lane, Run, ends, push_step};
use crate::text::counted;
use pch_pic::EVENTS;
use std::fmt::Write;

/// Heights in pixels: the axis, the ring's lane, and an input's. page.css has them too, for the names and the sheet.
pub const AXIS: usize = 26;
pub const RING: usize = 54;
pub const LANE: usize = 30;

/// So many records, as a part of the whole width.
fn percent(records: usize, day: &Day) -> String {
    format!("{:.3}%", 100.0 * records as f64 / day.part.len() as f64)
}

/// A place in the day, as a part of the whole width.
fn across(record: usize, day: &Day) -> String {
    percent(day.place(record), day)
}

fn boxes(runs: &[Run], top: usize, height: usize) -> String {
    runs.iter().map(|run| format!("M{} {top}h{}v{height}h-{}z", run.first, run.len, run.len)).collect()
}

fn lines(runs: &[Run], middle: usize) -> String {
    runs.iter().map(|run| format!("M{} {middle}h{}", run.first, run.len)).collect()
}

/// A path of that class, if there is something to draw.
fn path(out: &mut String, class: &str, d: &str) {
    if !d.is_empty() {
        let _ = writeln!(out, "<path class=\"{class}\" d=\"{d}\"/>");
    }
}

/// A lane has the waits and the service above, the latch below them, and the mask behind all.
const BAND: (usize, usize) = (4, 14);
const LATCH: (usize, usize) = (20, 5);

fn write_lane(out: &mut String, day: &Day, lane: &Lane, top: usize) {
    let _ = writeln!(out, "<g class=\"lane\" data-input=\"{}\" transform=\"translate(0 {top})\">", lane.input);
    path(out, "masked", &boxes(&day.drawn(&lane.masked), 0, LANE));
    path(out, "latched", &boxes(&day.drawn(&lane.latched), LATCH.0, LATCH.1));
    path(out, "served", &boxes(&day.drawn(&lane.served), BAND.0, BAND.1));
    let waits = &lane.boxes;
    // What was withdrawn or is open is over the limit by its edge alone. Where a step has several records, boxes may lie on each other, and those with no mark of their own come last.
    let mut kinds = [("wait", &waits.wait), ("over", &waits.over), ("gone", &waits.gone), ("open", &waits.open), ("edge", &waits.edge)];
    kinds[1..4].rotate_left(usize::from(day.unit > 1));
    for (class, runs) in kinds {
        path(out, class, &boxes(&day.drawn(runs), BAND.0, BAND.1));
    }
    let middle = BAND.0 + BAND.1 / 2;
    path(out, "stripes", &(lines(&day.drawn(&waits.wait), middle) + &lines(&day.drawn(&waits.over), middle)));
    out.push_str("</g>\n");
}

/// So many crosses are drawn as such at most: each is an element of its own, and thousands of them make a page slow.
const CROSSES: usize = 1500;

/// Whether marks stand in rows of their own, as small dots in one path each: where a step has several records, or there are too many crosses. So none hides another, nor a wait.
fn in_rows(day: &Day) -> bool {
    day.unit > 1 || (!day.is_plain() && day.lanes.iter().map(|lane| lane.crosses.len()).sum::<usize>() > CROSSES)
}

/// The rows of a lane: dropped asserts above the waits, dropped deasserts on the latch, withdrawn waits at the foot.
const ROWS: [usize; 3] = [2, 22, 27];

/// What keeps its size: the numbers and marks of waits.
fn write_marks(out: &mut String, day: &Day, lane: &Lane, top: usize) {
    let middle = top + BAND.0 + BAND.1 / 2;
    for record in lane.crosses.iter().filter(|_| !in_rows(day)) {
        let _ = writeln!(out, "<use href=\"#gone\" x=\"{}\" y=\"{middle}\"/>", across(*record, day));
    }
    if lane.open.is_some() && day.part.end == day.records {
        let _ = writeln!(out, "<use href=\"#open\" x=\"100%\" y=\"{middle}\"/>");
    }
    let greatest = lane.greatest.map(|waited| waited.wait).filter(|wait| day.touches(wait.raised, ends(wait, day.records)));
    if let Some(wait) = greatest {
        let length = wait.length().unwrap_or(0);
        let class = if length as u64 == day.sheet.total().greatest_wait { "number most" } else { "number" };
        // It stands in the box or right of it, and at the day's end left of its end.
        let late = day.place(wait.raised) * 10 > day.part.len() * 9;
        let (x, side) = if late { (ends(&wait, day.records).min(day.part.end), " end") } else { (wait.raised, "") };
        let _ = writeln!(out, "<text class=\"{class}{side}\" x=\"{}\" y=\"{}\">{length}</text>", across(x, day), middle + 4);
    }
}

/// Of 1, 2 or 5 times a power of ten the least that makes ten steps of the day, or fewer.
fn step(records: usize) -> usize {
    let steps = (0..12).flat_map(|power| [1, 2, 5].map(|factor| factor * 10_usize.pow(power)));
    steps.into_iter().find(|step| records / step <= 10).unwrap_or(records)
}

fn write_axis(out: &mut String, day: &Day) {
    let step = step(day.part.len());
    for record in (day.part.start.next_multiple_of(step)..day.part.end).step_by(step) {
        let x = across(record, day);
        let late = day.place(record) * 20 > day.part.len() * 19;
        // Where numbers are long, the last would run into the one before it: its tick stands alone.
        if late && !day.is_plain() {
            let _ = writeln!(out, "<line class=\"tick\" x1=\"{x}\" x2=\"{x}\" y1=\"{}\" y2=\"{AXIS}\"/>", AXIS - 7);
            continue;
        }
        // At the day's end a number stands left of its tick, so that it is not cut.
        let side = if late { " end" } else { "" };
        // Where numbers are long, a narrow window has one of three, and none that would be cut at the end.
        let more = !day.is_plain() && (matches!(record / step % 3, 1 | 2) || day.place(record) * 20 > day.part.len() * 16);
        let side = if more { format!("{side} more") } else { side.into() };
        let _ = writeln!(
            out,
            "<line class=\"tick\" x1=\"{x}\" x2=\"{x}\" y1=\"{}\" y2=\"{AXIS}\"/><text class=\"at{side}\" x=\"{x}\" y=\"14\">{}</text>",
            AXIS - 7,
            counted(record)
        );
    }
}

/// Where the ring's lane has its foot, and how high an event is in it.
const FOOT: usize = AXIS + RING - 4;
const UNIT: f64 = 2.5;

/// How many events wait, 0 to 16, as steps from the left to the right; and the line at 16.
fn write_ring(out: &mut String, day: &Day) {
    let high = |waiting: u8| FOOT as f64 - UNIT * f64::from(waiting);
    let (mut d, mut last, first) = (format!("M0 {FOOT}"), 0, day.part.start / day.unit);
    for (at, most) in day.ring.iter().enumerate().map(|(at, most)| (day.place((first + at) * day.unit), *most)) {
        if most != last {
            last = most;
            let _ = write!(d, "H{at}V{}", high(last));
        }
    }
    let _ = writeln!(out, "<path class=\"ring\" data-foot=\"{FOOT}\" data-unit=\"{UNIT}\" d=\"{d}H{}V{FOOT}z\"/>", day.part.len());
    path(out, "full", &format!("M0 {}H{}", high(EVENTS as u8), day.part.len()));
}

/// Dropped events: a piece of no length with round ends is a dot, whatever the width of the day. Of a deassert it is a ring, with the ground in its middle.
fn write_dots(out: &mut String, day: &Day, lane: &Lane, top: usize) {
    let middle = top + BAND.0 + BAND.1 / 2;
    let dots = |steps: &[usize], y: usize| steps.iter().map(|step| format!("M{}.5 {y}h0", day.place(*step))).collect::<String>();
    let rows = in_rows(day);
    let [above, latch, foot] = if rows { ROWS.map(|row| top + row) } else { [middle; 3] };
    let (asserts, deasserts) = (dots(&lane.unannounced, above), dots(&lane.left_on, latch));
    if rows {
        out.push_str("<g class=\"rows\">\n");
        path(out, "taken", &dots(&lane.crosses, foot));
    } else {
        path(out, "halo", &format!("{asserts}{deasserts}"));
    }
    for (class, dots) in [("drop", &asserts), ("left", &deasserts)] {
        if !dots.is_empty() {
            let _ = writeln!(out, "<path class=\"{class}\" data-input=\"{}\" d=\"{dots}\"/>", lane.input);
        }
    }
    path(out, "core", &deasserts);
    if rows {
        out.push_str("</g>\n");
    }
}

/// A hole is a heavy line, with what is lost above it; what comes behind the first one is washed out, as far as there is something.
fn write_holes(out: &mut String, day: &Day, height: usize) {
    if let Some(from) = day.wrong_from().filter(|from| *from < day.part.end) {
        let (x, middle) = (across(from, day), (AXIS + height) / 2);
        let high = height - AXIS;
        let _ = writeln!(
            out,
            "<rect class=\"wash\" x=\"{x}\" y=\"{AXIS}\" width=\"{}\" height=\"{high}\"/>",
            percent(day.part.end - from.max(day.part.start), day)
        );
        let _ = writeln!(out, "<line class=\"behind\" x1=\"{x}\" x2=\"100%\" y1=\"{middle}\" y2=\"{middle}\" stroke-width=\"{high}\"/>");
    }
    for hole in day.holes.iter().filter(|hole| (day.part.start..=day.part.end).contains(&hole.at)) {
        let (x, late) = (across(hole.at, day), day.place(hole.at) * 2 > day.part.len());
        let (side, lost) =
            (if late { " end" } else { "" }, format!("{}{}", if hole.at_most() { "at most " } else { "" }, counted(hole.lost())));
        let _ = writeln!(
            out,
            "<line class=\"hole\" data-at=\"{}\" x1=\"{x}\" x2=\"{x}\" y1=\"{AXIS}\" y2=\"{height}\"/><text class=\"hole{side}\" x=\"{x}\" y=\"{}\">hole: {lost} missing</text>",
            hole.at,
            AXIS + 12
        );
    }
}

/// More ends of traces than these are drawn faintly, and more clearly as the day is drawn wider; and so many are told by their number.
const ENDS: usize = 40;
const NUMBERED: usize = 12;

/// Where the traces of the day begin, but for the first: a line, and which one it is.
fn write_ends(out: &mut String, day: &Day, height: usize) {
    let starts = day.traces.iter().enumerate().skip(1).map(|(at, told)| (at + 1, told.first));
    let starts: Vec<(usize, usize)> = starts.filter(|(_, first)| day.part.contains(first)).collect();
    let mut drawn = Vec::new();
    starts.iter().for_each(|(_, first)| push_step(&mut drawn, day.unit, *first));
    let down = |foot: usize| drawn.iter().map(|first| format!("M{} {AXIS}V{foot}", day.place(*first))).collect::<String>();
    if !drawn.is_empty() {
        let class = if drawn.len() <= ENDS { "ends" } else { "ends many" };
        let _ = writeln!(
            out,
            "<svg width=\"100%\" height=\"{height}\" viewBox=\"0 0 {} {height}\" preserveAspectRatio=\"none\">",
            day.part.len()
        );
        path(out, class, &down(height));
        path(out, "ends", &down(AXIS + 5));
        out.push_str("</svg>\n");
    }
    for (number, first) in starts.iter().filter(|_| starts.len() <= NUMBERED) {
        let _ = writeln!(out, "<text class=\"of\" x=\"{}\" y=\"{}\">trace {number}</text>", across(*first, day), AXIS + 24);
    }
}

pub fn picture(day: &Day) -> String {
    let mut out = String::new();
    let top = |at: usize| AXIS + RING + LANE * at;
    let height = top(day.lanes.len());
    // A part of a day counts from its first record.
    let first = if day.part.start == 0 { String::new() } else { format!("data-first=\"{}\" ", day.part.start) };
    let _ = writeln!(
        out,
        "<svg id=\"picture\" width=\"100%\" height=\"{height}\" {first}data-records=\"{}\" data-unit=\"{}\" data-top=\"{}\" data-lane=\"{LANE}\" role=\"img\" \
         aria-label=\"The day, a lane for each input, records from left to right\">",
        day.part.len(),
        day.unit,
        top(0)
    );
    let _ =
        writeln!(out, "<svg width=\"100%\" height=\"{height}\" viewBox=\"0 0 {} {height}\" preserveAspectRatio=\"none\">", day.part.len());
    write_ring(&mut out, day);
    let blocks = day.block_starts.iter().filter(|at| day.is_one() || (day.unit == 1 && day.part.contains(at)));
    path(&mut out, "block", &blocks.map(|at| format!("M{} {AXIS}V{height}", day.place(*at))).collect::<String>());
    for (at, lane) in day.lanes.iter().enumerate() {
        write_lane(&mut out, day, lane, top(at));
    }
    let rules: String = (0..=day.lanes.len()).map(|at| format!("M0 {}H{}", top(at), day.part.len())).collect();
    path(&mut out, "rule", &rules);
    for (at, lane) in day.lanes.iter().enumerate() {
        write_dots(&mut out, day, lane, top(at));
    }
    out.push_str("</svg>\n");
    write_axis(&mut out, day);
    write_ends(&mut out, day, height);
    for (at, lane) in day.lanes.iter().enumerate() {
        write_marks(&mut out, day, lane, top(at));
    }
    write_holes(&mut out, day, height);
    let _ = writeln!(out, "<line id=\"hair\" x1=\"0\" x2=\"0\" y1=\"{AXIS}\" y2=\"{height}\"/>\n</svg>");
    out
}
