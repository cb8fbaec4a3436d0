//! What stands out in a day: holes, refused records, the longest waits and all that are over the limit, drops, open waits and withdrawn ones, each in a sentence that
//! leads to its place.

use crate::lanes::{Day, Drops, Found, Lane, Lost, Waited, ends};
use crate::text::{Asked, counted, listed, milliseconds, plural};
use pch_pic::history::End;
use std::fmt::Write;

/// One thing that an engineer looks for: a sentence, and the record where it is to be seen, and the input if it is of one.
struct Finding {
    input: Option<usize>,
    record: usize,
    /// The last record that the sentence rests on.
    last: usize,
    text: String,
}

/// What is missing, and what that does to all that comes behind it.
fn holes(day: &Day) -> Vec<Finding> {
    let told = day.holes.iter().map(|hole| {
        let lost = plural(hole.lost(), "record", "records");
        let (first, last) = (counted(hole.first), counted(hole.last));
        let text = if hole.at_most() {
            format!("the day was not ended: at most {lost} of it, {first} to {last}, are missing behind the last one. What is here is the day as far as it goes.")
        } else if hole.at == day.records {
            format!("the trace ends at a hole: {lost} of the day, {first} to {last}, are missing behind it. What is here is the day as far as it goes.")
        } else {
            format!("a hole before record {}: {lost} of the day, {first} to {last}, are missing. From there on nothing that is shown is the day's.", hole.at)
        };
        let record = hole.at.min(day.records - 1);
        Finding { input: None, record, last: 0, text }
    });
    told.collect()
}

/// How long a wait took: in records, and by the clock where there is one.
fn took(day: &Day, waited: &Waited) -> String {
    let records = plural(ends(&waited.wait, day.records) - waited.wait.raised, "record", "records");
    match waited.took {
        Some(time) => format!("{records}, {}", milliseconds(time)),
        None => records,
    }
}

/// The longest wait of each input, longest first.
fn long_waits(asked: &Asked, day: &Day) -> Vec<Finding> {
    let mut longest: Vec<(&Lane, Waited)> = day.lanes.iter().filter_map(|lane| Some((lane, lane.greatest?))).collect();
    longest.sort_by_key(|(_, waited)| std::cmp::Reverse(waited.wait.length()));
    let told = longest.into_iter().map(|(lane, waited)| {
        let (raised, end) = (waited.wait.raised, ends(&waited.wait, day.records));
        let text = format!("{}: the longest wait took {}, from record {raised} to {end}.", asked.name(lane.input), took(day, &waited));
        Finding { input: Some(lane.input), record: raised, last: end, text }
    });
    told.collect()
}

/// The longest wait by the clock, where another one is the longest in records.
fn longest_in_time(asked: &Asked, day: &Day) -> Vec<Finding> {
    let longest = day.longest_in_time.filter(|longest| !day.lanes.iter().any(|lane| lane.greatest == Some(*longest)));
    let told = longest.map(|waited| {
        let (input, raised, end) = (waited.wait.input, waited.wait.raised, ends(&waited.wait, day.records));
        let took = took(day, &waited);
        let text = format!("{}: the longest wait by the clock took {took}, from record {raised} to {end}.", asked.name(input));
        Finding { input: Some(input), record: raised, last: end, text }
    });
    told.into_iter().collect()
}

/// All refused records in one sentence. It is of no input: what is refused may name none.
fn refused(day: &Day) -> Vec<Finding> {
    let (count, records) = (day.refused.count, &day.refused.listed);
    let Some(&record) = records.first() else { return Vec::new() };
    let were = plural(count, "record was", "records were");
    let word = if count == 1 { "record" } else { "records" };
    let text = format!("{were} refused, and did nothing: {word} {}.", listed(records, 6));
    vec![Finding { input: None, record, last: record, text }]
}

/// All drops of a kind in one sentence: how many, whose, where the first ones are, and what was lost by it.
fn dropped(asked: &Asked, drops: &Drops, kind: [&str; 2], lost: [&str; 2]) -> Vec<Finding> {
    let Some((record, input)) = drops.first else { return Vec::new() };
    let inputs: Vec<usize> = (0..pch_pic::INPUTS).filter(|input| drops.inputs >> input & 1 == 1).collect();
    let whose = match inputs[..] {
        [one] => asked.name(one),
        _ => format!("{} inputs ({})", inputs.len(), listed(&inputs, 12)),
    };
    let one = drops.count == 1;
    let (events, were, lost) = (plural(drops.count, kind[0], kind[1]), if one { "was" } else { "were" }, lost[usize::from(!one)]);
    let word = if drops.at.len() == 1 { "record" } else { "records" };
    let text = format!("{events} of {whose} {were} dropped, at {word} {}: {lost}.", listed(&drops.at, 6));
    vec![Finding { input: Some(input), record, last: drops.last, text }]
}

fn unannounced(asked: &Asked, day: &Day) -> Vec<Finding> {
    dropped(asked, &day.unannounced, ["assert", "asserts"], ["a sample that nobody announced", "samples that nobody announced"])
}

fn left_on(asked: &Asked, day: &Day) -> Vec<Finding> {
    dropped(asked, &day.left_on, ["deassert", "deasserts"], ["a line that was left on", "lines that were left on"])
}

fn open_waits(asked: &Asked, day: &Day) -> Vec<Finding> {
    let end = if day.went_on() { "where the trace ends" } else { "at the end" };
    let told = day.lanes.iter().filter_map(|lane| lane.open).map(|waited| {
        let (input, raised) = (waited.wait.input, waited.wait.raised);
        let text = format!("{} still waits {end}: raised at record {raised}, {} before.", asked.name(input), took(day, &waited));
        Finding { input: Some(input), record: raised, last: day.records - 1, text }
    });
    told.collect()
}

fn withdrawn_waits(asked: &Asked, day: &Day) -> Vec<Finding> {
    let first = day.lanes.iter().filter_map(|lane| Some((lane.withdrawn, lane.first_withdrawn?)));
    let told = first.map(|(count, waited)| {
        let (input, raised, end) = (waited.wait.input, waited.wait.raised, ends(&waited.wait, day.records));
        let how = if waited.lowered { "its line was lowered" } else { "the guest cleared it" };
        let which = if count == 1 { "" } else { "; the first" };
        let waits = plural(count, "wait", "waits");
        let text = format!("{}: {waits} withdrawn{which}, raised at record {raised}: at record {end} {how}.", asked.name(input));
        Finding { input: Some(input), record: raised, last: end, text }
    });
    told.collect()
}

/// How many of each kind are shown before the list is folded.
const SHOWN: usize = 3;

/// What is shown at once, the most telling of each kind, and what is folded.
fn findings(asked: &Asked, day: &Day) -> (Vec<Finding>, Vec<Finding>) {
    let (mut shown, mut folded) = (holes(day), Vec::new());
    let kinds = [
        refused(day),
        long_waits(asked, day),
        longest_in_time(asked, day),
        unannounced(asked, day),
        left_on(asked, day),
        open_waits(asked, day),
        withdrawn_waits(asked, day),
    ];
    for mut kind in kinds {
        kind.retain(|finding| day.touches(finding.record, finding.last));
        folded.extend(kind.split_off(kind.len().min(SHOWN)));
        shown.extend(kind);
    }
    (shown, folded)
}

/// A link to a place in the picture; to the nearest one that is drawn.
fn link(day: &Day, input: Option<usize>, record: usize, text: &str) -> String {
    let (place, input) = match input {
        Some(input) => (format!("n{input}"), input.to_string()),
        None => ("picture".into(), String::new()),
    };
    let record = record.clamp(day.part.start, day.part.end - 1);
    format!("<a href=\"#{place}\" data-input=\"{input}\" data-record=\"{record}\">{text}</a>")
}

fn item(day: &Day, finding: &Finding) -> String {
    let mut text = finding.text.clone();
    text[..1].make_ascii_uppercase();
    let wrong = if day.is_wrong(finding.last) { " <strong>Behind a hole: not the day's.</strong>" } else { "" };
    format!("<li>{}{wrong}</li>\n", link(day, finding.input, finding.record, &text))
}

/// A table in a fold: its class, what it tells, the names of its columns, its rows, and how many more there are that are not listed. A short one over the limit is open.
fn table<T>(day: &Day, class: &str, told: &str, columns: &[&str], found: &Found<T>, row: impl Fn(&T) -> String) -> String {
    let rows: String = found.listed.iter().map(row).collect();
    let more = match found.count.saturating_sub(found.listed.len()) {
        0 => String::new(),
        more if day.is_plain() => format!("<p>{} more are not listed.</p>\n", counted(more)),
        more => format!("<p>{} more are not listed: tools/day --from N --to M lists those of a part of the day.</p>\n", counted(more)),
    };
    // On paper a long list stands in columns.
    let (before, behind) = if class == "over" && !is_long(day) { ("", "") } else { ("<div class=\"columns\">", "</div>\n") };
    let columns: String = columns.iter().filter(|name| !name.is_empty()).map(|name| format!("<th scope=\"col\">{name}</th>")).collect();
    format!(
        "<details class=\"{class}\"{}><summary>{told}</summary>\n{before}<table>\n<thead><tr>{columns}</tr></thead>\n<tbody>\n{rows}</tbody>\n</table>\n{behind}{more}</details>\n",
        if class == "over" && found.count <= 12 { " open" } else { "" }
    )
}

/// Every wait over the limit, however it ended, longest first.
fn over_limit(asked: &Asked, day: &Day) -> String {
    let Some(limit) = asked.limits() else { return String::new() };
    let here = if day.is_whole() { "" } else { " here" };
    if day.over.count == 0 {
        return format!("<p>No wait is over the limit of {limit}{here}.</p>\n");
    }
    let clock = if day.clock.is_some() { "by the clock" } else { "" };
    let columns = ["input", "from record", "to", "records", clock, "its end"];
    let told = format!("{} over the limit of {limit}{here}", plural(day.over.count, "wait", "waits"));
    table(day, "over", &told, &columns, &day.over, |waited| wait_row(asked, day, waited))
}

fn wait_row(asked: &Asked, day: &Day, waited: &Waited) -> String {
    let (wait, end) = (&waited.wait, ends(&waited.wait, day.records));
    let (to, how) = match wait.end {
        End::Asserted(record) => (record.to_string(), "asserted"),
        End::Withdrawn(record) => (record.to_string(), "withdrawn"),
        End::Open => ("-".into(), "open at the end"),
    };
    let wrong = if day.is_wrong(end.min(day.records - 1)) { ", behind a hole" } else { "" };
    let clock = match (day.clock, waited.took) {
        (Some(_), Some(time)) => format!("<td>{}</td>", milliseconds(time)),
        (Some(_), None) => "<td>-</td>".into(),
        (None, _) => String::new(),
    };
    let (place, records) = (link(day, Some(wait.input), wait.raised, &capital(asked, wait.input)), end - wait.raised);
    format!("<tr><th scope=\"row\">{place}</th><td>{}</td><td>{to}</td><td>{records}</td>{clock}<td>{how}{wrong}</td></tr>\n", wait.raised)
}

/// An input's name as it begins a line.
fn capital(asked: &Asked, input: usize) -> String {
    let mut name = asked.name(input);
    name[..1].make_ascii_uppercase();
    name
}

/// Every dropped event and every withdrawn wait in its order, but on the page of one trace that draws each.
fn each_one(asked: &Asked, day: &Day) -> String {
    if day.is_plain() {
        return String::new();
    }
    let (here, mut out) = (if day.is_whole() { "" } else { " here" }, String::new());
    let lost = |lost: &Lost| {
        let what = if lost.asserted { "assert: not announced" } else { "deassert: left on" };
        let wrong = if day.is_wrong(lost.record) { ", behind a hole" } else { "" };
        let place = link(day, Some(lost.input), lost.record, &capital(asked, lost.input));
        format!("<tr><th scope=\"row\">{place}</th><td>{}</td><td>{what}{wrong}</td></tr>\n", lost.record)
    };
    if day.lost.count > 0 {
        let told = format!("{} dropped{here}, each with its record", plural(day.lost.count, "event", "events"));
        out += &table(day, "each", &told, &["input", "record", "what was dropped"], &day.lost, lost);
    }
    if day.withdrawn.count > 0 {
        let clock = if day.clock.is_some() { "by the clock" } else { "" };
        let columns = ["input", "from record", "to", "records", clock, "its end"];
        let told = format!("{} withdrawn{here}, each with its records", plural(day.withdrawn.count, "wait", "waits"));
        out += &table(day, "each", &told, &columns, &day.withdrawn, |waited| wait_row(asked, day, waited));
    }
    out
}

/// The records that the findings and the lists lead to, for the records that a long day's page has as text.
pub fn places(asked: &Asked, day: &Day) -> Vec<usize> {
    let (shown, folded) = findings(asked, day);
    let found = shown.iter().chain(&folded).flat_map(|finding| [finding.record, finding.last]);
    let lost = day.lost.listed.iter().map(|lost| lost.record);
    let waits = day.over.listed.iter().chain(&day.withdrawn.listed);
    found.chain(lost).chain(waits.flat_map(|waited| [waited.wait.raised, ends(&waited.wait, day.records)])).collect()
}

const NOTHING_HERE: &str = "<p>Nothing here. Other parts of the day may have something.</p>\n";

/// The section of the page.
pub fn section(asked: &Asked, day: &Day) -> String {
    let (shown, folded) = findings(asked, day);
    let mut out = String::new();
    let listed = day.over.count + day.lost.count + day.withdrawn.count;
    if shown.is_empty() && !day.is_whole() {
        out += if listed > 0 { "" } else { NOTHING_HERE };
    } else if shown.is_empty() {
        out += "<p>Nothing. Each raise was asserted at once or needed no assert, no record was refused, no event was dropped, and nothing waits at the end.</p>\n";
    } else {
        let _ = write!(out, "<ul>\n{}</ul>\n", shown.iter().map(|finding| item(day, finding)).collect::<String>());
    }
    if !folded.is_empty() {
        let items: String = folded.iter().map(|finding| item(day, finding)).collect();
        let _ = write!(out, "<details><summary>{} more</summary>\n<ul>\n{items}</ul>\n</details>\n", folded.len());
    }
    if is_long(day) {
        out += "<p>Each wait over the limit, dropped event and withdrawn wait is listed below the picture.</p>\n";
        return out;
    }
    out + &over_limit(asked, day)
}

/// How many waits over the limit stand above the picture at most, but on the page of one trace that draws each record.
const ABOVE: usize = 40;

fn is_long(day: &Day) -> bool {
    !day.is_plain() && day.over.count > ABOVE
}

/// What stands below the picture: the lists of a day that has more than the sentences tell.
pub fn lists(asked: &Asked, day: &Day) -> String {
    let over = if is_long(day) { over_limit(asked, day) } else { String::new() };
    match over + &each_one(asked, day) {
        lists if lists.is_empty() => lists,
        lists => format!("<section class=\"findings lists\">\n<h2>Each of them</h2>\n{lists}</section>\n"),
    }
}
