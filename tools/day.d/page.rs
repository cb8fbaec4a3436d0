//! The page: page.html with its parts filled in.

use crate::gather::{Source, moments};
use crate::lanes::{Day, Lane};
use crate::picture::{AXIS, LANE, RING, picture};
use crate::text::{Asked, counted, escaped, milliseconds, plural};
use crate::{findings, words};
use pch_pic::sheet::{COLUMNS, LongRow};
use std::collections::BTreeSet;
use std::fmt::Write;

/// A tile. A number that goes over a hole is not the day's, and has a star.
fn tile(day: &Day, class: &str, number: u64, name: &str, more: &str) -> String {
    let more = if more.is_empty() { String::new() } else { format!("<dd class=\"more\">{more}</dd>") };
    let star = if day.wrong_from().is_some() { "*" } else { "" };
    format!("<div class=\"{class}\"><dt>{name}</dt><dd>{}{star}</dd>{more}</div>\n", counted(number as usize))
}

/// Whose the greatest wait is, and how long it was by the clock.
fn longest(asked: &Asked, day: &Day) -> String {
    let of = |lane: &&Lane| day.sheet.inputs()[lane.input].greatest_wait;
    let Some(lane) = day.lanes.iter().rev().filter(|lane| of(lane) > 0).max_by_key(of) else { return String::new() };
    let time = lane.greatest.and_then(|waited| waited.took).map_or(String::new(), |time| format!(", {}", milliseconds(time)));
    format!("records{time}, {}", asked.name(lane.input))
}

/// The day's counts; those that tell of trouble come first, and stand out where they are not 0.
fn tiles(asked: &Asked, day: &Day) -> String {
    let total = day.sheet.total();
    let [unannounced, left_on] = day.all_dropped.map(|count| count as u64);
    let who = longest(asked, day);
    let trouble = [
        (total.greatest_wait, "wait", "greatest wait", who.as_str()),
        (unannounced, "drop", "asserts dropped", "samples not announced"),
        (left_on, "left", "deasserts dropped", "lines left on"),
        (total.withdrawn, "gone", "withdrawn", ""),
        (total.open, "open", "open at the end", ""),
    ];
    let plain = [(total.raises, "raises"), (total.lowers, "lowers"), (total.asserts, "asserts"), (total.deasserts, "deasserts")];
    let over = day.all_over as u64;
    let class = |number: u64, class| if number > 0 { class } else { "none" };
    let limit = asked.limits().map_or(String::new(), |limit| tile(day, class(over, "over"), over, &format!("waits over {limit}"), ""));
    let trouble = trouble.map(|(number, kind, name, more)| tile(day, class(number, kind), number, name, more));
    limit + &trouble.concat() + &plain.map(|(number, name)| tile(day, "plain", number, name, "")).concat()
}

/// What the page is of: enough to find the day again, and to know that it is the same.
fn identity(asked: &Asked, day: &Day) -> String {
    let (one, timed) = (day.traces.len() == 1 && day.ended.is_none(), day.traces.iter().filter(|told| told.timed).count());
    let without = if timed < day.traces.len() {
        format!("; {} without times", plural(day.traces.len() - timed, "trace", "traces"))
    } else {
        String::new()
    };
    let parts = [
        (if one { "trace" } else { "day" }, (asked.title != asked.file).then(|| asked.file.clone())),
        ("date", asked.date.clone()),
        ("by the clock", day.clock.map(|time| milliseconds(time) + &without)),
        ("SHA-256 of the trace", one.then(|| day.traces[0].digest.clone())),
        ("SHA-256 of day.list", asked.list.clone()),
        ("drawn by version", Some(asked.version.clone()).filter(|version| !version.is_empty())),
    ];
    let part =
        |(name, value): (&str, Option<String>)| value.map(|value| format!("<div><dt>{name}</dt><dd>{}</dd></div>\n", escaped(&value)));
    parts.into_iter().filter_map(part).collect()
}

/// How many traces a page names at most.
const NAMED: usize = 1000;

/// The traces of a day of several, each with its digest.
fn traces(day: &Day) -> String {
    if day.traces.len() == 1 && day.ended.is_none() {
        return String::new();
    }
    let row = |(at, told): (usize, &crate::lanes::Told)| {
        let (last, name) = (told.first + told.records - 1, escaped(&told.name));
        format!("<tr><th scope=\"row\">{}</th><td>{name}</td><td>{}</td><td>{last}</td><td>{}</td></tr>\n", at + 1, told.first, told.digest)
    };
    let rows: String = day.traces.iter().enumerate().take(NAMED).map(row).collect();
    let more = match day.traces.len().saturating_sub(NAMED) {
        0 => String::new(),
        more => format!("<p>{} more are not named; day.list has all.</p>\n", counted(more)),
    };
    format!(
        "<details class=\"traces\"><summary>{} of the day</summary>\n<table>\n<thead><tr><th scope=\"col\">trace</th><th scope=\"col\">file</th><th scope=\"col\">from record</th>\
         <th scope=\"col\">to</th><th scope=\"col\">SHA-256</th></tr></thead>\n<tbody>\n{rows}</tbody>\n</table>\n{more}</details>\n",
        plural(day.traces.len(), "trace", "traces")
    )
}

/// A day whose list has no end: nobody ended it.
fn not_ended(day: &Day) -> &'static str {
    if day.ended != Some(false) || !day.holes.is_empty() {
        return "";
    }
    "<p class=\"warning\"><strong>The day was not ended.</strong> Its recorder stopped without a word, and the open block may be lost. What is here is the day as far as it goes.</p>\n"
}

/// Above all else, where the day has a hole.
fn warning(day: &Day) -> String {
    let lost: usize = day.holes.iter().map(|hole| hole.lost()).sum();
    let missing = plural(lost, "record of the day is missing", "records of the day are missing");
    match day.wrong_from() {
        Some(from) => format!(
            "<p class=\"warning\"><strong>From record {from} on this is not the day.</strong> {missing}, and what comes behind a hole is played on another state than the \
             day had: it may show asserts that never were, and hide those that were. Every number with a star, and the sheet, go over the hole.</p>\n"
        ),
        None if lost > 0 && day.holes.iter().all(|hole| hole.at_most()) => format!(
            "<p class=\"warning\"><strong>The day was not ended.</strong> At most {} of it, the open block, may be missing behind the last one here. What is here is the day's, exactly.</p>\n",
            plural(lost, "record", "records")
        ),
        None if lost > 0 => format!(
            "<p class=\"warning\"><strong>The day went on.</strong> {missing} behind the last one here. What is here is the day's, exactly.</p>\n"
        ),
        None => String::new(),
    }
}

fn names(asked: &Asked, day: &Day) -> String {
    let name = |input| asked.names.get(&input).map_or(String::new(), |name| format!(" <span>{}</span>", escaped(name)));
    let lines = day
        .lanes
        .iter()
        .map(|lane| format!("<div class=\"name\" id=\"n{0}\" data-input=\"{0}\"><b>{0}</b>{1}</div>\n", lane.input, name(lane.input)));
    lines.collect()
}

/// A row of the sheet, with what stands out in it marked. Where the sheet stands by itself, its rows tell the names too, which page.css takes from the label.
fn row(label: &str, data: &str, name: &str, row: &LongRow, most: u64) -> String {
    let mut out = String::new();
    let _ = write!(out, "<tr{data}><th scope=\"row\"{name}>{label}</th>");
    for (name, number) in COLUMNS.iter().zip(row.numbers()) {
        let class = match (*name, number) {
            (_, 0) => " class=\"zero\"",
            ("greatest wait", number) if number == most => " class=\"wait\"",
            ("dropped", _) => " class=\"drop\"",
            ("withdrawn", _) => " class=\"gone\"",
            ("open", _) => " class=\"open\"",
            _ => "",
        };
        let _ = write!(out, "<td{class}>{number}</td>");
    }
    out + "</tr>\n"
}

fn rows(asked: &Asked, day: &Day) -> String {
    let most = day.sheet.total().greatest_wait;
    let rows = day.lanes.iter().map(|lane| {
        let name = asked.names.get(&lane.input).map_or(String::new(), |name| format!(" data-name=\"{}\"", escaped(name)));
        row(&lane.input.to_string(), &format!(" data-input=\"{}\"", lane.input), &name, &day.sheet.inputs()[lane.input], most)
    });
    rows.collect()
}

/// No type on paper is under this many pixels, which are 7 points.
const LEAST: f64 = 28.0 / 3.0;

/// On paper the lanes are drawn as small as it takes to have them on one page, upright where there are more than twenty; their letters are drawn larger by as much.
fn paper(day: &Day) -> String {
    let height = (AXIS + RING + LANE * day.lanes.len()) as f64;
    // Eleven lanes and less find room below what stands out, as a rule.
    let (side, room) = match day.lanes.len() {
        0..=11 => ("landscape", 320.0),
        12..=20 => ("landscape", 590.0),
        _ => ("portrait", 900.0),
    };
    let zoom = f64::min(1.0, room / height);
    let letters = f64::max(LEAST, 10.0) / zoom;
    format!(
        "@media print {{ @page {{ size: A4 {side} }} .drawn {{ zoom: {zoom:.3} }} .names, #picture text {{ font-size: {letters:.2}px !important }} }}\n"
    )
}

/// How many bytes a picture has at most: a longer day is drawn in steps of two records, of four, and so on. So a page is bounded, however long the day is. That of several
/// traces has lists that one trace has not, and so less room.
const MOST: usize = 1_400_000;
const MOST_OF_SEVERAL: usize = 1_000_000;

/// The picture, and in the day how many records a step of it has.
fn drawn(day: &mut Day) -> String {
    let most = if day.is_one() { MOST } else { MOST_OF_SEVERAL };
    day.unit = day.unit.min(day.records);
    loop {
        let picture = picture(day);
        if picture.len() <= most || day.unit >= day.records {
            return picture;
        }
        day.widen();
    }
}

/// How many records there are, in what, and which of them are here.
fn told(day: &Day) -> String {
    let (records, work) = (plural(day.records, "record", "records"), plural(day.lanes.len(), "input", "inputs"));
    let within = if day.traces.len() == 1 { plural(day.blocks, "block", "blocks") } else { plural(day.traces.len(), "trace", "traces") };
    let part = if day.is_whole() {
        String::new()
    } else {
        let (first, last) = (counted(day.part.start), counted(day.part.end - 1));
        format!(". Drawn and listed here are records {first} to {last}; counts and sheet are of the whole day")
    };
    format!("{records} in {within}, {work} of 64 at work{part}")
}

pub fn page(asked: &Asked, day: &mut Day, source: &mut dyn Source) -> Result<String, String> {
    let picture = drawn(day);
    let (day, findings, lists) = (&*day, findings::section(asked, day), findings::lists(asked, day));
    let listed = listed(asked, day, ROOM.saturating_sub(picture.len() + findings.len() + lists.len()) / LINE);
    let total = day.sheet.total();
    let all = listed.len() == day.part.len();
    let records = plural(day.part.len(), "record", "records");
    let parts = [
        ("style", include_str!("page.css").to_string() + if day.is_plain() { "" } else { include_str!("several.css") } + &paper(day)),
        // Without a script the day is drawn as wide as it has records, as far as that goes.
        ("records", day.part.len().min(20_000).to_string()),
        ("limited", if asked.limits().is_some() { " class=\"limited\"" } else { "" }.to_string()),
        ("told", told(day)),
        ("counted", if all { format!("All {records}") } else { format!("{} of {records}", counted(listed.len())) }),
        ("steps", steps(asked, day, all)),
        ("identity", identity(asked, day)),
        ("warning", warning(day) + not_ended(day)),
        ("wrong", day.wrong_from().map_or(String::new(), |from| from.to_string())),
        ("star", if day.wrong_from().is_some() { "<caption>Counted over a hole: not the day's.</caption>\n" } else { "" }.to_string()),
        ("columns", COLUMNS.map(|name| format!("<th scope=\"col\"><span>{name}</span></th>")).concat()),
        ("total", row("total", "", "", total, total.greatest_wait)),
        ("rows", rows(asked, day)),
        ("tiles", tiles(asked, day)),
        ("names", names(asked, day)),
        ("picture", picture),
        ("ends", if day.traces.len() == 1 { "" } else { ENDS }.to_string()),
        ("findings", findings),
        ("lists", lists),
        ("title", escaped(&asked.title)),
        ("traces", traces(day)),
        ("all", escaped(&lines(day, &listed, source)?)),
        ("script", include_str!("page.js").to_string()),
    ];
    Ok(filled(include_str!("page.html"), &parts))
}

/// What the legend has of a day of several traces.
const ENDS: &str = "<li><svg class=\"key\"><path class=\"ends\" d=\"M16 0v16\"/></svg>a trace ends, and the next begins</li>\n";

/// How many records a page has as text at most, where it cannot have all.
const LINES: usize = 4000;
/// How far around a place.
const AROUND: usize = 12;
/// The bytes that a page of several traces has for picture, findings and lines, and how many of them a line takes, as a rule.
const ROOM: usize = 2_800_000;
const LINE: usize = 130;

/// The records that the page has as text: all, or on a long day the first and the last ones, and those around what stands out, as far as there is room for lines.
fn listed(asked: &Asked, day: &Day, room: usize) -> Vec<usize> {
    let (part, one) = (&day.part, day.is_one());
    if day.unit == 1 && part.len() <= 4 * LINES && (one || part.len() <= room) {
        return part.clone().collect();
    }
    let most = LINES.min(if one { (part.len() / day.unit).max(200) } else { room });
    let around = |record: usize| record.saturating_sub(AROUND).max(part.start)..(record + AROUND + 1).min(part.end);
    let mut listed = BTreeSet::new();
    for record in [part.start, part.end - 1].into_iter().chain(findings::places(asked, day)).flat_map(around) {
        if listed.len() < most {
            listed.insert(record);
        }
    }
    listed.into_iter().collect()
}

/// The records as text, on a day of several traces with a line where each begins, and one where some are left out.
fn lines(day: &Day, listed: &[usize], source: &mut dyn Source) -> Result<String, String> {
    let (mut out, mut before) = (String::new(), None);
    moments(day, listed, source, |moment, time| {
        let trace = day.trace_of(moment.number);
        let begins = before.is_none_or(|before| day.trace_of(before) != trace);
        if day.traces.len() > 1 && begins {
            let told = &day.traces[trace];
            let (first, last) = (told.first, told.first + told.records - 1);
            let _ = writeln!(out, "---- trace {}, {}: records {first} to {last} ----", trace + 1, told.name);
        } else if !day.is_one() && before.is_some_and(|before| before + 1 != moment.number) {
            out += " ...\n";
        }
        before = Some(moment.number);
        out += &words::line(moment, time);
        out.push('\n');
    })?;
    Ok(out)
}

/// What a long day's page leaves out, and how it is seen.
fn steps(asked: &Asked, day: &Day, all: bool) -> String {
    let step = if day.unit == 1 {
        String::new()
    } else {
        format!(" A step of the picture is {} records: what was in one of them is drawn in all of the step.", counted(day.unit))
    };
    let rows = if day.unit == 1 {
        ""
    } else {
        " Marks stand in rows of their own, so that none hides another: dropped asserts above the waits, dropped deasserts on the latch, withdrawn waits at the foot of the lane."
    };
    let exact = if day.unit > 1 && !day.is_one() {
        " tools/day --from N --to M draws a part of the day, record by record where it is short."
    } else {
        ""
    };
    let left = match all {
        true => String::new(),
        false if day.is_one() => " As text it has the records around what stands out; ./run --play prints all.".into(),
        false => format!(" As text it has the records around what stands out; ./run --play {} prints all.", escaped(&asked.play)),
    };
    step + &left + rows + exact
}

/// A text with each `[name]` replaced by its part. What the parts themselves have in brackets stays.
fn filled(text: &str, parts: &[(&str, String)]) -> String {
    let mut out = String::new();
    let mut rest = text;
    while let Some((before, behind)) = rest.split_once('[') {
        let (name, after) = behind.split_once(']').expect("a bracket is closed");
        let (_, part) = parts.iter().find(|(known, _)| *known == name).expect("a part has its text");
        out += before;
        out += part;
        rest = after;
    }
    out + rest
}
