//! What was asked for, and words and numbers as the page has them.

use std::collections::BTreeMap;
use std::ops::Range;

/// What was asked for: the day's title and date as given, names of inputs, and how long a wait may be.
pub struct Asked {
    pub title: String,
    pub file: String,
    /// What ./run is to play for all records of the day.
    pub play: String,
    /// The SHA-256 of its list, where it has one.
    pub list: Option<String>,
    pub date: Option<String>,
    pub version: String,
    pub names: BTreeMap<usize, String>,
    /// In records.
    pub limit: Option<usize>,
    /// In milliseconds.
    pub limit_ms: Option<u64>,
    /// How many records a step of the picture has at least.
    pub coarse: usize,
    /// Which records of the day are drawn; to its end where that comes first.
    pub part: Range<usize>,
}

/// Text as it may stand in a page.
pub fn escaped(text: &str) -> String {
    text.replace('&', "&amp;").replace('<', "&lt;").replace('>', "&gt;").replace('"', "&quot;")
}

/// A number as people write it: 4,000.
pub fn counted(number: usize) -> String {
    let digits = number.to_string();
    let mut text = String::new();
    for (at, digit) in digits.chars().enumerate() {
        if at > 0 && digits.len() % 3 == at % 3 {
            text.push(',');
        }
        text.push(digit);
    }
    text
}

/// So many of them, with the word for one or for several.
pub fn plural(number: usize, one: &str, many: &str) -> String {
    format!("{} {}", counted(number), if number == 1 { one } else { many })
}

/// Microseconds as milliseconds, with three places.
pub fn milliseconds(micros: u64) -> String {
    format!("{}.{:03} ms", counted((micros / 1000) as usize), micros % 1000)
}

impl Asked {
    /// An input as it is spoken of.
    pub fn name(&self, input: usize) -> String {
        match self.names.get(&input) {
            Some(name) => format!("input {input}, {}", escaped(name)),
            None => format!("input {input}"),
        }
    }

    /// Whether a wait of so many records, and of so many microseconds by the clock, is over a limit, if there is one.
    pub fn too_long(&self, records: usize, took: Option<u64>) -> bool {
        self.limit.is_some_and(|limit| records > limit)
            || self.limit_ms.zip(took).is_some_and(|(limit, took)| took > limit.saturating_mul(1000))
    }

    /// The limits in words, if there is one.
    pub fn limits(&self) -> Option<String> {
        let records = self.limit.map(|limit| plural(limit, "record", "records"));
        let time = self.limit_ms.map(|limit| format!("{} ms", counted(limit as usize)));
        let limits: Vec<String> = records.into_iter().chain(time).collect();
        if limits.is_empty() { None } else { Some(limits.join(" or ")) }
    }
}

/// Numbers with commas, the first so many of them.
pub fn listed(numbers: &[usize], most: usize) -> String {
    let first: Vec<String> = numbers.iter().take(most).map(usize::to_string).collect();
    first.join(", ") + if numbers.len() > most { " and on" } else { "" }
}

/// A line of a file of names: an input's number, and its name.
fn named(line: &str) -> Option<(usize, String)> {
    let (input, name) = line.trim().split_once(char::is_whitespace)?;
    let input = input.parse().ok().filter(|input| *input < pch_pic::INPUTS)?;
    Some((input, name.trim().to_string()))
}

/// The names of inputs, one line for each of them, in the text of a file that is called so. Empty lines are passed over.
pub fn names(file: &str, text: &str) -> Result<BTreeMap<usize, String>, String> {
    let mut names = BTreeMap::new();
    for (number, line) in text.lines().enumerate().filter(|(_, line)| !line.trim().is_empty()) {
        let at = |why: &str| format!("{file}, line {}: {why}", number + 1);
        let (input, name) = named(line).ok_or_else(|| at("it is no input and its name"))?;
        if names.insert(input, name).is_some() {
            return Err(at(&format!("input {input} has a name already")));
        }
    }
    Ok(names)
}
