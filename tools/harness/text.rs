//! One call as a line of words: a failure is printed so, and `tools/differential --one` takes it back.

use crate::call::{Call, From};
use crate::case::{Case, Front};
use crate::days::Play;
use crate::lent::Areas;
use std::collections::HashMap;

/// A call as it reads, with all that it is lent, so that it can be made again alone.
pub struct Line {
    pub call: Call,
    pub image: Vec<u8>,
    pub answer: usize,
    pub events: usize,
    pub null: bool,
    pub fill: u64,
    pub head: usize,
}

/// The name and the numbers of a call.
fn words(call: &Call) -> String {
    match *call {
        Call::Reset => "reset".into(),
        Call::Read { base, size, address, width } => format!("read base={base:#x} size={size:#x} address={address:#x} width={width:#x}"),
        Call::Write { base, size, address, width, value } => {
            format!("write base={base:#x} size={size:#x} address={address:#x} width={width:#x} value={value:#x}")
        }
        Call::Level { input, level } => format!("level input={input:#x} level={level:#x}"),
        Call::Poll { input } => format!("poll input={input:#x}"),
        Call::Drain { place } => format!("drain place={place:#x}"),
        Call::Convert { target } => format!("convert target={target:#x}"),
    }
}

pub fn line(call: &Call, image: &[u8], lent: &Areas, fill: u64, head: usize) -> String {
    let what = words(call);
    let null = lent.image.null || lent.answer.null || lent.events.null;
    let bytes: String = image.iter().map(|byte| format!("{byte:02x}")).collect();
    format!(
        "{what} answer={:#x} events={:#x} null={} fill={fill:#x} head={head:#x} image={bytes}",
        lent.answer.len, lent.events.len, null as u8
    )
}

/// A play in the same way, `play` from a reset or `play-on`; its trace is in a file.
pub fn play_line(play: &Play, file: &str) -> String {
    let Play { ref image, answers, events, answer, null, fill, .. } = *play;
    let bytes: String = image.iter().map(|byte| format!("{byte:02x}")).collect();
    let name = if play.from == From::Image { "play-on" } else { "play" };
    format!(
        "{name} trace={file} answers={answers:#x} events={events:#x} answer={answer:#x} null={} fill={fill:#x} image={bytes}",
        null as u8
    )
}

/// The name of a front's call.
pub fn front_name(front: &Front) -> String {
    front_words(front).split(' ').next().unwrap_or_default().into()
}

fn front_words(front: &Front) -> String {
    match front {
        Front::Plain(call) => format!("plain-{}", words(call)),
        Front::Convert => "front-convert".into(),
        Front::Difference { later, earlier } => format!("front-difference later={later:#x} earlier={earlier:#x}"),
        Front::Play(From::Reset) => "front-play".into(),
        Front::Play(From::Image) => "front-play-on".into(),
        Front::Board(call) => format!("board-{}", words(call)),
        Front::Event { vector, flag } => format!("board-event vector={vector:#x} flag={flag:#x}"),
        Front::Hoist(call) => format!("hoist-{}", words(call)),
        Front::EndStartup => "hoist-end".into(),
        Front::Salvage => "salvage".into(),
        Front::Sheet => "sheet".into(),
        Front::Waiting => "waiting".into(),
        Front::TallyBegin => "tally-begin".into(),
        Front::TallyAdd => "tally-add".into(),
        Front::TallySheet => "tally-sheet".into(),
    }
}

/// A front's call in the same way; each area has its bytes, and of a long one the bytes are in a file beside the program.
pub fn front_line(case: &Case, failure: u64) -> String {
    let mut line = format!("{} null={}", front_words(&case.front), case.null as u8);
    for (name, bytes) in case.front.areas().iter().zip(&case.areas) {
        let beside = std::env::current_exe().unwrap_or_default().with_file_name(format!("failed-{failure}.{name}"));
        let hex: String = bytes.iter().map(|byte| format!("{byte:02x}")).collect();
        if bytes.len() <= 320 || std::fs::write(&beside, bytes).is_err() {
            line += &format!(" {name}={hex}");
        } else {
            line += &format!(" {name}=@{}", beside.display());
        }
    }
    line
}

/// A front's call back from its words; none where the name is no front's.
pub fn parse_front(words: &[String]) -> Option<Result<Case, String>> {
    let (name, words) = words.split_first()?;
    let known = match name.as_str() {
        "salvage" | "sheet" | "waiting" | "hoist-end" | "board-event" | "front-convert" | "front-difference" | "front-play"
        | "front-play-on" => name.as_str(),
        "tally-begin" | "tally-add" | "tally-sheet" => name.as_str(),
        name => name.split_once('-').filter(|(front, _)| ["plain", "board", "hoist"].contains(front))?.1,
    };
    Some(case_of(name, known, words))
}

fn case_of(name: &str, call: &str, words: &[String]) -> Result<Case, String> {
    let known = [
        "base",
        "size",
        "address",
        "width",
        "value",
        "input",
        "level",
        "place",
        "vector",
        "flag",
        "null",
        "image",
        "events",
        "answer",
        "board",
        "phase",
        "trace",
        "kept",
        "list",
        "sheet",
        "tally",
        "later",
        "earlier",
        "target",
        "difference",
        "answers",
    ];
    let fields = Fields::of(words, &known)?;
    let byte = |name: &str| u8::try_from(fields.need(name)?).map_err(|_| format!("{name}= is over 255"));
    let event = |name: &str| u16::try_from(fields.need(name)?).map_err(|_| format!("{name}= is over 65535"));
    let front = match call {
        "front-convert" => Front::Convert,
        "front-difference" => Front::Difference { later: event("later")?, earlier: event("earlier")? },
        "front-play" => Front::Play(From::Reset),
        "front-play-on" => Front::Play(From::Image),
        "salvage" => Front::Salvage,
        "sheet" => Front::Sheet,
        "waiting" => Front::Waiting,
        "tally-begin" => Front::TallyBegin,
        "tally-add" => Front::TallyAdd,
        "tally-sheet" => Front::TallySheet,
        "hoist-end" => Front::EndStartup,
        "board-event" => Front::Event { vector: byte("vector")?, flag: byte("flag")? },
        _ => match (call_of(call, &fields)?, name.split('-').next()) {
            (Call::Convert { .. }, _) => return Err(format!("'{name}' is no call of a front")),
            (call, Some("board")) => Front::Board(call),
            (call @ (Call::Reset | Call::Read { .. } | Call::Write { .. }), Some("hoist")) => Front::Hoist(call),
            (call, Some("plain")) => Front::Plain(call),
            _ => return Err(format!("'{name}' is no call of a front")),
        },
    };
    let areas = front.areas().iter().map(|name| fields.bytes(name)).collect::<Result<_, _>>()?;
    Ok(Case { front, areas, null: fields.number("null", 0)? != 0 })
}

/// The words NAME=VALUE of a line.
struct Fields<'a>(HashMap<&'a str, &'a str>);

impl<'a> Fields<'a> {
    fn of(words: &'a [String], known: &[&str]) -> Result<Self, String> {
        let mut fields = HashMap::new();
        for word in words {
            let (name, value) = word.split_once('=').ok_or(format!("'{word}' is no NAME=VALUE"))?;
            if !known.contains(&name) {
                return Err(format!("'{name}=' is no name of a call's"));
            }
            fields.insert(name, value);
        }
        Ok(Fields(fields))
    }

    fn text(&self, name: &str) -> Result<&'a str, String> {
        self.0.get(name).copied().ok_or(format!("{name}= is missing"))
    }

    fn need(&self, name: &str) -> Result<u64, String> {
        let value = self.text(name)?;
        let parsed = match value.strip_prefix("0x") {
            Some(digits) => u64::from_str_radix(digits, 16),
            None => value.parse(),
        };
        parsed.map_err(|_| format!("{name}={value} is no number"))
    }

    fn number(&self, name: &str, or: u64) -> Result<u64, String> {
        if self.0.contains_key(name) { self.need(name) } else { Ok(or) }
    }

    fn length(&self, name: &str, or: u64, most: usize) -> Result<usize, String> {
        let value = self.number(name, or)?;
        if value <= most as u64 { Ok(value as usize) } else { Err(format!("{name}= is over {most}")) }
    }

    /// Bytes as pairs of hex digits, or from a file.
    fn bytes(&self, name: &str) -> Result<Vec<u8>, String> {
        let digits = self.text(name)?;
        if let Some(file) = digits.strip_prefix('@') {
            return std::fs::read(file).map_err(|error| format!("{file}: {error}"));
        }
        (0..digits.len())
            .step_by(2)
            .map(|i| digits.get(i..i + 2).and_then(|pair| u8::from_str_radix(pair, 16).ok()))
            .collect::<Option<Vec<u8>>>()
            .ok_or(format!("{name}= wants pairs of hex digits"))
    }

    fn image(&self) -> Result<Vec<u8>, String> {
        let image = self.bytes("image")?;
        if image.len() <= 320 { Ok(image) } else { Err("image= is over 320 bytes".into()) }
    }
}

const FILL: u64 = 0xeeee_eeee_eeee_eeee;

/// The line back from its words, or what is wrong with it.
pub fn parse(words: &[String]) -> Result<Line, String> {
    let (kind, words) = words.split_first().ok_or("no call is named")?;
    let known = [
        "base", "size", "address", "width", "value", "input", "level", "place", "target", "image", "answer", "events", "null", "fill",
        "head",
    ];
    let fields = Fields::of(words, &known)?;
    let call = call_of(kind, &fields)?;
    Ok(Line {
        call,
        answer: fields.length("answer", 16, 48)?,
        events: fields.length("events", 0, 96)?,
        null: fields.number("null", 0)? != 0,
        fill: fields.number("fill", FILL)?,
        head: fields.length("head", 0, 15)?,
        image: fields.image()?,
    })
}

/// A call back from its name and its numbers.
fn call_of(kind: &str, fields: &Fields) -> Result<Call, String> {
    let need = |name: &str| fields.need(name);
    let access = || -> Result<(u64, u64, u64, u64), String> { Ok((need("base")?, need("size")?, need("address")?, need("width")?)) };
    Ok(match kind {
        "reset" => Call::Reset,
        "read" => {
            let (base, size, address, width) = access()?;
            Call::Read { base, size, address, width }
        }
        "write" => {
            let (base, size, address, width) = access()?;
            Call::Write { base, size, address, width, value: need("value")? }
        }
        "level" => Call::Level { input: need("input")?, level: need("level")? },
        "poll" => Call::Poll { input: need("input")? },
        "drain" => Call::Drain { place: need("place")? },
        "convert" => Call::Convert { target: fields.length("target", need("target")?, 320)? },
        other => return Err(format!("'{other}' is none of reset, read, write, level, poll, drain, convert, play, play-on")),
    })
}

/// A play back from the words behind its name.
pub fn parse_play(from: From, words: &[String]) -> Result<Play, String> {
    let fields = Fields::of(words, &["trace", "image", "answers", "events", "answer", "null", "fill"])?;
    let file = fields.text("trace")?;
    Ok(Play {
        from,
        trace: std::fs::read(file).map_err(|error| format!("{file}: {error}"))?,
        image: fields.image()?,
        answers: fields.length("answers", 64_000, 1 << 20)?,
        events: fields.length("events", 256_000, 1 << 20)?,
        answer: fields.length("answer", 16, 1 << 20)?,
        null: fields.number("null", 0)? != 0,
        fill: fields.number("fill", FILL)?,
    })
}
