//! One call made on both sides, and everything compared: the number handed back, and every byte of image, answer area, event buffer, target and
//! of the edges around them. Then it is made on the same image in the other forms, and must come to the same.

use crate::boundary::{Boundary, straddles};
use crate::call::Call;
use crate::case::Front;
use crate::caught::caught;
use crate::fixed::{History, Says};
use crate::image::{self, Form, Image, ONE};
use crate::lent::Areas;
use crate::numbers::is_difference;
use crate::text;
use crate::under_test;

/// What answer areas and event buffers hold before a call, where nothing random is wanted.
pub const FILL: u64 = 0x9d8c_7b6a_5948_3726;

/// What the calls of a run met, so that one sees whether the generators reach what they should.
#[derive(Default)]
pub struct Met {
    /// Calls by kind, in the order of `Call`.
    pub kinds: [u64; 7],
    /// Calls by the number that 01 expects.
    pub numbers: [u64; 12],
    pub vectors_returned: u64,
    pub events_drained: u64,
    /// Calls on an image with 16 waiting.
    pub full_ring: u64,
    /// Calls that dropped events, and those that found or left the count at its stop.
    pub dropping: u64,
    pub at_stop: u64,
    /// Calls on an image with masked bits in ISR.
    pub masked_isr: u64,
    /// Accesses over the window's end, where 02's rule is expected and not the Rust.
    pub straddling: u64,
    /// Calls on an image of each form, and calls that were made again in another form.
    pub forms: [u64; 3],
    pub again: u64,
    /// Calls on numbered images that made an event after number 65,535.
    pub wrapping: u64,
    /// Differences of two numbers.
    pub differences: u64,
    /// After each call, who waits: by the number that is expected; those that had some, and the most of them.
    pub looks: [u64; 12],
    pub waiting: u64,
    pub most_waiting: u32,
    /// What was met in traces.
    pub traces: MetInTraces,
    /// What was met by the later fronts.
    pub fronts: MetByFronts,
}

/// What the plays of a run met; all but the first of those that were done.
#[derive(Default)]
pub struct MetInTraces {
    /// Plays by the number that is expected: from a reset, and on from an image.
    pub plays: [[u64; 14]; 2],
    /// By the image's form.
    pub forms: [u64; 3],
    /// Records, refused ones among them, the most in one trace, and those that were held against calls made one by one.
    pub records: u64,
    pub refused: u64,
    pub longest: u64,
    pub one_by_one: u64,
    /// Records of traces that were played one after another as one day.
    pub in_turn: u64,
    /// Events returned, drained, dropped; and traces whose numbers went round.
    pub returned: u64,
    pub drained: u64,
    pub dropped: u64,
    pub round: u64,
}

/// What the calls of the later fronts met.
#[derive(Default)]
pub struct MetByFronts {
    /// Calls by the number that 02 expects: with a board, events heard by one, under the profile and its ends of start-up, salvages, sheets, those of a tally, and plain calls among them.
    pub boards: [u64; 18],
    pub heard: [u64; 18],
    pub hoists: [u64; 18],
    pub ends: [u64; 18],
    pub salvages: [u64; 18],
    pub sheets: [u64; 18],
    pub tallies: [u64; 18],
    pub plain: [u64; 18],
    /// And conversions, differences, plays and looks at who waits that were made as such calls.
    pub others: [u64; 18],
    /// Blocks kept and dropped by salvages that were done; outcomes that were salvaged again and played; good traces that came out as they were.
    pub kept: u64,
    pub dropped: u64,
    pub again: u64,
    pub unchanged: u64,
    /// Calls with a board that held other counts than the image's, calls on one that was right and of which only those counts changed that may, loads, and the greatest count on a board.
    pub garbage: u64,
    pub frames: u64,
    pub loads: u64,
    pub greatest: u8,
    /// Histories after which a second board, driven by events alone, was equal to the first; the events that it heard, the most in one, and those out of order as they came.
    pub seconds: u64,
    pub events: u64,
    pub most_events: u64,
    pub reordered: u64,
    /// Calls under the profile after which demand 3's account was held against a recount; vector writes done in start-up while one of their inputs was in service.
    pub accounts: u64,
    pub beside_service: u64,
    /// Records on sheets, the greatest wait, withdrawn and open ones.
    pub records: u64,
    pub greatest_wait: u32,
    pub withdrawn: u64,
    pub open: u64,
    /// Days of traces whose sheet was held against those of the traces, the most traces in one, and waits that were carried from a trace to the next.
    pub days: u64,
    pub most_traces: u64,
    pub carried: u64,
}

impl MetByFronts {
    pub fn meet(&mut self, front: &Front, number: u8) {
        let met = match front {
            Front::Plain(_) => &mut self.plain,
            Front::Convert | Front::Difference { .. } | Front::Play(_) | Front::Waiting => &mut self.others,
            Front::Board(_) => &mut self.boards,
            Front::Event { .. } => &mut self.heard,
            Front::Hoist(_) => &mut self.hoists,
            Front::EndStartup => &mut self.ends,
            Front::Salvage => &mut self.salvages,
            Front::Sheet => &mut self.sheets,
            Front::TallyBegin | Front::TallyAdd | Front::TallySheet => &mut self.tallies,
        };
        met[usize::from(number)] += 1;
    }
}

pub struct Bench {
    got: Areas,
    want: Areas,
    expected: Boundary,
    // The image as the call found it, and what answer area and event buffer were filled with.
    before: Vec<u8>,
    fill: u64,
    // The call in another form: what the library got and left, what is wanted, and the image that it found.
    got_again: Areas,
    want_again: Areas,
    moved: Image,
    // The number and the areas that the library left in the last failure.
    wrong: Option<(u8, Areas)>,
    pub passed: u64,
    pub failed: u64,
    pub met: Met,
    /// After so many failures the run ends.
    pub most_failures: u64,
    pub seed: u64,
}

impl Bench {
    pub fn new(seed: u64, most_failures: u64) -> Self {
        // The image is lent whole, with no bytes behind it but the edge.
        let mut areas = Areas::new();
        areas.image.fill(0x5c5c_5c5c_5c5c_5c5c);
        areas.image.len = ONE.length;
        Bench {
            got: areas.clone(),
            want: areas.clone(),
            got_again: areas.clone(),
            want_again: areas,
            moved: Vec::with_capacity(512),
            expected: Boundary::new(),
            before: Vec::with_capacity(512),
            fill: 0,
            wrong: None,
            passed: 0,
            failed: 0,
            met: Met::default(),
            most_failures,
            seed,
        }
    }

    pub fn image(&self) -> &[u8] {
        self.want.image.bytes()
    }

    /// The image of both sides becomes this one, whole or cut or with bytes behind it.
    pub fn set_image(&mut self, bytes: &[u8]) {
        for areas in [&mut self.got, &mut self.want] {
            areas.image.len = bytes.len();
            areas.image.null = false;
            areas.image.slice().copy_from_slice(bytes);
        }
    }

    pub fn null_image(&mut self) {
        self.set_image(&[]);
        self.got.image.null = true;
        self.want.image.null = true;
    }

    /// How long answer area and event buffer are in the calls to come. An empty one is lent as a null pointer where `null` says so.
    pub fn set_lengths(&mut self, answer: usize, events: usize, null: bool) {
        for areas in [&mut self.got, &mut self.want] {
            areas.answer.len = answer;
            areas.answer.null = null;
            areas.events.len = events;
            areas.events.null = null;
        }
    }

    /// The target of the last conversion becomes the image.
    pub fn take_target(&mut self) {
        let bytes = self.want.target.bytes().to_vec();
        self.set_image(&bytes);
    }

    pub fn set_head(&mut self, head: usize) {
        self.expected.head = head;
    }

    pub fn answer(&self) -> &[u8] {
        self.got.answer.bytes()
    }

    pub fn over(&self) -> bool {
        self.failed >= self.most_failures
    }

    /// Makes the call on both sides, unless the run is over. Gives the number that 01 expects where all is equal; else the failure was
    /// printed, both sides are left with the expected bytes, and a history is best begun anew.
    pub fn call(&mut self, call: &Call, fill: u64) -> Option<u8> {
        if self.over() {
            return None;
        }
        self.fill = fill;
        self.before.clear();
        self.before.extend_from_slice(self.want.image.bytes());
        for areas in [&mut self.got, &mut self.want] {
            areas.answer.fill(fill);
            areas.events.fill(fill.rotate_left(29));
            if let Call::Convert { target } = *call {
                areas.target.len = target;
                areas.target.null = areas.answer.null;
                areas.target.fill(fill.rotate_left(17));
            }
        }
        let head = self.expected.head;
        let Bench { expected, got, want, .. } = self;
        // The library does not unwind, but a variant of it that was read as Rust may panic.
        let number = caught(|| under_test::call(call, got));
        // The Rust may panic; whatever it was doing is given up, and the call counts as failed.
        let Areas { image, answer, events, target } = want;
        let wanted = caught(|| expected.perform(call, image.slice(), answer.slice(), events.slice(), target.slice()));
        let (number, wanted) = match (number, wanted) {
            (Ok(number), Ok(wanted)) => (number, wanted),
            (number, wanted) => {
                let side = if wanted.is_err() { "the expected side" } else { "the library" };
                let words = wanted.err().or(number.err()).unwrap_or_default();
                self.fail(call, head, format!("{side} panicked: {words}"));
                self.expected = Boundary::new();
                self.got = self.want.clone();
                return None;
            }
        };
        if number == wanted
            && self.got.image.same(&self.want.image)
            && self.got.answer.same(&self.want.answer)
            && self.got.events.same(&self.want.events)
            && (!matches!(call, Call::Convert { .. }) || self.got.target.same(&self.want.target))
        {
            for other in Form::of(self.before.len()).into_iter().flat_map(Form::others) {
                if let Some((what, number)) = self.again(call, wanted, other) {
                    self.before.clone_from(&self.moved);
                    self.fail(call, head, format!("in another form: {what}"));
                    self.wrong = Some((number, std::mem::replace(&mut self.got_again, self.want_again.clone())));
                    return None;
                }
            }
            if let Some(what) = self.who_waits() {
                self.fail(call, head, what);
                return None;
            }
            self.passed += 1;
            self.meet(call, wanted);
            return Some(wanted);
        }
        let what = what(&self.got, &self.want, number, wanted);
        self.fail(call, head, what);
        self.wrong = Some((number, std::mem::replace(&mut self.got, self.want.clone())));
        None
    }

    /// Asks who waits in the image that the call left, on both sides, with an answer area as the call had. What differs.
    fn who_waits(&mut self) -> Option<String> {
        let Bench { got, want, got_again, want_again, .. } = self;
        for areas in [&mut *got_again, &mut *want_again] {
            areas.image = got.image.clone();
            areas.answer = want.answer.clone();
            areas.answer.fill(self.fill.rotate_left(11));
        }
        let number = match caught(|| under_test::waiting(got_again)) {
            Ok(number) => number,
            Err(words) => return Some(format!("who waits: the library panicked: {words}")),
        };
        let wanted = self.expected.waiting(want_again.image.bytes(), want_again.answer.slice());
        if number != wanted {
            return Some(format!("who waits: number {number}, expected {wanted}"));
        }
        if let Some((at, got, want)) = got_again.answer.difference(&want_again.answer) {
            return Some(format!("who waits: answer area byte {at}: {got:02x}, expected {want:02x}"));
        }
        if let Some((at, got, want)) = got_again.image.difference(&want_again.image) {
            return Some(format!("who waits: image byte {at}: {got:02x}, expected {want:02x}"));
        }
        self.met.looks[usize::from(wanted)] += 1;
        if wanted == 0 {
            let set = u64::from_le_bytes(want_again.answer.bytes()[8..16].try_into().unwrap());
            self.met.waiting += u64::from(set != 0);
            self.met.most_waiting = self.met.most_waiting.max(set.count_ones());
        }
        None
    }

    /// Makes the call on the same image in another form, from the same answer area and event buffer. It must come to the same number, value and events, but
    /// for the events' numbers where those of the image went; and leave the image that the first did, moved; the place of a broken rule is the moved one.
    /// What differs, and the number handed back.
    fn again(&mut self, call: &Call, wanted: u8, other: Form) -> Option<(String, u8)> {
        let form = Form::of(self.before.len())?;
        // Only form 1 has a copy of IRR, so that rule has no like in others; a conversion makes the other forms itself.
        if wanted == 8 || matches!(call, Call::Convert { .. }) {
            return None;
        }
        // Nor have others numbers that could be used or not.
        let place = self.want.answer.bytes().get(8..16).map_or(0, |bytes| u64::from_le_bytes(bytes.try_into().unwrap()));
        if wanted == 11 && form.numbers.is_some_and(|numbers| place >= numbers as u64) {
            return None;
        }
        image::moved(&self.before, other, &mut self.moved);
        // Contents that were those of the other form are right there.
        if wanted == 5 && self.moved.starts_with(other.contents) {
            return None;
        }
        for areas in [&mut self.got_again, &mut self.want_again] {
            areas.image.len = self.moved.len();
            areas.image.slice().copy_from_slice(&self.moved);
            areas.answer = self.want.answer.clone();
            areas.answer.fill(self.fill);
            areas.events = self.want.events.clone();
            areas.events.fill(self.fill.rotate_left(29));
        }
        let got = &mut self.got_again;
        let number = match caught(|| under_test::call(call, got)) {
            Ok(number) => number,
            Err(words) => return Some((format!("the library panicked: {words}"), 0)),
        };
        self.want_again.answer = self.want.answer.clone();
        self.want_again.events = self.want.events.clone();
        if wanted == 0 {
            let mut after = Image::with_capacity(image::LONGEST);
            image::moved(self.want.image.bytes(), other, &mut after);
            image::set_numbers(self.expected.numbers(), &mut after);
            self.want_again.image.slice().copy_from_slice(&after);
        }
        if wanted == 0 && form.numbers.is_some() {
            self.renumber(call, form);
        }
        if (9..=11).contains(&wanted) {
            let place = place + other.irr as u64 - form.irr as u64;
            self.want_again.answer.slice()[8..16].copy_from_slice(&place.to_le_bytes());
        }
        self.met.again += 1;
        let same = number == wanted
            && self.got_again.image.same(&self.want_again.image)
            && self.got_again.answer.same(&self.want_again.answer)
            && self.got_again.events.same(&self.want_again.events);
        if same { None } else { Some((what(&self.got_again, &self.want_again, number, wanted), number)) }
    }

    /// The numbers of an image went with its form: the call in the other form begins with waiting events from 0 on.
    fn renumber(&mut self, call: &Call, form: Form) {
        let answer = self.want_again.answer.slice();
        match *call {
            // a vector returned has the number after those that wait
            Call::Level { .. } | Call::Poll { .. } if answer[1] == 1 => {
                answer[10..12].copy_from_slice(&u16::from(self.before[form.count]).to_le_bytes());
            }
            Call::Drain { place } => {
                let moved = usize::from(answer[8]);
                let drained = self.want_again.events.slice()[place as usize..].chunks_mut(4).take(moved);
                for (number, event) in (0_u16..).zip(drained) {
                    event[2..].copy_from_slice(&number.to_le_bytes());
                }
            }
            _ => {}
        }
    }

    /// The difference of two numbers, held against what 02 says of it.
    pub fn difference(&mut self, later: u16, earlier: u16) {
        if self.over() {
            return;
        }
        let difference = caught(|| under_test::difference(later, earlier));
        if matches!(difference, Ok(difference) if is_difference(later, earlier, difference)) {
            self.passed += 1;
            self.met.differences += 1;
        } else {
            self.failed += 1;
            println!("FAILED: the difference is {difference:?}");
            println!("  seed {}, after {} calls; the call alone:", self.seed, self.passed + self.failed);
            println!("  pch_pic_difference({later}, {earlier})");
        }
    }

    /// The bytes after the last call, on both sides where they differ.
    pub fn show(&self) {
        let hex = |bytes: &[u8]| bytes.iter().map(|byte| format!("{byte:02x}")).collect::<String>();
        let tell = |whose: &str, areas: &Areas| {
            println!("{whose} image {}", hex(areas.image.bytes()));
            println!("{whose} answer area {}", hex(areas.answer.bytes()));
            println!("{whose} event buffer {}", hex(areas.events.bytes()));
            if areas.target.len > 0 {
                println!("{whose} target {}", hex(areas.target.bytes()));
            }
        };
        if let Some((number, areas)) = &self.wrong {
            println!("the library's number {number}");
            tell("the library's", areas);
        }
        tell("expected", &self.want);
    }

    /// Plays a fixed history from reset in a form, and holds both sides against what the papers say of its steps.
    pub fn play(&mut self, history: &History, form: Form) {
        self.set_image(&vec![0; form.length]);
        if self.call(&Call::Reset, FILL).is_none() {
            return;
        }
        if let Some(numbers) = form.numbers {
            let mut image = self.image().to_vec();
            image[numbers..numbers + 2].copy_from_slice(&history.next.to_le_bytes());
            self.set_image(&image);
        }
        for (k, (call, says)) in history.steps.iter().enumerate() {
            let Some(number) = self.call(call, FILL) else { return };
            if !self.holds(number, says) {
                self.passed -= 1;
                self.fail(call, self.expected.head, format!("{}, step {}: the papers say otherwise", history.name, k + 1));
                return;
            }
        }
    }

    fn holds(&self, number: u8, says: &Says) -> bool {
        let answer = self.answer();
        let value = u64::from_le_bytes(answer[8..16].try_into().unwrap());
        match says {
            Says::Done => number == 0,
            Says::Gives(wanted) => number == 0 && answer[1] == 1 && value == *wanted,
            Says::Vector(vector) => number == 0 && answer[1] == 1 && value < 1 << 32 && value % 65_536 == *vector,
            Says::GivesNone => number == 0 && answer[1] == 0 && value == 0,
            Says::Refused(wanted) => number == *wanted,
            Says::Waiting(events, drops) => {
                let image = self.image();
                let form = Form::of(image.len()).expect("a form's image");
                let pairs: Vec<u8> = events.iter().flat_map(|&(vector, flag)| [vector, flag]).collect();
                number == 0
                    && image[form.count] as usize == events.len()
                    && image[form.pairs..].starts_with(&pairs)
                    && image[form.drops..form.drops + 4] == drops.to_le_bytes()
            }
            Says::Drained(events) => {
                let bytes: Vec<u8> = events.iter().flat_map(|&(vector, flag, n)| [vector, flag, n as u8, (n >> 8) as u8]).collect();
                number == 0 && value as usize == events.len() && self.got.events.bytes().starts_with(&bytes)
            }
            Says::Numbers(next, waiting) => {
                let image = self.image();
                let body: Vec<u8> = [next].into_iter().chain(waiting).flat_map(|number| number.to_le_bytes()).collect();
                number == 0
                    && image.len() == 290
                    && image[256..].starts_with(&body)
                    && image[256 + body.len()..].iter().all(|&byte| byte == 0)
            }
        }
    }

    fn fail(&mut self, call: &Call, head: usize, what: String) {
        self.failed += 1;
        println!("FAILED: {what}");
        println!("  seed {}, after {} calls; the call alone:", self.seed, self.passed + self.failed);
        println!("  tools/differential --one {}", text::line(call, &self.before, &self.want, self.fill, head));
    }

    fn meet(&mut self, call: &Call, number: u8) {
        let met = &mut self.met;
        let kind = match *call {
            Call::Reset => 0,
            Call::Read { .. } => 1,
            Call::Write { .. } => 2,
            Call::Level { .. } => 3,
            Call::Poll { .. } => 4,
            Call::Drain { .. } => 5,
            Call::Convert { .. } => 6,
        };
        met.kinds[kind] += 1;
        met.numbers[number as usize] += 1;
        if let Call::Read { base, size, address, width } | Call::Write { base, size, address, width, .. } = *call
            && number == 1
        {
            met.straddling += u64::from(straddles(base, size, address, width));
        }
        for (met, form) in met.forms.iter_mut().zip(image::FORMS) {
            *met += u64::from(self.before.len() == form.length);
        }
        if number != 0 {
            return;
        }
        let form = Form::of(self.before.len()).expect("a done call's image has a form");
        let answer = self.want.answer.bytes();
        let after = self.want.image.bytes();
        match *call {
            Call::Level { .. } | Call::Poll { .. } => met.vectors_returned += u64::from(answer[1]),
            Call::Drain { .. } => met.events_drained += u64::from(answer[8]),
            _ => {}
        }
        if self.before[form.count] == 16 {
            met.full_ring += 1;
        }
        let drops = |bytes: &[u8]| u32::from_le_bytes(bytes[form.drops..form.drops + 4].try_into().unwrap());
        if !matches!(call, Call::Reset) && drops(after) != drops(&self.before) {
            met.dropping += 1;
        }
        if drops(after) == u32::MAX {
            met.at_stop += 1;
        }
        let register = |place: usize| u64::from_le_bytes(after[place..place + 8].try_into().unwrap());
        if register(form.mask) & register(form.isr) != 0 {
            met.masked_isr += 1;
        }
        if let Some(at) = form.numbers
            && !matches!(call, Call::Reset)
        {
            let next = |bytes: &[u8]| u16::from_le_bytes([bytes[at], bytes[at + 1]]);
            met.wrapping += u64::from(next(after) < next(&self.before));
        }
    }
}

/// What differs between what the library left and what is wanted.
fn what(got: &Areas, want: &Areas, number: u8, wanted: u8) -> String {
    let mut parts = Vec::new();
    if number != wanted {
        parts.push(format!("number {number}, expected {wanted}"));
    }
    let differences = [
        ("image", got.image.difference(&want.image)),
        ("answer area", got.answer.difference(&want.answer)),
        ("event buffer", got.events.difference(&want.events)),
        ("target", got.target.difference(&want.target)),
    ];
    for (name, difference) in differences {
        if let Some((at, got, want)) = difference {
            parts.push(format!("{name} byte {at}: {got:02x}, expected {want:02x}"));
        }
    }
    parts.join("; ")
}
