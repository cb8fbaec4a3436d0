//! The cases that are recorded, file by file: what a front may refuse, what it may be lent, and short histories of the differential runs.

use crate::bench::Bench;
use crate::board::LINES;
use crate::boards;
use crate::boundary::Boundary;
use crate::call::{Call, From};
use crate::case::{Case, Front};
use crate::cases::Cases;
use crate::chance::Chance;
use crate::days::{self, Day, EACH, fields, random_records, some};
use crate::fixed;
use crate::generate::{self, REGISTERS};
use crate::hoists;
use crate::image::{FORMS, Form, NUMBERED, ONE, TWO};
use crate::salvages::{self, Salvages};
use crate::sheet::LENGTH;
use crate::sheets;
use crate::tallies;
use crate::tally;
use crate::trace::{self, DRAIN, RAISE, Record, WRITE};

/// Both sides of the cases, and where they come from.
pub struct Choice {
    pub bench: Bench,
    pub chance: Chance,
    pub cases: Cases,
}

/// A file: its name, what chooses its cases, and of each call in it the numbers that have to be handed back by some of them.
pub struct File {
    pub name: &'static str,
    pub choose: fn(&mut Choice),
    pub numbers: &'static [(&'static str, &'static [u8])],
}

pub const FILES: [File; 10] = [
    File { name: "plays", choose: plays, numbers: &[("front-play", &[0, 4, 7, 12, 13])] },
    File { name: "conversions", choose: conversions, numbers: &[("front-convert", &[0, 4, 5, 7, 8, 9, 10, 11])] },
    File { name: "differences", choose: differences, numbers: &[("front-difference", &[0])] },
    File { name: "salvages", choose: salvages, numbers: &[("salvage", &[0, 7, 12, 16])] },
    File {
        name: "boards",
        choose: boards,
        numbers: &[
            ("board-reset", &[0, 4, 7]),
            ("board-read", &[0, 1, 2, 4, 5, 7, 8, 9, 10, 11]),
            ("board-write", &[0, 1, 2, 4, 5, 7, 8, 9, 10, 11]),
            ("board-level", &[0, 3, 4, 5, 7, 8, 9, 10, 11]),
            ("board-poll", &[0, 3, 4, 5, 7, 8, 9, 10, 11]),
            ("board-drain", &[0, 4, 5, 7, 8, 9, 10, 11]),
            ("board-event", &[0, 7]),
        ],
    },
    File {
        name: "hoists",
        choose: hoists,
        numbers: &[
            ("hoist-reset", &[0, 4, 7]),
            ("hoist-read", &[0, 1, 2, 4, 5, 7, 8, 9, 10, 11, 14]),
            ("hoist-write", &[0, 1, 2, 4, 5, 7, 8, 9, 10, 11, 14, 15]),
            ("hoist-end", &[0, 4, 5, 7, 8, 9, 10, 11, 15]),
        ],
    },
    File { name: "sheets", choose: sheets, numbers: &[("sheet", &[0, 7, 12, 13])] },
    File { name: "waits", choose: waits, numbers: &[("waiting", &[0, 4, 5, 7, 8, 9, 10, 11])] },
    File { name: "plays-on", choose: plays_on, numbers: &[("front-play-on", &[0, 4, 5, 7, 8, 9, 10, 11, 12, 13])] },
    File {
        name: "tallies",
        choose: tallies,
        numbers: &[("tally-begin", &[0, 7]), ("tally-add", &[0, 4, 5, 7, 8, 9, 10, 11, 12, 13, 17]), ("tally-sheet", &[0, 7, 17])],
    },
];

impl Choice {
    /// Makes a case whose areas hold these bytes; the number that is expected of it.
    fn make(&mut self, front: Front, areas: Vec<Vec<u8>>, null: bool) -> u8 {
        self.cases.make(&mut self.bench, &Case { front, areas, null }).expect("the stand-in does what is expected")
    }
}

/// The fixed histories as traces in all forms, random traces, good and damaged, and one with the most records.
fn plays(choice: &mut Choice) {
    let play = |choice: &mut Choice, play: &days::Play| {
        let lent = [(0xcc, play.image.len()), (0xee, play.answers), (0xdd, play.events), (0xee, play.answer)];
        let areas = [play.trace.clone()].into_iter().chain(lent.map(|(byte, length)| vec![byte; length])).collect();
        choice.make(Front::Play(From::Reset), areas, false);
    };
    for form in FORMS {
        for history in fixed::histories(form) {
            let records: Vec<Record> = history.steps.iter().filter_map(|(call, _)| trace::record(call)).collect();
            let (count, blocks) = (records.len(), days::cut(&mut choice.chance, records.len()));
            play(choice, &Day { from: From::Reset, records, blocks, image: vec![0; form.length] }.play(count, 8, 0));
        }
        for length in (1..=40).step_by(2).chain([130]) {
            let records = random_records(&mut choice.chance, length);
            let good = Day { from: From::Reset, records, blocks: days::cut(&mut choice.chance, length), image: vec![0; form.length] }
                .play(length, 8, 0);
            play(choice, &good);
            let damaged = days::damaged(&mut choice.chance, good);
            play(choice, &damaged);
        }
    }
    let records = random_records(&mut choice.chance, 4000);
    let blocks = days::cut(&mut choice.chance, 4000);
    play(choice, &Day { from: From::Reset, records, blocks, image: vec![0; NUMBERED.length] }.play(4000, 0, 0));
}

/// Traces played on from accepted images of all forms, each damaged too; such images with each rule broken, under a trace that is wrong and no room; and days of three traces, each
/// played on what the one before left.
fn plays_on(choice: &mut Choice) {
    let play = |choice: &mut Choice, play: &days::Play| {
        let lent = [(0xee, play.answers), (0xdd, play.events), (0xee, play.answer)];
        let areas = [play.trace.clone(), play.image.clone()].into_iter().chain(lent.map(|(byte, length)| vec![byte; length])).collect();
        choice.make(Front::Play(From::Image), areas, false);
    };
    let day = |choice: &mut Choice, length: usize, image: Vec<u8>| {
        let records = random_records(&mut choice.chance, length);
        Day { from: From::Image, records, blocks: days::cut(&mut choice.chance, length), image }
    };
    for form in FORMS {
        for length in (1..=29).step_by(4).chain([130]) {
            let image = generate::with_events(&mut choice.chance, form);
            let good = day(choice, length, image).play(length, 8, 0);
            play(choice, &good);
            let damaged = days::damaged(&mut choice.chance, good);
            play(choice, &damaged);
        }
        let image = generate::with_events(&mut choice.chance, form);
        for (place, byte) in generate::breaches(&image, form) {
            let mut broken = image.clone();
            broken[place] = byte;
            let mut refused = day(choice, 3, broken).play(3, 0, 0);
            play(choice, &refused);
            (refused.trace[0], refused.answers) = (0, 0);
            play(choice, &refused);
        }
        let mut left = image;
        for length in [7, 40, 1] {
            let part = day(choice, length, left).play(length, 8, 0);
            play(choice, &part);
            left = choice.cases.left(1).to_vec();
        }
    }
}

/// The image with each of them.
fn broken(image: &[u8], form: Form) -> Vec<Vec<u8>> {
    let with = |(place, byte): (usize, u8)| {
        let mut image = image.to_vec();
        image[place] = byte;
        image
    };
    generate::breaches(image, form).into_iter().map(with).collect()
}

/// From each form to each, empty and full rings among them; every refusal; areas of other lengths; faults several at a time.
fn conversions(choice: &mut Choice) {
    let convert = |choice: &mut Choice, image: &[u8], target: usize, answer: usize, null: bool| {
        choice.make(Front::Convert, vec![image.to_vec(), vec![0xa1; target], vec![0xc3; answer]], null)
    };
    let mut rings = [false; 2];
    for form in FORMS {
        let mut images: Vec<Vec<u8>> = (0..4).map(|_| generate::accepted(&mut choice.chance, form)).collect();
        let mut reset = vec![0; form.length];
        Boundary::new().perform(&Call::Reset, &mut reset, &mut [0; 16], &mut [], &mut []);
        images.push(reset);
        for image in &images {
            rings = [rings[0] || image[form.count] == 0, rings[1] || image[form.count] == 16];
            for target in FORMS {
                assert_eq!(convert(choice, image, target.length, 16, false), 0);
            }
        }
        let image = generate::with_events(&mut choice.chance, form);
        for (k, image) in broken(&image, form).iter().enumerate() {
            assert_ne!(convert(choice, image, FORMS[k % 3].length, 16, false), 0);
        }
        for length in [0, 1, 22, 250, 252, 258, 260, 289, 291, 300] {
            assert_eq!(convert(choice, &image, length, 16, length < 100), 4);
            assert_eq!(convert(choice, &vec![0; length], form.length, 16, length > 0), 4);
        }
        for answer in [0, 1, 15, 17, 24] {
            convert(choice, &image, TWO.length, answer, answer == 0);
        }
        for faults in 0..8 {
            let faulty = |bit: usize| faults & (1 << bit) != 0;
            let mut image = image.clone();
            image[1] ^= u8::from(faulty(2));
            convert(choice, &image, ONE.length + usize::from(faulty(1)), 16 - usize::from(faulty(0)), false);
        }
    }
    for _ in 0..40 {
        let form = choice.chance.one_of(&FORMS);
        let mut image = generate::accepted(&mut choice.chance, form);
        generate::damage(&mut choice.chance, &mut image, form);
        let target = generate::length(&mut choice.chance);
        convert(choice, &image, target, 16, false);
    }
    assert_eq!(rings, [true; 2], "empty and full rings are converted");
    let image = generate::accepted(&mut choice.chance, NUMBERED);
    assert_eq!(convert(choice, &image, ONE.length, 17, false), 0);
}

/// The ends of what the numbers may be, each against each, and any.
fn differences(choice: &mut Choice) {
    let ends = [1, 0, 2, 0xff, 0x100, 0x7ffe, 0x7fff, 0x8000, 0x8001, 0xfffe, 0xffff];
    let pairs: Vec<(u16, u16)> = ends.into_iter().flat_map(|later| ends.map(|earlier| (later, earlier))).collect();
    let any = (0..200).map(|_| (choice.chance.number() as u16, choice.chance.number() as u16)).collect();
    for (later, earlier) in [pairs, any, vec![(0x1234, 0x0111)]].concat() {
        choice.make(Front::Difference { later, earlier }, vec![vec![0xd4; 2]], false);
    }
}

/// Good traces, with one bad block, with some, with no other; each set of bad records of a short trace; every refusal, faults several at a time; lengths; the most blocks and records.
fn salvages(choice: &mut Choice) {
    let salvage = |choice: &mut Choice, trace: &[u8], [kept, list, answer]: [usize; 3], null: bool| {
        choice.make(Front::Salvage, vec![trace.to_vec(), vec![0xa1; kept], vec![0xb2; list], vec![0xc3; answer]], null)
    };
    for (blocks, bad, step) in [(vec![2, 1, 3], [0; 16], 1), (vec![6], fields(DRAIN, 0, 0, 1), 9), (vec![1; 6], [0xff; 16], 1)] {
        for set in (0..64).step_by(step) {
            let mut records = some(6);
            for (k, record) in records.iter_mut().enumerate() {
                if set & (1 << k) != 0 {
                    *record = bad;
                }
            }
            salvage(choice, &trace::bytes(&records, &blocks), [130, 28, 20], false);
        }
    }
    // each record of each kind with a byte of each field another
    for (good, place) in EACH.into_iter().flat_map(|good| [0, 1, 2, 3, 4, 7, 8, 15].map(|place| (good, place))) {
        let mut record = good;
        record[place] ^= 0x40;
        salvage(choice, &trace::bytes(&[EACH[4], EACH[0], record, EACH[5]], &[1, 2, 1]), [90, 16, 16], false);
    }
    lengths_of_salvages(choice, salvage);
    // the most blocks: all good, each twentieth alone bad or alone good, all bad
    let blocks = days::cut_in(&mut choice.chance, 100, 64);
    let tear = |choice: &mut Choice, torn: &dyn Fn(usize) -> bool| {
        let mut records = Vec::new();
        for (k, &count) in blocks.iter().enumerate() {
            let mut of_block = some(count);
            if torn(k) {
                of_block[choice.chance.below(count as u64) as usize] = [0; 16];
            }
            records.extend(of_block);
        }
        salvage(choice, &trace::bytes(&records, &blocks), [2000, 256, 16], false)
    };
    assert_eq!(tear(choice, &|_| false), 0);
    assert_eq!(tear(choice, &|_| true), 16);
    for block in [0, 20, 40, 63] {
        assert_eq!(tear(choice, &|k| k == block), 0);
        assert_eq!(tear(choice, &|k| k != block), 0);
    }
    // random days as they are and torn, what is left salvaged again; contents damaged
    let mut both = Salvages::new(std::mem::replace(&mut choice.cases, Cases::new()));
    let Choice { bench, chance, .. } = choice;
    for length in (3..36).step_by(4) {
        let (good, blocks) = (random_records(chance, length), days::cut(chance, length));
        both.try_bytes(bench, &trace::bytes(&good, &blocks), 1);
        let torn = salvages::torn(chance, &good, &blocks);
        let trace = trace::bytes(&torn, &blocks);
        both.try_bytes(bench, &trace, 3);
        both.short(bench, chance, &trace);
        let damaged = days::damaged(chance, Day { from: From::Reset, records: torn, blocks, image: vec![0; 290] }.play(length, 0, 0));
        both.try_bytes(bench, &damaged.trace, 0);
    }
    choice.cases = both.cases;
    // a day planned with the most records, whose recorder lost power; the first and the fourth block are torn at their last record
    let (mut records, blocks) = (vec![EACH[5]; 4000], days::cut_in(&mut choice.chance, 4000, 64));
    records[1000..].fill([0; 16]);
    for block in [0, 3] {
        records[blocks[..=block].iter().sum::<usize>() - 1][4] = 1;
    }
    assert_eq!(salvage(choice, &trace::bytes(&records, &blocks), [2 + 4 * 64 + 16 * 4000, 256, 16], false), 0);
    assert_eq!(salvage(choice, &trace::bytes(&records[..4], &[3, 1]), [74, 0, 17], true), 0);
}

/// Areas that have just room, less and more, null ones among them; several faults at once; and contents that are wrong.
fn lengths_of_salvages(choice: &mut Choice, salvage: impl Fn(&mut Choice, &[u8], [usize; 3], bool) -> u8) {
    let Choice { bench, cases, .. } = choice;
    for lengths in [[74, 8, 16], [74, 8, 17], [75, 9, 16], [73, 8, 16], [0, 8, 16], [74, 7, 16], [74, 0, 16], [73, 7, 16]]
        .into_iter()
        .chain([[74, 8, 15], [74, 8, 0], [0, 0, 15], [0, 0, 0]])
    {
        for null in [false, true] {
            cases.make(bench, &salvages::short_case(lengths, null));
        }
    }
    salvages::faults(bench, cases);
    let torn = salvages::short_case([0; 3], false).areas.remove(0);
    let wrong = |place: usize, number: u16| days::with_number(&torn, place, number);
    for trace in [wrong(0, 0), wrong(0, 3), wrong(0, 65), wrong(2, 17), wrong(2, 19), wrong(4, 0), wrong(4, 3), wrong(14, 0), wrong(16, 2)]
    {
        assert_eq!(salvage(choice, &trace, [200, 40, 16], false), 12);
    }
    for length in [0, 1, 2, 17, 18, 19, torn.len() - 16, torn.len() - 1] {
        assert_eq!(salvage(choice, &torn[..length], [200, 40, 16], true), 12);
    }
    let over = trace::bytes(&some(4), &[4]);
    assert_eq!(salvage(choice, &days::with_number(&over, 4, 4001), [200, 40, 16], false), 12);
}

/// A window at 0x1000, and an access in it.
fn read(address: u64, width: u64) -> Call {
    Call::Read { base: 0x1000, size: 0x400, address: 0x1000 + address, width }
}
fn write(address: u64, width: u64, value: u64) -> Call {
    Call::Write { base: 0x1000, size: 0x400, address: 0x1000 + address, width, value }
}

fn set_isr(image: &mut [u8], isr: u64) {
    let form = Form::of(image.len()).expect("a good image has a form");
    image[form.isr..form.isr + 8].copy_from_slice(&isr.to_le_bytes());
}

/// Each call with 0, 1 and 64 inputs in service, on boards that hold anything; every refusal; lengths; events that find any count; and histories.
fn boards(choice: &mut Choice) {
    let calls = [
        read(0x3a0, 8),
        Call::Reset,
        write(0x040, 8, 5),
        Call::Level { input: 9, level: 0 },
        Call::Poll { input: 9 },
        Call::Drain { place: 3 },
    ];
    let make = |choice: &mut Choice, call: Call, image: &[u8], [answer, board]: [usize; 2], null: bool| {
        let Choice { bench, cases, .. } = choice;
        boards::make(bench, cases, call, image, [68, answer, board], null);
    };
    let mut met = [false; 3];
    for form in FORMS {
        let mut image = generate::with_events(&mut choice.chance, form);
        image[form.vectors + 9] = 0x77;
        for call in calls {
            for (isr, same) in [(0, false), (1 << 9, false), (u64::MAX, false), (u64::MAX, true)] {
                set_isr(&mut image, isr);
                let mut image = image.clone();
                if same {
                    image[form.vectors..form.vectors + 64].fill(0x77);
                }
                make(choice, call, &image, [16, 256], false);
                let counted: u32 = choice.cases.left(3).iter().map(|&count| u32::from(count)).sum();
                met = [met[0] || counted == 0, met[1] || counted == 1, met[2] || counted == 64];
            }
            for image in broken(&image, form) {
                make(choice, call, &image, [16, 256], false);
            }
        }
    }
    assert_eq!(met, [true; 3], "0, 1 and 64 inputs in service are counted");
    let image = generate::with_events(&mut choice.chance, NUMBERED);
    for call in calls {
        for (answer, board) in [(16, 0), (16, 1), (16, 255), (16, 257), (16, 300), (0, 256), (15, 256), (17, 256), (40, 258), (15, 255)] {
            make(choice, call, &image, [answer, board], answer == 0 || board == 0);
        }
        for length in [0, 258, 289, 291] {
            make(choice, call, &vec![0; length], [16, 256], true);
        }
    }
    let outside = [read(0x400, 1), read(0x3fd, 4), write(0x400, 1, 1), write(0x3f9, 8, 1)];
    let unknown = [read(0x20, 3), read(0x20, 0), write(0x20, 16, 0), Call::Level { input: 64, level: 1 }, Call::Poll { input: u64::MAX }];
    let other = [Call::Drain { place: 68 }, Call::Drain { place: 69 }, Call::Drain { place: 66 }, Call::Drain { place: 61 }];
    for call in outside.into_iter().chain(unknown).chain(other) {
        make(choice, call, &image, [16, 256], false);
        make(choice, call, &broken(&image, NUMBERED)[1], [16, 256], false);
    }
    let Choice { bench, chance, cases } = choice;
    for (count, flag) in [0, 1, 2, 254, 255].into_iter().flat_map(|count| [0, 1, 2, 0x80, 0xff].map(|flag| (count, flag))) {
        let mut board = vec![9; LINES + usize::from(count % 2)];
        let vector = chance.number() as u8;
        board[usize::from(vector)] = count;
        boards::hear(bench, cases, vector, flag, board, 16 + usize::from(flag % 2));
    }
    for (board, answer) in [(0, 16), (255, 16), (256, 15), (256, 0), (257, 40), (255, 15)] {
        boards::hear(bench, cases, 0xff, 1, vec![7; board], answer);
    }
    for _ in 0..3 {
        boards::history(bench, chance, cases, 40);
        boards::second(bench, chance, cases, 40);
    }
    assert!(bench.met.fronts.seconds > 0 && bench.met.fronts.loads > 0, "there are loads, and a second board that events drive");
    // one input in service on a board that holds anything
    let mut image = generate::accepted(chance, NUMBERED);
    set_isr(&mut image, 1 << 63);
    make(choice, read(0, 4), &image, [16, 256], false);
}

/// Each call in each phase, with and without inputs in service; every register and vector; every refusal, faults several at a time; lengths; and histories.
fn hoists(choice: &mut Choice) {
    const ANY: [u8; 4] = [0, 1, 2, 255];
    let make = |choice: &mut Choice, front: Front, image: &[u8], phase: &[u8], answer: usize| {
        choice.make(front, vec![image.to_vec(), phase.to_vec(), vec![0xc3; answer]], phase.is_empty())
    };
    let calls = [Front::Hoist(read(0x3a0, 4)), Front::Hoist(Call::Reset), Front::Hoist(write(0x20, 4, 6)), Front::EndStartup];
    for form in FORMS {
        let mut image = generate::with_events(&mut choice.chance, form);
        for front in calls {
            for (phase, isr) in ANY.into_iter().flat_map(|phase| [0, 1, 1 << 63].map(|isr| (phase, isr))) {
                set_isr(&mut image, isr);
                make(choice, front, &image, &[phase], 16);
            }
            for image in broken(&image, form) {
                make(choice, front, &image, &[0], 16);
            }
        }
    }
    let mut image = generate::with_events(&mut choice.chance, NUMBERED);
    set_isr(&mut image, 0x8421_0000_0000_1248);
    let value = choice.chance.number();
    for (offset, phase) in REGISTERS.into_iter().flat_map(|low| [low, low + 4]).flat_map(|offset| [0, 1].map(|phase| (offset, phase))) {
        make(choice, Front::Hoist(write(offset, 4, value)), &image, &[phase], 16);
        make(choice, Front::Hoist(read(offset, 4)), &image, &[phase], 16);
    }
    // four vectors as they stand, one changed that is in service or not, all changed
    let mut done = [false; 2];
    for four in 0..16 {
        let first = NUMBERED.vectors + 4 * four;
        let stands = u32::from_le_bytes(image[first..first + 4].try_into().expect("four bytes"));
        for (change, phase) in [(0, 0), (1, 0), (0xff00, 0), (0x40_0000, 0), (1 << 31, 0), (u32::MAX, 0), (0, 1), (1, 255)] {
            // what stands above the width is no part of it
            let value = u64::from(stands ^ change) | value << 32;
            let number = make(choice, Front::Hoist(write(0x200 + 4 * four as u64, 4, value)), &image, &[phase], 16);
            done[usize::from(change != 0)] |= number == 0;
        }
    }
    assert_eq!(done, [true; 2], "vectors are written as they stand and changed");
    for (address, width) in [(0x20, 1), (0x20, 2), (0x20, 8), (0x21, 4), (0x22, 4), (0x23, 4), (0x3a1, 4), (0x3a0, 8), (0x201, 1)]
        .into_iter()
        .chain([(0x20, 0), (0x20, 3), (0x400, 4), (0x3fd, 4), (0x3fc, 4), (0x400, 1), (0x3a1, 3)])
    {
        for phase in [0, 1] {
            make(choice, Front::Hoist(write(address, width, 0)), &image, &[phase], 16);
        }
        make(choice, Front::Hoist(read(address, width)), &image, &[0], 16);
    }
    for front in calls {
        for (phase, answer) in [(0, 16), (1, 15), (1, 0), (0, 15), (2, 17), (3, 24)] {
            make(choice, front, &image, &vec![0; phase], answer);
        }
        for length in [0, 251, 258, 289, 291] {
            make(choice, front, &vec![0; length], &[0], 16);
        }
    }
    // of several faults the first in the order 7, image, 2, 1, 14, 15 is told
    for faults in 0..64 {
        let (address, width, areas) = hoists::faulty(faults, image.clone());
        for front in [Front::Hoist(write(address, width, 0)), Front::EndStartup] {
            choice.make(front, areas.clone(), false);
        }
    }
    let Choice { bench, chance, cases } = choice;
    for _ in 0..4 {
        hoists::history(bench, chance, cases, 40);
    }
    assert!(
        bench.met.fronts.accounts > 0 && bench.met.fronts.beside_service > 0,
        "histories go on from a reset, and change vectors in start-up"
    );
    // start-up ends, and not again
    set_isr(&mut image, 0);
    assert_eq!(make(choice, Front::EndStartup, &image, &[0], 16), 0);
    assert_eq!(make(choice, Front::EndStartup, &image, &[1], 17), 15);
}

/// Days counted by hand, with drops, withdrawn and open waits; random ones; every refusal, faults several at a time; lengths; a day with the most records and the longest wait.
fn sheets(choice: &mut Choice) {
    let make = |choice: &mut Choice, trace: Vec<u8>, sheet: usize, answer: usize| {
        let Choice { bench, cases, .. } = choice;
        sheets::make(bench, cases, trace, sheet, answer);
    };
    for (_, records, _) in sheets::by_hand() {
        let blocks = days::cut(&mut choice.chance, records.len());
        make(choice, trace::bytes(&records, &blocks), LENGTH, 16);
    }
    let good = trace::bytes(&some(6), &[4, 2]);
    for (sheet, answer) in [(0, 16), (1, 16), (40, 16), (LENGTH - 40, 16), (LENGTH - 1, 16), (LENGTH + 1, 17), (LENGTH + 44, 40)]
        .into_iter()
        .chain([(LENGTH, 15), (LENGTH, 0), (LENGTH - 1, 15)])
    {
        make(choice, good.clone(), sheet, answer);
    }
    sheets::faults(&mut choice.bench, &mut choice.cases);
    for (good, place) in EACH.into_iter().flat_map(|good| [0, 1, 2, 3, 4, 7, 8, 15].map(|place| (good, place))) {
        let mut record = good;
        record[place] ^= 0x40;
        make(choice, trace::bytes(&[EACH[0], fields(WRITE, 8, 0x020, 0), EACH[0], record, EACH[1]], &[3, 2]), LENGTH, 16);
    }
    for length in [1, 2, 8, 20, 40, 60, 90, 120, 200] {
        for records in [sheets::waiting(&mut choice.chance, length), random_records(&mut choice.chance, length)] {
            let day = Day { from: From::Reset, records, blocks: days::cut(&mut choice.chance, length), image: vec![] };
            let play = day.play(length, 0, 0);
            make(choice, play.trace.clone(), LENGTH + length % 3, 16);
            let damaged = days::damaged(&mut choice.chance, play);
            make(choice, damaged.trace, LENGTH, 16);
        }
    }
    let met = &choice.bench.met.fronts;
    assert!(met.withdrawn > 20 && met.open > 20, "waits are withdrawn and open");
    // input 5 waits from the first record to the last, while others are raised
    let mut records: Vec<Record> = (0..3999).map(|k| fields(RAISE, 5 + (k % 50) as u8, 0, 0)).collect();
    records.push(fields(WRITE, 8, 0x020, 0));
    let blocks = days::cut_in(&mut choice.chance, 4000, 64);
    make(choice, trace::bytes(&records, &blocks), LENGTH, 16);
    assert_eq!(choice.bench.met.fronts.greatest_wait, 3999, "a wait from the first record to the last");
    make(choice, good, LENGTH, 17);
}

/// Inputs alone, latched or not, masked or not, in service or not; images where any may be; every refusal, faults several at a time; lengths.
fn waits(choice: &mut Choice) {
    let look = |choice: &mut Choice, image: &[u8], answer: usize, null: bool| {
        choice.make(Front::Waiting, vec![image.to_vec(), vec![0xc3; answer]], null)
    };
    for (k, form) in FORMS.into_iter().enumerate() {
        let with = |image: &mut Vec<u8>, place: usize, set: u64| image[place..place + 8].copy_from_slice(&set.to_le_bytes());
        for (input, told) in [0, 1, 31, 32, 63].into_iter().flat_map(|input| (0..8).map(move |told| (input, told))) {
            let mut image = generate::accepted(&mut choice.chance, form);
            let set = 1_u64 << input;
            let [latched, masked, service] = [1, 2, 4].map(|bit| told & bit != 0);
            for place in [Some(form.irr), form.copy].into_iter().flatten() {
                with(&mut image, place, if latched { set } else { !set });
            }
            with(&mut image, form.mask, if masked { set } else { 0 });
            with(&mut image, form.isr, if service { set } else { 0 });
            assert_eq!(look(choice, &image, 16, false), 0);
        }
        for _ in 0..20 {
            let image = generate::accepted(&mut choice.chance, form);
            assert_eq!(look(choice, &image, 16 + k, false), 0);
        }
        let image = generate::with_events(&mut choice.chance, form);
        for image in broken(&image, form) {
            assert_ne!(look(choice, &image, 16, false), 0);
            assert_eq!(look(choice, &image, 15, false), 7);
        }
        for length in [0, 1, 22, 250, 252, 258, 260, 289, 291, 300] {
            assert_eq!(look(choice, &vec![0; length], 16, length == 0), 4);
        }
        for answer in [0, 1, 15, 17, 24] {
            look(choice, &image, answer, answer == 0);
        }
        for _ in 0..20 {
            let mut image = generate::accepted(&mut choice.chance, form);
            generate::damage(&mut choice.chance, &mut image, form);
            look(choice, &image, 16, false);
        }
    }
    let image = generate::accepted(&mut choice.chance, NUMBERED);
    assert_eq!(look(choice, &image, 17, false), 0);
}

/// Days of one to five traces in all forms, counted by hand and random; tallies of any numbers, their limits; every refusal, faults several at a time; lengths.
fn tallies(choice: &mut Choice) {
    let Choice { bench, chance, cases } = choice;
    for form in FORMS {
        for (_, parts, _) in tallies::by_hand() {
            tallies::from_reset(bench, cases, &tallies::whole(&parts), form);
        }
        for count in 1..=5 {
            let parts: Vec<tallies::Part> = (0..count).map(|k| tallies::part(chance, 4 + 13 * k)).collect();
            tallies::from_reset(bench, cases, &parts, form);
        }
        let parts: Vec<tallies::Part> = (0..2).map(|_| tallies::part(chance, 40)).collect();
        let (image, tally) = (generate::accepted(chance, form).to_vec(), tallies::sound(chance));
        tallies::day(bench, cases, &parts, image, tally);
        let image = generate::with_events(chance, form).to_vec();
        for image in broken(&image, form) {
            tallies::add(bench, cases, trace::bytes(&some(6), &[4, 2]), image, vec![0; tally::LENGTH], 16);
        }
        for _ in 0..3 {
            let part = tallies::part(chance, 20);
            tallies::damaged(bench, chance, cases, &part, form);
        }
    }
    assert!(bench.met.fronts.carried > 40, "waits are carried on");
    for (length, answer) in [(0, 16), (1, 16), (tally::LENGTH - 1, 16), (tally::LENGTH, 15), (tally::LENGTH, 0), (tally::LENGTH + 9, 40)] {
        tallies::begin(bench, cases, vec![0x69; length], answer);
        tallies::add(bench, cases, trace::bytes(&some(6), &[4, 2]), tallies::reset(ONE), vec![0; length], answer);
        tallies::sheet_of(bench, cases, vec![0; length], tally::LENGTH, answer);
        tallies::sheet_of(bench, cases, vec![0; tally::LENGTH], length, answer);
    }
    tallies::faults(bench, cases);
    tallies::limits(bench, cases, 43);
    // a wait of a whole day: from the first record of a long trace to the last of the next
    let first: Vec<Record> = (0..4000).map(|k| fields(RAISE, 5 + (k % 50) as u8, 0, 0)).collect();
    let blocks = days::cut_in(chance, 4000, 64);
    let second = vec![fields(DRAIN, 0, 0, 0), fields(WRITE, 8, 0x020, 0)];
    let tally = vec![0; tally::LENGTH];
    let last = tallies::day(bench, cases, &[(first, blocks), (second, vec![2])], tallies::reset(TWO), tally);
    assert_eq!(last.map(|last| tallies::number(&last, 57)), Some(4001), "a wait over two traces");
    tallies::sheet_of(bench, cases, vec![0; tally::LENGTH], tally::LENGTH, 17);
}
