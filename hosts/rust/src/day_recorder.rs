//! A bench day of any length, recorded into a folder.
//!
//! A trace has at most 4,000 records. A [`DayRecorder`] goes on with the next one when one is full, or when [`next_trace`](DayRecorder::next_trace) is called. The first
//! plays from a reset, and each other on the image that the one before left ([`Trace::play_on`](crate::Trace::play_on)). Whatever the day's length, memory holds one
//! trace.
//!
//! ```
//! use pch_pic::day_recorder::BLOCK;
//! use pch_pic::{reg, DayRecorder, GuestDevice, Recorded, Trace, Width, Window};
//!
//! # let home = std::env::temp_dir().join(format!("pch-pic-days-{}", std::process::id()));
//! # let _ = std::fs::remove_dir_all(&home);
//! # std::fs::create_dir_all(&home)?;
//! # let folder = home.join("day");
//! let mut day = Recorded::with_recorder(DayRecorder::planned(&folder, BLOCK)?)?;
//! day.write(Window::at(0), reg::MASK, Width::Dword, 0)?;
//! for _ in 0..3_000 {
//!     let _ = (day.raise(5)?, day.lower(5)?);
//! }
//! day.end()?;
//! assert!(day.stopped().is_none());
//! assert_eq!((day.recorder().traces(), day.recorder().records()), (2, 6_001));
//!
//! let first = Trace::load(folder.join("00001.trace"))?;
//! let second = Trace::load(folder.join("00002.trace"))?;
//! assert_eq!(second.play_on(first.play().image()).pic(), *day.pic());
//! # std::fs::remove_dir_all(&home)?;
//! # Ok::<(), Box<dyn std::error::Error>>(())
//! ```
//!
//! # The folder
//!
//! - `00001.trace`, `00002.trace` and so on are plain traces. Where a [clock](DayRecorder::with_clock) is kept, `00001.trace.times` stands beside each.
//! - `day.list` is text. Its first line is `pch-pic day 1`. Each trace that has ended has a line: its number, its records and its SHA-256. A day that was ended has
//!   a last line, `end`, with the number of traces and of all records.
//!
//! A trace without a line is the one that was open when the day was cut short.
//!
//! # What is lost, and when
//!
//! [Planned](DayRecorder::planned) days are for where power may be lost. Each record is in the trace's file when the call that takes it comes back, and each full block
//! is on the disk; its time is written before it. So a process that is killed loses no record, and lost power at most the block that is open.
//!
//! A day that is [held](DayRecorder::held) has its open trace in memory, and writes it when it is full or ended. There a lost process loses the open trace, and so does
//! a recorder that is dropped before [`end`](DayRecorder::end).

use crate::day::times_beside;
use crate::recorder::sealed::Sealed;
use crate::{cut, holes, list, replace, Record, RecordError, Recorder, Recording, BLOCKS_MAX, RECORDS_MAX};
use std::fs::{self, File, OpenOptions};
use std::io::{self, Seek, SeekFrom, Write};
use std::path::{Path, PathBuf};

/// The records of a block where nothing speaks for another number: a trace then has 62 of them.
pub const BLOCK: u16 = 64;

/// The number of a trace has five digits.
const TRACES_MAX: usize = 99_999;

/// Takes the calls of a day and keeps them in a folder, trace after trace. [`day_recorder`](crate::day_recorder) tells what stands there, and what can be lost.
///
/// Calls are taken one by one, by [`Recording`]; or a [`Recorded`](crate::Recorded) device has each of its calls taken.
///
/// ```
/// use pch_pic::{DayRecorder, RecordError, Recording};
///
/// # let home = std::env::temp_dir().join(format!("pch-pic-day-recorder-{}", std::process::id()));
/// # let _ = std::fs::remove_dir_all(&home);
/// # std::fs::create_dir_all(&home)?;
/// # let folder = home.join("day");
/// let mut day = DayRecorder::held(&folder)?;
/// day.raise(5)?;
/// day.next_trace()?; // the shift changes
/// day.lower(5)?;
/// day.end()?;
/// assert!(std::fs::read_to_string(folder.join("day.list"))?.ends_with("\nend 2 2\n"));
/// assert!(matches!(DayRecorder::held(&folder), Err(RecordError::NotEmpty)));
/// # std::fs::remove_dir_all(&home)?;
/// # Ok::<(), Box<dyn std::error::Error>>(())
/// ```
#[derive(Debug)]
pub struct DayRecorder {
    folder: PathBuf,
    /// How many records each block of a trace is to have; empty where the open trace is held in memory.
    plan: Vec<u16>,
    clock: Option<fn() -> u64>,
    list: File,
    /// How many bytes of the list are good: a line that was written in part is written over.
    list_len: u64,
    /// The traces that have a line, and their records.
    traces: usize,
    records: u64,
    open: Option<Recorder>,
    /// The open trace takes no more: it is to be ended, which failed where this stays.
    ending: bool,
    ended: bool,
}

/// As many blocks of so many records as a trace has room for.
fn plan_of(block: u16) -> Result<Vec<u16>, RecordError> {
    let blocks = RECORDS_MAX.checked_div(usize::from(block)).unwrap_or(0).min(BLOCKS_MAX);
    if blocks == 0 {
        return Err(RecordError::Plan);
    }
    Ok(vec![block; blocks])
}

/// Makes the folder, or takes one that is there and empty.
fn empty_folder(folder: &Path) -> Result<PathBuf, RecordError> {
    match fs::create_dir(folder) {
        Err(why) if why.kind() == io::ErrorKind::AlreadyExists => {
            if fs::read_dir(folder)?.next().is_some() {
                return Err(RecordError::NotEmpty);
            }
        }
        made => {
            made?;
            replace::sync_folder(replace::folder(folder))?;
        }
    }
    cut::between();
    // Whole, so that the day stays in one place wherever the process goes.
    Ok(fs::canonicalize(folder)?)
}

/// The list with its first line. Of two that begin a day in one folder at once, one makes it.
fn new_list(folder: &Path) -> Result<File, RecordError> {
    let mut list = match OpenOptions::new().write(true).create_new(true).open(folder.join(list::NAME)) {
        Err(why) if why.kind() == io::ErrorKind::AlreadyExists => return Err(RecordError::NotEmpty),
        opened => opened?,
    };
    cut::between();
    list.write_all(format!("{}\n", list::HEAD).as_bytes())?;
    list.sync_all()?;
    cut::synced(&list);
    replace::sync_folder(folder)?;
    cut::between();
    Ok(list)
}

/// A day that could not be begun leaves nothing: not its list, nor a folder that was made for it. A list that another made stays.
fn take_back(folder: &Path, made: bool, why: &RecordError) {
    if !matches!(why, RecordError::NotEmpty) {
        let _ = fs::remove_file(folder.join(list::NAME));
        if made {
            let _ = fs::remove_dir(folder);
        }
    }
}

/// Takes a trace away that got no record, and its times.
fn take_away(path: &Path) -> io::Result<()> {
    for file in [path.to_path_buf(), times_beside(path)] {
        match fs::remove_file(file) {
            Err(why) if why.kind() != io::ErrorKind::NotFound => return Err(why),
            _ => {}
        }
    }
    Ok(())
}

impl DayRecorder {
    /// A day that is kept as it goes, for where power may be lost: in blocks of so many records, as many in a trace as it has room for. [`BLOCK`] is a good number.
    /// A smaller one loses less with the power, and waits for the disk more often.
    ///
    /// # Errors
    ///
    /// [`RecordError::Plan`] where no block is of 1 to 4,000 records; [`RecordError::NotEmpty`] where something is in the folder, and then nothing there is touched;
    /// else [`RecordError::Io`].
    pub fn planned(folder: impl AsRef<Path>, block: u16) -> Result<Self, RecordError> {
        DayRecorder::begin(folder.as_ref(), plan_of(block)?)
    }

    /// A day whose open trace is held in memory until it is full or ended: a lost process loses it.
    ///
    /// # Errors
    ///
    /// [`RecordError::NotEmpty`] where something is in the folder, and then nothing there is touched; else [`RecordError::Io`].
    pub fn held(folder: impl AsRef<Path>) -> Result<Self, RecordError> {
        DayRecorder::begin(folder.as_ref(), Vec::new())
    }

    fn begin(folder: &Path, plan: Vec<u16>) -> Result<Self, RecordError> {
        let made = !folder.exists();
        let folder = empty_folder(folder)?;
        let list = new_list(&folder).inspect_err(|why| take_back(&folder, made, why))?;
        let list_len = list::HEAD.len() as u64 + 1;
        Ok(DayRecorder { folder, plan, clock: None, list, list_len, traces: 0, records: 0, open: None, ending: false, ended: false })
    }

    /// Keeps the time of each record too, by one clock for the whole day, as [`Recorder::with_clock`] does. They stand beside each trace.
    ///
    /// # Errors
    ///
    /// [`RecordError::Started`] where there are records already.
    pub fn with_clock(self, clock: fn() -> u64) -> Result<Self, RecordError> {
        if !self.is_empty() {
            return Err(RecordError::Started);
        }
        Ok(DayRecorder { clock: Some(clock), ..self })
    }

    /// The folder.
    pub fn folder(&self) -> &Path {
        &self.folder
    }

    /// How many traces have ended.
    pub fn traces(&self) -> usize {
        self.traces
    }

    /// How many records were taken, those of the open trace among them.
    pub fn records(&self) -> u64 {
        self.records + self.open.as_ref().map_or(0, Recorder::len) as u64
    }

    /// The file of the trace that is open, or that comes next.
    fn path(&self) -> PathBuf {
        self.folder.join(list::name(self.traces + 1))
    }

    /// Ends the open trace: the next record begins another. A planned one that is short of its plan becomes a good shorter trace. Where no record was taken since the
    /// last one ended, there is nothing to do.
    ///
    /// # Errors
    ///
    /// [`RecordError::Io`]: no record is lost, and the next call tries it again. [`RecordError::Ended`].
    pub fn next_trace(&mut self) -> Result<(), RecordError> {
        if self.ended {
            return Err(RecordError::Ended);
        }
        self.end_trace()
    }

    /// Ends the day: the open trace, and the list with it. Then no more is taken. A second time it does nothing.
    ///
    /// # Errors
    ///
    /// [`RecordError::Empty`] where there is no record at all; [`RecordError::Io`]. Then the day has not ended, no record is lost, and it can be tried again.
    pub fn end(&mut self) -> Result<(), RecordError> {
        if self.ended {
            return Ok(());
        }
        self.end_trace()?;
        if self.is_empty() {
            return Err(RecordError::Empty);
        }
        if self.open.is_some() {
            // Its first record could not be written: a trace without one is none.
            take_away(&self.path())?;
            self.open = None;
        }
        self.add_line(&format!("end {} {}\n", self.traces, self.records))?;
        self.ended = true;
        cut::between();
        Ok(())
    }

    /// Puts all that was taken on the disk, where the day is [planned](DayRecorder::planned); full blocks and ended traces are there already.
    ///
    /// # Errors
    ///
    /// Those of the file system.
    pub fn sync(&self) -> io::Result<()> {
        self.open.as_ref().map_or(Ok(()), Recorder::sync)
    }

    /// The file of a planned trace is there, with zeros for its records, before its first record is taken.
    fn begin_trace(&self) -> Result<Recorder, RecordError> {
        let path = self.path();
        if self.traces == TRACES_MAX {
            return Err(RecordError::Full);
        }
        // The folder was empty: what is there now is another's.
        if path.symlink_metadata().is_ok() || times_beside(&path).symlink_metadata().is_ok() {
            return Err(RecordError::NotEmpty);
        }
        self.begun(&path).inspect_err(|_| drop(take_away(&path)))
    }

    fn begun(&self, path: &Path) -> Result<Recorder, RecordError> {
        let recorder = match self.plan.is_empty() {
            true => Recorder::new(),
            false => Recorder::kept(&self.plan, path)?,
        };
        cut::between();
        match self.clock {
            None => Ok(recorder),
            Some(clock) if self.plan.is_empty() => recorder.with_clock(clock),
            Some(clock) => recorder.with_clock(clock)?.keep_times(path),
        }
    }

    /// Each step leaves a good day, so that it may be cut short between any two: a whole trace that has no line is as good as an open one.
    fn end_trace(&mut self) -> Result<(), RecordError> {
        let Some(open) = self.open.as_ref().filter(|open| !open.is_empty()) else { return Ok(()) };
        // Whatever fails from here on, it takes no more: a shorter trace has no place for another record.
        self.ending = true;
        let (path, trace) = (self.path(), open.finish()?);
        cut::between();
        if !self.plan.is_empty() && open.is_full() {
            open.sync()?;
        } else {
            // The times go first: a good trace never stands without them.
            if self.clock.is_some() {
                open.save_times(&path)?;
            }
            trace.save(&path)?;
        }
        cut::between();
        let records = trace.records().len();
        self.add_line(&format!("{:05} {records} {}\n", self.traces + 1, holes::digest(trace.as_bytes())))?;
        cut::between();
        (self.traces, self.records) = (self.traces + 1, self.records + records as u64);
        (self.open, self.ending) = (None, false);
        Ok(())
    }

    /// What fails here is told by the next call, which tries it again: the record that filled the trace is taken.
    fn end_if_full(&mut self) {
        if self.open.as_ref().is_some_and(Recorder::is_full) {
            let _ = self.end_trace();
        }
    }

    /// A line goes to the disk at its place.
    fn add_line(&mut self, line: &str) -> io::Result<()> {
        self.list.seek(SeekFrom::Start(self.list_len))?;
        let added = self.list.write_all(line.as_bytes()).and_then(|()| {
            cut::between();
            self.list.sync_data()
        });
        // A line that may not be on the disk is taken back: what is written next comes in its place.
        if added.is_err() {
            let _ = self.list.set_len(self.list_len);
        }
        added?;
        cut::synced(&self.list);
        self.list_len += line.len() as u64;
        Ok(())
    }
}

impl Sealed for DayRecorder {}

impl Recording for DayRecorder {
    /// Where [`RecordError::Io`] comes back the record was not taken.
    fn take(&mut self, record: Record) -> Result<(), RecordError> {
        if self.ended {
            return Err(RecordError::Ended);
        }
        if self.ending {
            self.end_trace()?;
        }
        let open = match self.open.take() {
            Some(open) => open,
            None => self.begin_trace()?,
        };
        self.open.insert(open).take(record)?;
        self.end_if_full();
        Ok(())
    }

    fn records(&self) -> u64 {
        DayRecorder::records(self)
    }

    fn close_block(&mut self) -> Result<(), RecordError> {
        if !self.plan.is_empty() {
            return Err(RecordError::Planned);
        }
        self.open.as_mut().ok_or(RecordError::Empty)?.close_block()?;
        self.end_if_full();
        Ok(())
    }
}

#[cfg(all(test, target_os = "linux"))]
mod tests {
    use super::*;
    use crate::{monotonic, reg, Error, Trace};
    use cut::Disk;
    use std::env;
    use std::process::{Command, Output};

    /// A day that tests record: blocks of so many records, with times or without, its traces ended by hand after so many records, and full ones by themselves.
    #[derive(Clone, Copy)]
    struct Way {
        block: u16,
        times: bool,
        records: usize,
        nexts: &'static [usize],
    }

    /// Full traces, short ones, one that ends with a block and one that does not, and an end at a boundary.
    const WAYS: [Way; 4] = [
        Way { block: 2, times: false, records: 190, nexts: &[129, 140, 180] },
        Way { block: 1, times: true, records: 128, nexts: &[] },
        Way { block: 3, times: true, records: 260, nexts: &[5, 8, 205] },
        Way { block: 300, times: false, records: 350, nexts: &[20] },
    ];

    /// No two records are the same.
    fn record(number: usize) -> Record {
        Record::Write { offset: reg::POL as u16, width: 8, value: number as u64 }
    }

    impl Way {
        fn takes(self, folder: &Path, mut acknowledged: impl FnMut(usize)) {
            let mut day = DayRecorder::planned(folder, self.block).unwrap();
            if self.times {
                day = day.with_clock(monotonic).unwrap();
            }
            for number in 0..self.records {
                day.take(record(number)).unwrap();
                acknowledged(number + 1);
                if self.nexts.contains(&(number + 1)) {
                    day.next_trace().unwrap();
                }
            }
            day.end().unwrap();
        }
    }

    /// A folder of its own, gone at the end.
    struct Home(PathBuf);

    impl Home {
        fn new(name: &str) -> Self {
            // A process can be killed wherever its files are, and the power that is lost here is not the machine's: so no disk has to be waited for.
            let name = format!("pch-pic-days-{name}-{}", std::process::id());
            let homes = [Path::new("/dev/shm").join(&name), env::temp_dir().join(&name)];
            let made = homes.into_iter().find(|home| fs::create_dir(home).is_ok());
            Home(made.expect("a folder for days"))
        }
    }

    impl Drop for Home {
        fn drop(&mut self) {
            let _ = fs::remove_dir_all(&self.0);
        }
    }

    /// What stands in a folder: how many records its list has, how many whole ones the open trace, and whether the day was ended.
    #[derive(Debug, PartialEq)]
    struct Stands {
        listed: usize,
        open: usize,
        ended: bool,
    }

    /// Reads a folder by the words of its format. Every record is held against the day's, and every line against its file.
    fn stands(folder: &Path, times: bool) -> Stands {
        let list = fs::read_to_string(folder.join(list::NAME)).unwrap_or_default();
        let (mut stands, mut traces) = (Stands { listed: 0, open: 0, ended: false }, 0);
        // A last line without its end is not there.
        let lines: Vec<&str> = list.split_inclusive('\n').filter(|line| line.ends_with('\n')).map(str::trim_end).collect();
        assert!(lines.is_empty() || lines[0] == "pch-pic day 1", "{list}");
        for line in lines.iter().skip(1) {
            assert!(!stands.ended, "{list}");
            if let Some(counts) = line.strip_prefix("end ") {
                assert_eq!(counts, format!("{traces} {}", stands.listed));
                stands.ended = true;
                continue;
            }
            let path = folder.join(format!("{:05}.trace", traces + 1));
            let trace = Trace::load(&path).unwrap();
            let records = trace.records().len();
            assert_eq!(*line, format!("{:05} {records} {}", traces + 1, holes::digest(trace.as_bytes())));
            assert!(trace.records().eq((stands.listed..stands.listed + records).map(record)));
            assert_eq!(timed(&path), if times { records } else { 0 });
            (traces, stands.listed) = (traces + 1, stands.listed + records);
        }
        stands.open = opened(&folder.join(format!("{:05}.trace", traces + 1)), stands.listed, times);
        assert!(!stands.ended || stands.open == 0);
        let found =
            fs::read_dir(folder).unwrap().filter(|entry| entry.as_ref().unwrap().path().extension().is_some_and(|end| end == "trace"));
        assert!(found.count() <= traces + 1);
        stands
    }

    /// How many times there are beside a trace; each is not before the one before it.
    fn timed(path: &Path) -> usize {
        let bytes = fs::read(times_beside(path)).unwrap_or_default();
        let times: Vec<_> = bytes.chunks_exact(8).map(|time| u64::from_le_bytes(time.try_into().unwrap())).collect();
        assert!(times.windows(2).all(|pair| pair[0] <= pair[1]));
        times.len()
    }

    /// The whole records that an unlisted trace begins with. Each has its time, and a trace that is good as it stands no time more.
    fn opened(path: &Path, first: usize, times: bool) -> usize {
        let Ok(bytes) = fs::read(path) else { return 0 };
        let whole = match Trace::try_from(bytes.clone()) {
            Ok(trace) => {
                assert_eq!(timed(path), if times { trace.records().len() } else { 0 });
                trace.records().len()
            }
            Err(Error::Record(bad)) => {
                assert!(!times || timed(path) >= bad as usize);
                bad as usize
            }
            Err(why) => panic!("{}: {why}", path.display()),
        };
        if whole > 0 {
            assert!(holes::lead(&bytes, &[]).unwrap().trace.records().eq((first..first + whole).map(record)));
        }
        whole
    }

    /// No test by itself: others start it in a process of its own, which says a byte for each record that was taken, and may end at any step.
    #[test]
    fn a_day_in_another_process() {
        let Some(folder) = env::var_os("PCH_PIC_DAY") else { return };
        let way = WAYS[env::var("PCH_PIC_WAY").unwrap().parse::<usize>().unwrap()];
        way.takes(Path::new(&folder), |_| io::stderr().write_all(b".").unwrap());
        let (steps, rare) = cut::steps();
        println!("\nsteps: {steps} {}", rare.iter().map(usize::to_string).collect::<Vec<_>>().join(" "));
    }

    /// Records a day in a process that ends itself at this step.
    fn ends_at(step: usize, way: usize, folder: &Path) -> Output {
        // Where tests run in an emulator, the process that they start does too.
        let runner = env::var("CARGO_TARGET_X86_64_UNKNOWN_LINUX_GNU_RUNNER").unwrap_or_default();
        let mut words =
            runner.split_whitespace().filter(|_| cfg!(target_arch = "x86_64")).map(Into::into).chain([env::current_exe().unwrap()]);
        let mut child = Command::new(words.next().unwrap());
        child.args(words).args(["--exact", "day_recorder::tests::a_day_in_another_process", "--nocapture", "--test-threads=1"]);
        child.env("PCH_PIC_DAY", folder).env("PCH_PIC_WAY", way.to_string()).env(cut::END_AT, step.to_string());
        child.output().unwrap()
    }

    /// The steps to end at: all that are no records, and of the others some, or all where that is asked for.
    fn steps_of(way: usize, folder: &Path, all: bool) -> Vec<usize> {
        let whole = ends_at(usize::MAX, way, folder);
        assert!(whole.status.success() && whole.stderr.len() == WAYS[way].records, "{}", String::from_utf8_lossy(&whole.stderr));
        assert_eq!(stands(folder, WAYS[way].times), Stands { listed: WAYS[way].records, open: 0, ended: true });
        let told = String::from_utf8(whole.stdout).unwrap();
        let line = told.lines().find_map(|line| line.strip_prefix("steps: ")).unwrap();
        let mut numbers = line.split(' ').map(|number| number.parse::<usize>().unwrap());
        let steps = numbers.next().unwrap();
        let rare: Vec<_> = numbers.collect();
        (0..steps).filter(|step| all || step % 20 == 0 || rare.contains(step)).collect()
    }

    /// A process that ends at any step leaves every record that it acknowledged, and besides at most the one that it was at. With PCH_PIC_KILLS=all every step is tried.
    #[test]
    fn a_killed_process_loses_no_record() {
        let home = Home::new("killed");
        let all = env::var("PCH_PIC_KILLS").is_ok_and(|kills| kills == "all");
        let mut kills = 0;
        for (number, way) in WAYS.iter().enumerate() {
            for step in steps_of(number, &home.0.join(format!("{number}")), all) {
                let folder = home.0.join(format!("{number}-{step}"));
                let child = ends_at(step, number, &folder);
                assert!(
                    !child.status.success() && child.stderr.iter().all(|byte| *byte == b'.'),
                    "{}",
                    String::from_utf8_lossy(&child.stderr)
                );
                let acknowledged = child.stderr.len();
                let found = stands(&folder, way.times);
                let left = found.listed + found.open;
                assert!(left == acknowledged || left == acknowledged + 1, "{number} {step}: {acknowledged} {found:?}");
                fs::remove_dir_all(&folder).unwrap();
                kills += 1;
            }
        }
        println!("{kills} processes ended");
        assert!(kills >= if all { 1_000 } else { 100 });
    }

    /// After every record power is lost: what was never synced is gone. At most the open block is.
    #[test]
    fn lost_power_loses_the_open_block() {
        let home = Home::new("power");
        for way in WAYS {
            let (folder, back) = (home.0.join("day"), home.0.join("back"));
            Disk::begin();
            let check = |taken: usize| {
                Disk::now().lay_out(&back);
                let found = stands(&back, way.times);
                let whole = found.listed + found.open;
                assert!(whole <= taken && taken - whole < usize::from(way.block), "{taken} {found:?}");
                // And it is the open block that is lost: what is left ends where a block does.
                assert_eq!(found.open % usize::from(way.block), 0);
                assert!(!found.ended);
            };
            way.takes(&folder, check);
            Disk::now().lay_out(&back);
            assert_eq!(stands(&back, way.times), Stands { listed: way.records, open: 0, ended: true });
            assert_eq!(stands(&folder, way.times), stands(&back, way.times));
            fs::remove_dir_all(&folder).unwrap();
        }
    }
}
