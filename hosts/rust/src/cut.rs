//! Where a recording may be cut short. It marks each step that a file goes through; only tests do something there: a process that ends at such a step, and a disk that
//! has what was synced and no more.

use std::fs::File;
use std::path::Path;

/// Between two steps.
#[cfg(not(all(test, target_os = "linux")))]
pub fn between() {}

/// The same behind a record of an open trace, which is what most steps are.
#[cfg(not(all(test, target_os = "linux")))]
pub fn taken() {}

/// The bytes of this file are on the disk.
#[cfg(not(all(test, target_os = "linux")))]
pub fn synced(_: &File) {}

/// The names in this folder are on the disk.
#[cfg(not(all(test, target_os = "linux")))]
pub fn named(_: &Path) {}

#[cfg(all(test, target_os = "linux"))]
pub use on::*;

#[cfg(all(test, target_os = "linux"))]
mod on {
    use super::*;
    use std::cell::RefCell;
    use std::collections::BTreeMap;
    use std::ffi::OsString;
    use std::os::unix::fs::{DirEntryExt, FileExt, MetadataExt};
    use std::sync::atomic::{AtomicUsize, Ordering};
    use std::sync::{Mutex, OnceLock};

    /// Names the step at which a process ends itself, as if it were killed there.
    pub const END_AT: &str = "PCH_PIC_END_AT";

    static STEPS: AtomicUsize = AtomicUsize::new(0);

    /// The steps so far that were no records.
    static RARE: Mutex<Vec<usize>> = Mutex::new(Vec::new());

    /// How many steps there were, and which of them were no records.
    pub fn steps() -> (usize, Vec<usize>) {
        (STEPS.load(Ordering::Relaxed), RARE.lock().unwrap().clone())
    }

    pub fn taken() -> usize {
        static LAST: OnceLock<Option<usize>> = OnceLock::new();
        let last = LAST.get_or_init(|| std::env::var(END_AT).ok().and_then(|step| step.parse().ok()));
        let step = STEPS.fetch_add(1, Ordering::Relaxed);
        if *last == Some(step) {
            std::process::abort();
        }
        step
    }

    pub fn between() {
        let step = taken();
        RARE.lock().unwrap().push(step);
    }

    /// What outlasts a lost power: of each file the bytes that it had when it was last synced, and in a folder the names that it had when it was.
    #[derive(Clone, Default)]
    pub struct Disk {
        bytes: BTreeMap<u64, Vec<u8>>,
        names: BTreeMap<OsString, u64>,
    }

    thread_local! {
        /// That of the test that asked for one; so other tests beside it have none.
        static DISK: RefCell<Option<Disk>> = const { RefCell::new(None) };
    }

    impl Disk {
        /// From here on what this thread syncs goes to a new disk.
        pub fn begin() {
            DISK.set(Some(Disk::default()));
        }

        pub fn now() -> Self {
            DISK.with_borrow(|disk| disk.clone().unwrap_or_default())
        }

        /// What stands in the folder when power is back.
        pub fn lay_out(&self, folder: &Path) {
            let _ = std::fs::remove_dir_all(folder);
            std::fs::create_dir_all(folder).unwrap();
            for (name, file) in &self.names {
                std::fs::write(folder.join(name), self.bytes.get(file).map_or(&[][..], |bytes| bytes)).unwrap();
            }
        }
    }

    pub fn synced(file: &File) {
        DISK.with_borrow_mut(|disk| {
            let Some(disk) = disk else { return };
            let about = file.metadata().unwrap();
            let mut bytes = vec![0; about.len() as usize];
            // A file that is only written cannot be read by its own handle.
            let again = File::open(format!("/proc/self/fd/{}", std::os::fd::AsRawFd::as_raw_fd(file))).unwrap();
            again.read_exact_at(&mut bytes, 0).unwrap();
            disk.bytes.insert(about.ino(), bytes);
        });
    }

    pub fn named(folder: &Path) {
        DISK.with_borrow_mut(|disk| {
            let Some(disk) = disk else { return };
            let entries = std::fs::read_dir(folder).unwrap().map(Result::unwrap);
            disk.names = entries.map(|entry| (entry.file_name(), entry.ino())).collect();
        });
    }
}
