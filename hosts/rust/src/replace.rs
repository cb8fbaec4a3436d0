//! A file that is replaced whole or not at all, by however many at once. `hosts/c/pic_file.c` does the same.

use crate::cut;
use std::fs::{self, File, Metadata, OpenOptions};
use std::io::{self, Write};
use std::path::{Path, PathBuf};
use std::sync::atomic::{AtomicU32, Ordering};
use std::time::{SystemTime, UNIX_EPOCH};

const MOST_LINKS: usize = 40;
const MOST_NAMES: usize = 100;

/// The folder that a file stands in.
pub(crate) fn folder(path: &Path) -> &Path {
    path.parent().filter(|folder| !folder.as_os_str().is_empty()).unwrap_or(Path::new("."))
}

/// Where a symbolic link leads, link by link: it stays, and what it names is replaced or made.
fn followed(path: &Path) -> io::Result<PathBuf> {
    let mut whole = path.to_path_buf();
    for _ in 0..MOST_LINKS {
        match fs::read_link(&whole) {
            Ok(named) => whole = folder(&whole).join(named),
            Err(_) => return Ok(whole),
        }
    }
    Err(io::Error::other("its symbolic links go round"))
}

#[cfg(unix)]
fn narrow(options: &mut OpenOptions) {
    std::os::unix::fs::OpenOptionsExt::mode(options, 0o600);
}

#[cfg(not(unix))]
fn narrow(_: &mut OpenOptions) {}

/// A new file in a folder, under a name that no other save has: whatever is there already stays.
fn create(folder: &Path, old: Option<&Metadata>) -> io::Result<(File, PathBuf)> {
    static SAVES: AtomicU32 = AtomicU32::new(0);
    let mut options = OpenOptions::new();
    options.write(true).create_new(true);
    if old.is_some() {
        narrow(&mut options);
    }
    for _ in 0..MOST_NAMES {
        let now = SystemTime::now().duration_since(UNIX_EPOCH).map_or(0, |now| now.subsec_nanos());
        let name = format!(".pch-pic-{}-{now:09}-{}.new", std::process::id(), SAVES.fetch_add(1, Ordering::Relaxed));
        let path = folder.join(name);
        match options.open(&path) {
            Err(why) if why.kind() == io::ErrorKind::AlreadyExists => {}
            opened => return opened.map(|file| (file, path)),
        }
    }
    Err(io::ErrorKind::AlreadyExists.into())
}

/// Owner and mode are those of the old file. Another's file keeps its owner only where the system lets this process give it away.
#[cfg(unix)]
fn dress(file: &File, old: &Metadata) -> io::Result<()> {
    use std::os::unix::fs::{fchown, MetadataExt, PermissionsExt};
    let new = file.metadata()?;
    if (new.uid(), new.gid()) != (old.uid(), old.gid()) {
        let _ = fchown(file, Some(old.uid()), Some(old.gid()));
    }
    file.set_permissions(fs::Permissions::from_mode(old.mode() & 0o777))
}

#[cfg(not(unix))]
fn dress(_: &File, _: &Metadata) -> io::Result<()> {
    Ok(())
}

/// These bytes, on the disk.
fn write_and_sync(mut file: &File, bytes: &[u8], old: Option<&Metadata>) -> io::Result<()> {
    file.write_all(bytes)?;
    if let Some(old) = old {
        dress(file, old)?;
    }
    file.sync_all()?;
    cut::synced(file);
    Ok(())
}

/// The new name is on the disk only when the folder is. Some file systems cannot sync a folder, and say so.
#[cfg(unix)]
pub(crate) fn sync_folder(folder: &Path) -> io::Result<()> {
    match File::open(folder)?.sync_all() {
        Err(why) if why.kind() == io::ErrorKind::InvalidInput => {}
        synced => synced?,
    }
    cut::named(folder);
    Ok(())
}

/// Elsewhere a folder cannot be opened, and the system alone says when the new name is on the disk.
#[cfg(not(unix))]
pub(crate) fn sync_folder(_: &Path) -> io::Result<()> {
    Ok(())
}

/// The bytes go to a file beside the old one, which takes its name only when it is whole and on the disk. Of several saves the last one wins. The new file is
/// handed back open: who writes on in it writes in no other's, whoever takes the name next.
pub(crate) fn replace(path: &Path, bytes: &[u8]) -> io::Result<File> {
    let whole = followed(path)?;
    let old = fs::metadata(&whole).ok();
    if old.as_ref().is_some_and(|old| !old.is_file()) {
        return Err(io::Error::new(io::ErrorKind::InvalidInput, "what is there is no plain file"));
    }
    let folder = folder(&whole);
    let (file, beside) = create(folder, old.as_ref())?;
    cut::between();
    let written = write_and_sync(&file, bytes, old.as_ref()).and_then(|()| {
        cut::between();
        fs::rename(&beside, &whole)
    });
    cut::between();
    if written.is_err() {
        let _ = fs::remove_file(&beside);
    }
    written.and_then(|()| sync_folder(folder)).map(|()| file)
}

/// A plain file that is to be read: nothing else is waited for.
pub(crate) fn open_plain(path: &Path) -> io::Result<File> {
    let plain = |found: Metadata| match found.is_file() {
        true => Ok(()),
        false => Err(io::Error::new(io::ErrorKind::InvalidInput, "it is no plain file")),
    };
    // Asked before it is opened, since to open a pipe is to wait for its writer; and again, of what was opened.
    plain(fs::metadata(path)?)?;
    let file = File::open(path)?;
    plain(file.metadata()?)?;
    Ok(file)
}
