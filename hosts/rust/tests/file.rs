//! A device in a file: what is written is loaded, and what is damaged is not.
#![cfg(feature = "std")]

use pch_pic::file::{self, LoadError};
use pch_pic::{reg, Error, Form, Hoist, PchPic, Phase, Width, Window};
use std::fs;
use std::path::{Path, PathBuf};

/// A folder of its own, gone at the end.
struct Folder(PathBuf);

impl Folder {
    fn new(name: &str) -> Self {
        let path = std::env::temp_dir().join(format!("pch-pic-{name}-{}", std::process::id()));
        fs::create_dir_all(&path).unwrap();
        Folder(path)
    }

    fn names(&self) -> Vec<String> {
        fs::read_dir(&self.0).unwrap().map(|entry| entry.unwrap().file_name().into_string().unwrap()).collect()
    }
}

impl Drop for Folder {
    fn drop(&mut self) {
        let _ = fs::remove_dir_all(&self.0);
    }
}

#[test]
fn there_and_back() {
    let folder = Folder::new("back");
    let path = folder.0.join("device");
    let mut pic = PchPic::new();
    file::save(&pic, Form::Two, &path).unwrap();
    pic.write(Window::at(0), reg::VECTORS, Width::Byte, 0x77).unwrap();
    for (form, len) in [(Form::One, 275), (Form::Two, 267), (Form::Numbered, 306)] {
        file::save(&pic, form, &path).unwrap();
        assert_eq!(fs::metadata(&path).unwrap().len(), len);
        assert_eq!(file::load(&path).unwrap(), pic);
    }
    pic.write(Window::at(0), reg::MASK, Width::Qword, 0).unwrap();
    assert_eq!(pic.set_level(0, true).unwrap().event().map(|event| event.number), Some(0));
    for (form, next) in [(Form::One, 0), (Form::Two, 0), (Form::Numbered, 1)] {
        file::save(&pic, form, &path).unwrap();
        assert_eq!(file::load(&path).unwrap().next_number(), next);
    }
    assert_eq!(folder.names(), ["device"]);
}

#[test]
fn what_is_damaged_is_not_loaded() {
    let folder = Folder::new("damaged");
    let path = folder.0.join("device");
    file::save(&PchPic::new(), Form::Numbered, &path).unwrap();
    let saved = fs::read(&path).unwrap();
    let with = |bytes: &[u8]| {
        fs::write(&path, bytes).unwrap();
        file::load(&path).unwrap_err()
    };
    for place in [40, saved.len() - 1] {
        let mut bytes = saved.clone();
        bytes[place] ^= 1;
        assert!(matches!(with(&bytes), LoadError::Damaged));
    }
    assert!(matches!(with(&saved[..saved.len() - 1]), LoadError::Torn));
    assert!(matches!(with(&[&saved[..], &[0]].concat()), LoadError::Torn));
    assert!(matches!(with(&PchPic::new().save(Form::Two)), LoadError::Foreign));
    assert!(matches!(with(&[]), LoadError::Foreign));
    // An empty image, whole and with its checksum.
    assert!(matches!(with(b"PCH-PIC\n\0\0\0\0\x22\x62\x1e\xb1"), LoadError::Image(Error::Length)));
}

#[test]
fn what_is_no_plain_file_is_not_replaced() {
    let folder = Folder::new("plain");
    assert!(file::save(&PchPic::new(), Form::Two, &folder.0).is_err());
    assert!(folder.names().is_empty());
    assert!(matches!(file::load(folder.0.join("nothing")), Err(LoadError::Io(_))));
    assert!(file::save(&PchPic::new(), Form::Two, folder.0.join("nothing/device")).is_err());
}

/// The vector of input 0 says who saved it.
fn signed(who: u8) -> PchPic {
    let mut pic = PchPic::new();
    pic.write(Window::at(0), reg::VECTORS, Width::Byte, who.into()).unwrap();
    pic
}

fn saver(path: &Path) -> Option<u8> {
    file::load(path).ok()?.vector(0)
}

#[test]
fn what_stands_beside_it_stays() {
    let folder = Folder::new("beside");
    let (path, beside) = (folder.0.join("device"), folder.0.join("device.new"));
    fs::write(&beside, "mine").unwrap();
    file::save(&signed(1), Form::One, &path).unwrap();
    assert_eq!((saver(&path), fs::read(&beside).unwrap()), (Some(1), b"mine".to_vec()));
    fs::remove_file(&beside).unwrap();
    fs::create_dir(&beside).unwrap();
    file::save(&signed(2), Form::One, &path).unwrap();
    assert_eq!(saver(&path), Some(2));
    fs::remove_dir(&beside).unwrap();
    let long = folder.0.join("n".repeat(255));
    file::save(&signed(3), Form::One, &long).unwrap();
    assert_eq!(saver(&long), Some(3));
    fs::remove_file(long).unwrap();
    assert_eq!(folder.names(), ["device"]);
}

#[test]
fn several_save_one_file_at_once() {
    let folder = Folder::new("several");
    let path = folder.0.join("device");
    file::save(&signed(0), Form::Numbered, &path).unwrap();
    std::thread::scope(|scope| {
        for who in 1..=4 {
            let path = &path;
            scope.spawn(move || (0..25).for_each(|_| file::save(&signed(who), Form::Numbered, path).unwrap()));
        }
        for _ in 0..100 {
            assert!(saver(&path).is_some_and(|who| who <= 4));
        }
    });
    assert_ne!(saver(&path), Some(0));
    assert_eq!(folder.names(), ["device"]);
}

#[test]
fn a_hoist_keeps_its_phase() {
    let folder = Folder::new("hoist");
    let path = folder.0.join("device");
    let mut hoist = Hoist::new();
    hoist.write(Window::at(0), reg::VECTORS, Width::Dword, 0x4342_4140).unwrap();
    for _ in 0..2 {
        for form in [Form::One, Form::Two, Form::Numbered] {
            file::save_hoist(&hoist, form, &path).unwrap();
            assert_eq!(file::load_hoist(&path).unwrap(), hoist);
            assert!(matches!(file::load(&path), Err(LoadError::Image(Error::Length))));
        }
        let _ = hoist.end_startup();
    }
    assert_eq!(file::load_hoist(&path).unwrap().phase(), Phase::Running);
    file::save(&signed(1), Form::Two, &path).unwrap();
    assert!(matches!(file::load_hoist(&path), Err(LoadError::Image(Error::Length))));
    // An image of no byte at all has no phase either.
    fs::write(&path, b"PCH-PIC\n\0\0\0\0\x22\x62\x1e\xb1").unwrap();
    assert!(matches!(file::load_hoist(&path), Err(LoadError::Image(Error::Length))));
}

/// What files are on Unix.
#[cfg(unix)]
mod unix {
    use super::*;
    use std::os::unix::fs::{chown, symlink, MetadataExt, PermissionsExt};
    use std::os::unix::net::UnixListener;
    use std::sync::mpsc;
    use std::thread;
    use std::time::Duration;

    #[test]
    fn mode_and_owner_stay() {
        let folder = Folder::new("mode");
        let (path, usual) = (folder.0.join("device"), folder.0.join("usual"));
        let found = |path: &Path| fs::metadata(path).unwrap();
        file::save(&signed(1), Form::One, &path).unwrap();
        fs::write(&usual, "").unwrap();
        assert_eq!(found(&path).mode(), found(&usual).mode(), "a new file has the mode that is usual here");
        for mode in [0o604, 0o400] {
            fs::set_permissions(&path, fs::Permissions::from_mode(mode)).unwrap();
            file::save(&signed(2), Form::One, &path).unwrap();
            assert_eq!((saver(&path), found(&path).mode() & 0o7777), (Some(2), mode));
        }
        // Only root may give a file away.
        if found(&path).uid() == 0 {
            chown(&path, Some(7), Some(8)).unwrap();
            file::save(&signed(3), Form::One, &path).unwrap();
            assert_eq!((found(&path).uid(), found(&path).gid()), (7, 8));
        }
    }

    #[test]
    fn a_link_is_followed() {
        let folder = Folder::new("links");
        let (link, second, apart) = (folder.0.join("link"), folder.0.join("second"), folder.0.join("apart"));
        fs::create_dir(&apart).unwrap();
        symlink("apart/device", &link).unwrap();
        symlink(&link, &second).unwrap();
        for (who, path) in [(1, &link), (2, &second), (3, &link)] {
            file::save(&signed(who), Form::Two, path).unwrap();
            assert_eq!(saver(&apart.join("device")), Some(who));
            assert!(fs::symlink_metadata(path).unwrap().is_symlink());
        }
        let round = folder.0.join("round");
        symlink("round", &round).unwrap();
        assert!(file::save(&signed(4), Form::Two, &round).is_err());
        assert_eq!(fs::read_dir(&apart).unwrap().count(), 1);
    }

    /// What a load says; nothing where it does not come back, so that the test ends.
    fn loaded_in_time(path: &Path) -> Option<Result<PchPic, LoadError>> {
        let (told, heard) = mpsc::channel();
        let path = path.to_path_buf();
        thread::spawn(move || drop(told.send(file::load(path))));
        heard.recv_timeout(Duration::from_secs(20)).ok()
    }

    #[test]
    fn what_is_no_plain_file_is_not_waited_for() {
        let folder = Folder::new("pipe");
        let path = folder.0.join("pipe");
        let made = std::process::Command::new("mkfifo").arg(&path).status();
        let socket = folder.0.join("socket");
        let _listener = UnixListener::bind(&socket).unwrap();
        for path in [&socket, &folder.0].into_iter().chain(made.is_ok_and(|status| status.success()).then_some(&path)) {
            assert!(matches!(loaded_in_time(path), Some(Err(LoadError::Io(_)))));
            assert!(file::save(&signed(1), Form::Two, path).is_err());
        }
        // Not saved over: where that is broken, root would lose them.
        for device in ["/dev/null", "/dev/zero"] {
            assert!(matches!(loaded_in_time(Path::new(device)), Some(Err(LoadError::Io(_)))));
        }
    }
}
