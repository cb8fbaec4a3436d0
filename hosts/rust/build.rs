//! With feature `archive`: links libpch_pic.a, from PCH_PIC_LIB_DIR, from the repository's target/archive, or from where pkg-config says that it is installed.
//! It says what to do where the library is missing, and refuses a target that the library is not for. Without the feature there is nothing to do.

use std::env;
use std::path::{Path, PathBuf};
use std::process::{exit, Command};

const LIBRARY: &str = "libpch_pic.a";

/// What cargo says of the target, not of the machine that builds.
fn target(part: &str) -> String {
    env::var(format!("CARGO_CFG_TARGET_{part}")).unwrap_or_default()
}

/// The folder that PCH_PIC_LIB_DIR names, whole, since the linker is run elsewhere; or what is wrong with it.
fn named(dir: &Path) -> Result<PathBuf, String> {
    let shown = format!("PCH_PIC_LIB_DIR names '{}'", dir.display());
    let whole = dir.canonicalize().map_err(|why| format!("{shown}: {why}"))?;
    if whole.is_file() {
        return Err(format!("{shown}, which is a file: it has to name the folder of {LIBRARY}"));
    }
    if !whole.join(LIBRARY).is_file() {
        return Err(format!("{shown}, and there is no {LIBRARY} in it"));
    }
    Ok(whole)
}

/// The version that an archive says it has, behind a name that stands in it once; nothing for one of before 0.15.0, which does not say it.
fn version_in(bytes: &[u8]) -> Option<&str> {
    const NAME: &[u8] = b"pch_pic ";
    let digit_behind = |place: usize| bytes[place..].starts_with(NAME) && bytes.get(place + NAME.len()).is_some_and(u8::is_ascii_digit);
    let text = &bytes[(0..bytes.len()).find(|&place| digit_behind(place))? + NAME.len()..];
    let end = text.iter().position(|&byte| byte != b'.' && !byte.is_ascii_digit())?;
    std::str::from_utf8(&text[..end]).ok()
}

/// The major and the minor number: what differs in these may have other calls.
fn minor(version: &str) -> Option<&str> {
    version.rsplit_once('.').map(|(minor, _)| minor)
}

/// The folder, where the library in it is of this crate's minor version.
fn fitting(dir: PathBuf) -> Result<PathBuf, String> {
    let own = env::var("CARGO_PKG_VERSION").unwrap_or_default();
    let bytes = std::fs::read(dir.join(LIBRARY)).map_err(|why| format!("{LIBRARY} in {}: {why}", dir.display()))?;
    match version_in(&bytes) {
        Some(version) if minor(version) == minor(&own) => Ok(dir),
        version => {
            Err(format!("{LIBRARY} in {} is of version {}, and this crate of {own}", dir.display(), version.unwrap_or("before 0.15.0")))
        }
    }
}

/// What pkg-config answers; none where it is not there, or knows no such library.
fn pkg_config(word: &str) -> Option<String> {
    let asked = Command::new(env::var_os("PKG_CONFIG").unwrap_or("pkg-config".into())).args([word, "pch_pic"]).output().ok()?;
    let text = String::from_utf8(asked.stdout).ok()?;
    asked.status.success().then(|| text.trim_end().to_string())
}

/// The library that is installed. What pkg-config says of its version has to fit too.
fn installed() -> Result<PathBuf, String> {
    let dir =
        pkg_config("--variable=libdir").map(PathBuf::from).filter(|dir| dir.join(LIBRARY).is_file()).ok_or("pkg-config knows none")?;
    let (version, own) = (pkg_config("--modversion").unwrap_or_default(), env::var("CARGO_PKG_VERSION").unwrap_or_default());
    if minor(&version) != minor(&own) {
        return Err(format!("the one in {} is of version {version}, and this crate of {own}", dir.display()));
    }
    Ok(dir)
}

/// Where the library is, or the lines that say why it is nowhere.
fn library_dir() -> Result<PathBuf, String> {
    if let Some(dir) = env::var_os("PCH_PIC_LIB_DIR") {
        return named(Path::new(&dir));
    }
    let here = env::var_os("CARGO_MANIFEST_DIR").unwrap_or_default();
    let made = Path::new(&here).join("../../target/archive");
    println!("cargo:rerun-if-changed={}", made.join(LIBRARY).display());
    if let Some(whole) = made.canonicalize().ok().filter(|whole| whole.join(LIBRARY).is_file()) {
        return Ok(whole);
    }
    installed().map_err(|why| {
        let shown = made.display();
        format!(
            "{LIBRARY} is neither in {shown} nor installed ({why})\nTo prove and build it, run tools/archive at the top of the repository."
        )
    })
}

fn main() {
    println!("cargo:rerun-if-changed=build.rs");
    if env::var_os("CARGO_FEATURE_ARCHIVE").is_none() {
        return;
    }
    for name in ["PCH_PIC_LIB_DIR", "PKG_CONFIG", "PKG_CONFIG_PATH"] {
        println!("cargo:rerun-if-env-changed={name}");
    }
    if [target("ARCH"), target("OS"), target("POINTER_WIDTH")] != ["x86_64", "linux", "64"] {
        let name = env::var("TARGET").unwrap_or_default();
        eprintln!("{LIBRARY} is for x86-64 Linux in user space; the target {name} is not served by feature archive");
        exit(1);
    }
    match library_dir().and_then(fitting) {
        Ok(whole) => {
            println!("cargo:rerun-if-changed={}", whole.join(LIBRARY).display());
            println!("cargo:rustc-link-search=native={}", whole.display());
            println!("cargo:rustc-link-lib=static=pch_pic");
        }
        Err(why) => {
            eprintln!("{why}\nIf it stands elsewhere, set PCH_PIC_LIB_DIR to its folder.");
            exit(1);
        }
    }
}
