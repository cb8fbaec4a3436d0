//! The layers as folders of files: put together, written aside and put in place, or compared with what stands there.
use std::collections::BTreeMap;
use std::fs;
use std::path::{Path, PathBuf};

use crate::house::{House, Told};
use crate::plain::{self, Made};
use crate::steps::Steps;
use crate::syntax::ItemKind;

pub struct Layer {
    pub folder: PathBuf,
    pub files: Vec<Made>,
}

/// The plain copy and the module that holds it.
pub fn plain_layer(house: &House) -> Told<Vec<Made>> {
    let mut files = plain::copy(house, None)?;
    let crates: String = sorted(house).iter().map(|name| format!("pub mod {name};\n")).collect();
    let text = format!("{PLAIN_HEAD}\n{WIDE}\n{crates}\n{}", calls(house, |name| format!("super::{name}")));
    files.push(Made { path: "mod.rs".to_string(), text });
    Ok(files)
}

const PLAIN_HEAD: &str = "\
// Made from crates/ by tools/portable: do not change it here.
//! The proved sources of the library as Rust: a module for each crate of `crates/`, copied without what is ghost. What each function requires and ensures stands in its docs, as
//! the proofs have it. docs/PORTABLE.md tells what is dropped and what is rewritten.

#![forbid(unsafe_code)]
// Names stand for themselves where a comment would only say them again: fields, variants, constants.
#![allow(missing_docs)]
// The session program uses some functions that no exported call comes to.
#![allow(dead_code)]
// Patterns name all that a variant holds, though not every arm uses it.
#![allow(unused_variables)]
// The text is copied as it is proved: its loops and comparisons are not put into other words here.
#![allow(clippy::style, clippy::complexity)]
";

/// The text with the steps on it, one copy of it for each front, and what joins these.
pub fn fast_layer(root: &Path, house: &House) -> Told<Vec<Made>> {
    let steps = Steps::of(root, house)?;
    let (plain, fast) = (plain::copy(house, None)?, plain::copy(house, Some(&steps))?);
    let changed = |name: &str| {
        let of = |files: &[Made]| {
            files.iter().filter(|made| made.path.starts_with(&format!("{name}/"))).map(|made| made.text.clone()).collect::<Vec<_>>()
        };
        of(&plain) != of(&fast)
    };
    let mut crates = String::new();
    let mut files = Vec::new();
    for name in sorted(house) {
        if changed(&name) {
            crates.push_str(&format!("pub mod {name};\n"));
        } else {
            crates.push_str(&format!("#[path = \"../../proved/{name}/mod.rs\"]\npub mod {name};\n"));
        }
    }
    for made in fast.iter().filter(|made| changed(made.path.split('/').next().expect("a crate"))) {
        files.push(Made { path: format!("text/{}", made.path), text: made.text.clone() });
    }
    files.push(Made { path: "text/mod.rs".to_string(), text: format!("{TEXT_HEAD}\n{crates}") });
    let fronts: Vec<&String> = house.tops.iter().collect();
    let copies: String = fronts.iter().map(|name| format!("#[path = \"text/mod.rs\"]\nmod for_{name};\n")).collect();
    let text = format!("{FAST_HEAD}\n{WIDE}\n{copies}\n{}", calls(house, |name| format!("super::for_{name}::{name}")));
    files.push(Made { path: "mod.rs".to_string(), text });
    Ok(files)
}

const WIDE: &str = "\
#[cfg(not(any(target_pointer_width = \"64\", target_arch = \"wasm32\")))]
compile_error!(\"the proofs are of a machine whose usize has 64 bits, and this text of it and of WebAssembly\");
";

const TEXT_HEAD: &str = "\
// Made from crates/ by tools/portable: do not change it here.
//! The proved sources with the steps of docs/PORTABLE.md on them: a module for each crate. A crate that no step changes is the plain copy's own.

// As in the plain copy.
#![allow(missing_docs, dead_code, unused_variables, unused_imports)]
#![allow(clippy::style, clippy::complexity)]
";

const FAST_HEAD: &str = "\
// Made from crates/ by tools/portable: do not change it here.
//! The proved sources as Rust, made fast: the plain copy with steps on it that docs/PORTABLE.md tells, one copy of the text for each front.

#![forbid(unsafe_code)]
// The same files stand behind each front, so that what has one caller becomes a part of it.
#![allow(clippy::duplicate_mod)]
";

fn sorted(house: &House) -> Vec<String> {
    let mut names: Vec<String> = house.crates.iter().map(|krate| krate.name.clone()).collect();
    names.sort();
    names
}

/// The exported calls of each front, flat.
fn calls(house: &House, from: impl Fn(&str) -> String) -> String {
    let mut lines = String::new();
    for krate in house.crates.iter().filter(|krate| house.tops.contains(&krate.name)) {
        let mut names: Vec<&str> = Vec::new();
        for item in krate.modules.iter().flat_map(|module| &module.syntax.items) {
            if let ItemKind::Fn(function) = &item.kind
                && function.exported
            {
                names.push(&function.name);
            }
        }
        names.sort();
        match names.as_slice() {
            [] => {}
            [one] => lines.push_str(&format!("    pub use {}::{one};\n", from(&krate.name))),
            all => lines.push_str(&format!("    pub use {}::{{{}}};\n", from(&krate.name), all.join(", "))),
        }
    }
    format!("/// Every call that a host makes. It may use some of them only.\n#[allow(unused_imports)]\npub mod calls {{\n{lines}}}\n")
}

/// All layers are written aside first, so that nothing is left half made.
pub fn write(layers: &[Layer]) -> Told<()> {
    for layer in layers {
        let aside = beside(&layer.folder, "new");
        remove(&aside)?;
        for made in &layer.files {
            let file = aside.join(&made.path);
            fs::create_dir_all(file.parent().expect("it stands in a folder")).map_err(failed(&file))?;
            fs::write(&file, &made.text).map_err(failed(&file))?;
        }
    }
    for layer in layers {
        let (aside, old) = (beside(&layer.folder, "new"), beside(&layer.folder, "old"));
        remove(&old)?;
        if layer.folder.exists() {
            fs::rename(&layer.folder, &old).map_err(failed(&old))?;
        }
        fs::rename(&aside, &layer.folder).map_err(failed(&layer.folder))?;
        remove(&old)?;
    }
    Ok(())
}

fn beside(folder: &Path, word: &str) -> PathBuf {
    let name = folder.file_name().expect("a folder with a name").to_string_lossy();
    folder.with_file_name(format!(".{name}.{word}"))
}

fn remove(folder: &Path) -> Told<()> {
    if folder.exists() { fs::remove_dir_all(folder).map_err(failed(folder)) } else { Ok(()) }
}

fn failed(path: &Path) -> impl Fn(std::io::Error) -> String + '_ {
    move |error| format!("portable: {}: {error}", path.display())
}

/// The first file that is missing, that differs, or that should not be there.
pub fn stale(layer: &Layer) -> Option<PathBuf> {
    let wanted: BTreeMap<PathBuf, &str> = layer.files.iter().map(|made| (layer.folder.join(&made.path), made.text.as_str())).collect();
    let differs = |(path, text): &(&PathBuf, &&str)| fs::read_to_string(path).ok().as_deref() != Some(**text);
    if let Some((path, _)) = wanted.iter().find(differs) {
        return Some(path.clone());
    }
    files(&layer.folder).into_iter().find(|file| !wanted.contains_key(file))
}

fn files(folder: &Path) -> Vec<PathBuf> {
    let mut found = Vec::new();
    for entry in fs::read_dir(folder).into_iter().flatten().flatten() {
        let path = entry.path();
        if path.is_dir() { found.extend(files(&path)) } else { found.push(path) }
    }
    found
}
