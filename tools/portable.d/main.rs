//! tools/portable: the proved sources in crates/ as Rust.
mod contracts;
mod edits;
mod house;
mod images;
mod known;
mod lexer;
mod made;
mod names;
mod parser;
mod plain;
mod scope;
mod specs;
mod steps;
mod syntax;
mod terms;
mod walk;

use std::path::PathBuf;
use std::process::ExitCode;

use house::{House, Told};
use made::Layer;

/// What tools/portable asks for.
struct Asked {
    check: bool,
    crates: bool,
    root: PathBuf,
    top: Option<String>,
    plain: Option<PathBuf>,
    fast: Option<PathBuf>,
}

fn asked() -> Told<Asked> {
    let mut asked = Asked { check: false, crates: false, root: PathBuf::from("."), top: None, plain: None, fast: None };
    let mut words = std::env::args().skip(1);
    while let Some(word) = words.next() {
        let mut value = || words.next().ok_or(format!("{word} wants a value"));
        match word.as_str() {
            "--check" => asked.check = true,
            "--crates" => asked.crates = true,
            "--root" => asked.root = value()?.into(),
            "--top" => asked.top = Some(value()?),
            "--plain" => asked.plain = Some(value()?.into()),
            "--fast" => asked.fast = Some(value()?.into()),
            _ => return Err(format!("'{word}' is no option")),
        }
    }
    Ok(asked)
}

/// Whether all is as it should be: written, or found the same.
fn run() -> Told<bool> {
    let asked = asked()?;
    let house = House::read(&asked.root, asked.top.as_deref())?;
    if asked.crates {
        house.crates.iter().for_each(|krate| println!("{}", krate.name));
        return Ok(true);
    }
    let mut layers = Vec::new();
    if let Some(folder) = asked.plain {
        layers.push(Layer { folder, files: made::plain_layer(&house)? });
    }
    if let Some(folder) = asked.fast {
        layers.push(Layer { folder, files: made::fast_layer(&asked.root, &house)? });
    }
    if !asked.check {
        made::write(&layers)?;
        return Ok(true);
    }
    let stale = layers.iter().find_map(made::stale);
    if let Some(file) = &stale {
        eprintln!("portable: {} is not what crates/ gives: run tools/portable, and commit what it writes", file.display());
    }
    Ok(stale.is_none())
}

fn main() -> ExitCode {
    match run() {
        Ok(true) => ExitCode::SUCCESS,
        Ok(false) => ExitCode::from(1),
        Err(what) => {
            eprintln!("{what}");
            ExitCode::from(2)
        }
    }
}
