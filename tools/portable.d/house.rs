//! The crates that a translation takes, each with its modules, as crates.txt and the sources have them.
use std::collections::BTreeMap;
use std::fs;
use std::path::{Path, PathBuf};

use crate::lexer::Refused;
use crate::names::{self, Methods};
use crate::parser::parse;
use crate::syntax::{File, ItemKind, Macro};

/// One source: a module of a crate, or the crate's root, whose path is empty.
pub struct Module {
    pub krate: String,
    pub path: Vec<String>,
    /// As it is told, from the root of the tree.
    pub file: String,
    pub text: String,
    pub syntax: File,
}

pub struct Crate {
    pub name: String,
    /// The root first, and each module behind the one that names it.
    pub modules: Vec<Module>,
}

pub struct House {
    /// Lowest first; none without code.
    pub crates: Vec<Crate>,
    /// The fronts, or what was asked for in their place.
    pub tops: Vec<String>,
    /// The methods of all types.
    pub methods: Methods,
}

pub type Told<T> = Result<T, String>;

/// `file:line: what`.
pub fn told(file: &str, text: &str, refused: &Refused) -> String {
    let line = 1 + text[..refused.at.min(text.len())].matches('\n').count();
    format!("{file}:{line}: {}", refused.what)
}

impl House {
    /// The fronts and what they rest on, or one crate and what it rests on.
    pub fn read(root: &Path, top: Option<&str>) -> Told<House> {
        let list = root.join("crates.txt");
        let text = fs::read_to_string(&list).map_err(|error| format!("{}: {error}", list.display()))?;
        let rests = listed(&text);
        let tops = match top {
            Some(name) if rests.iter().any(|(listed, _)| listed == name) => vec![name.to_string()],
            Some(name) => return Err(format!("crates.txt lists no crate {name}")),
            None => fronts(root, &rests)?,
        };
        let order = order(&rests, &tops);
        let mut crates = Vec::new();
        for name in order {
            if !root.join("crates").join(&name).join("src/lib.rt").is_file() {
                continue;
            }
            let modules = modules(root, &name)?;
            if modules.iter().any(has_code) {
                crates.push(Crate { name, modules });
            }
        }
        let mut methods = Methods::new();
        let modules = crates.iter().flat_map(|krate: &Crate| &krate.modules);
        modules.for_each(|module| names::methods(&module.syntax.items, &mut methods));
        Ok(House { crates, tops, methods })
    }

    /// Where a crate declares `by_form!`.
    pub fn by_form(&self, name: &str) -> Option<(&Module, &Macro)> {
        let modules = self.crates.iter().filter(|krate| krate.name == name).flat_map(|krate| &krate.modules);
        let mut items = modules.flat_map(|module| module.syntax.items.iter().map(move |item| (module, item)));
        items.find_map(|(module, item)| if let ItemKind::Macro(declared) = &item.kind { Some((module, declared)) } else { None })
    }

    pub fn has(&self, name: &str) -> bool {
        self.crates.iter().any(|krate| krate.name == name)
    }
}

fn has_code(module: &Module) -> bool {
    module.syntax.items.iter().any(|item| !matches!(item.kind, ItemKind::Ghost | ItemKind::Mod(_)))
}

/// The lines of crates.txt: a crate, and what it rests on. `name staticlib: ..` is a crate for C.
fn listed(text: &str) -> Vec<(String, Vec<String>)> {
    let lines = text.lines().filter(|line| !line.starts_with('#'));
    let pairs = lines.filter_map(|line| line.split_once(':'));
    let name = |head: &str| head.split_whitespace().next().unwrap_or("").to_string();
    pairs.map(|(head, rests)| (name(head), rests.split_whitespace().map(str::to_string).collect())).collect()
}

/// The crates that export calls. One that is a library over another for C, NAME_c over NAME, has no code that is not there.
fn fronts(root: &Path, rests: &[(String, Vec<String>)]) -> Told<Vec<String>> {
    let over = |name: &str| name.strip_suffix("_c").is_some_and(|under| rests.iter().any(|(listed, _)| listed == under));
    let mut found = Vec::new();
    for (name, _) in rests.iter().filter(|(name, _)| !over(name)) {
        for source in sources(&root.join("crates").join(name).join("src")) {
            let text = fs::read_to_string(&source).map_err(|error| format!("{}: {error}", source.display()))?;
            if text.lines().any(|line| line.trim_start().starts_with("#[unsafe(no_mangle)]")) && !found.contains(name) {
                found.push(name.clone());
            }
        }
    }
    if found.is_empty() { Err("no crate of crates.txt exports a call".to_string()) } else { Ok(found) }
}

fn order(rests: &[(String, Vec<String>)], tops: &[String]) -> Vec<String> {
    let map: BTreeMap<&str, &Vec<String>> = rests.iter().map(|(name, rests)| (name.as_str(), rests)).collect();
    let mut found = Vec::new();
    for top in tops {
        visit(&map, top, &mut found);
    }
    found
}

/// What a crate rests on goes before it. A name that is not listed is the kit's own.
fn visit(map: &BTreeMap<&str, &Vec<String>>, name: &str, found: &mut Vec<String>) {
    let Some(rests) = map.get(name) else { return };
    if found.iter().any(|known| known == name) {
        return;
    }
    for rest in *rests {
        visit(map, rest, found);
    }
    found.push(name.to_string());
}

/// The root of a crate, and by its `mod` lines all else. A file that no line names is refused: it would be left out untold.
fn modules(root: &Path, name: &str) -> Told<Vec<Module>> {
    let mut found = vec![module(root, name, Vec::new())?];
    let mut next = 0;
    while next < found.len() {
        let mods: Vec<String> = found[next].syntax.items.iter().filter_map(|item| named(&item.kind)).collect();
        let path = found[next].path.clone();
        for part in mods {
            found.push(module(root, name, [path.clone(), vec![part]].concat())?);
        }
        next += 1;
    }
    let count = sources(&root.join("crates").join(name).join("src")).len();
    if count != found.len() {
        return Err(format!("crates/{name}/src: {count} sources, and the mod lines name {}", found.len()));
    }
    Ok(found)
}

fn named(kind: &ItemKind) -> Option<String> {
    if let ItemKind::Mod(name) = kind { Some(name.clone()) } else { None }
}

fn module(root: &Path, name: &str, path: Vec<String>) -> Told<Module> {
    let inner = if path.is_empty() { "lib".to_string() } else { path.join("/") };
    let file = format!("crates/{name}/src/{inner}.rt");
    let text = fs::read_to_string(root.join(&file)).map_err(|error| format!("{file}: {error}"))?;
    let syntax = parse(&text).map_err(|refused| told(&file, &text, &refused))?;
    Ok(Module { krate: name.to_string(), path, file, text, syntax })
}

/// Every source below a folder.
fn sources(folder: &Path) -> Vec<PathBuf> {
    let mut found = Vec::new();
    for entry in fs::read_dir(folder).into_iter().flatten().flatten() {
        let path = entry.path();
        if path.is_dir() {
            found.extend(sources(&path));
        } else if path.extension().is_some_and(|extension| extension == "rt") {
            found.push(path);
        }
    }
    found
}
