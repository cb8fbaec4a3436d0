//! The definitions that contracts name, read from the crates' specs: records as the conjunctions that they are, and equations.
use std::cell::RefCell;
use std::collections::BTreeMap;
use std::fs;
use std::path::{Path, PathBuf};
use std::rc::Rc;

use crate::terms::{Term, conjuncts, term};

/// A file of definitions.
#[derive(Default)]
pub struct Spec {
    /// The names that it brings from elsewhere, as FILE#NAME.
    names: BTreeMap<String, String>,
    records: BTreeMap<String, Record>,
    equations: BTreeMap<String, Vec<(Vec<String>, String)>>,
}

/// What a record holds: conjuncts over its parameters.
struct Record {
    params: Vec<String>,
    holds: Vec<String>,
}

pub struct Specs {
    root: PathBuf,
    read: RefCell<BTreeMap<String, Rc<Spec>>>,
}

/// The file of `Rattle.CRATE.specs.A.B`; what is the kit's own keeps its name.
fn file_of(module: &str) -> String {
    let Some((krate, inner)) = module.strip_prefix("Rattle.").and_then(|rest| rest.split_once(".specs.")) else {
        return module.to_string();
    };
    format!("crates/{krate}/specs/{}.antt", inner.replace('.', "/"))
}

/// The names of a line `use MODULE.{a, b}`, as FILE#NAME.
pub fn imports(line: &str) -> Vec<(String, String)> {
    let line = line.trim_end_matches(';');
    let Some((module, list)) = line.strip_suffix('}').and_then(|line| line.split_once(".{")) else { return Vec::new() };
    let file = file_of(module.trim());
    list.split(',').map(|name| name.split_whitespace().collect::<String>()).map(|name| (name.clone(), format!("{file}#{name}"))).collect()
}

impl Specs {
    pub fn of(root: &Path) -> Specs {
        Specs { root: root.to_path_buf(), read: RefCell::default() }
    }

    fn spec(&self, file: &str) -> Rc<Spec> {
        if let Some(known) = self.read.borrow().get(file) {
            return known.clone();
        }
        let text = if file.starts_with("crates/") { fs::read_to_string(self.root.join(file)).unwrap_or_default() } else { String::new() };
        let spec = Rc::new(Spec::parse(file, &text));
        self.read.borrow_mut().insert(file.to_string(), spec.clone());
        spec
    }

    /// What a conjunct says: a record that it names is all that the record holds.
    pub fn unfold(&self, one: &Term) -> Vec<Term> {
        let found = self.record(one).or_else(|| self.abbreviation(one));
        found.map_or_else(|| vec![one.clone()], |all| all.iter().flat_map(|inner| self.unfold(inner)).collect())
    }

    fn record(&self, one: &Term) -> Option<Vec<Term>> {
        let (file, name, all) = self.defined(one)?;
        let spec = self.spec(&file);
        let record = spec.records.get(&name).filter(|record| record.params.len() == all.len())?;
        let values: Vec<(String, Term)> = record.params.iter().cloned().zip(all).collect();
        let holds = record.holds.iter().flat_map(|held| conjuncts(held));
        Some(holds.filter_map(|text| spec.term(&text)).map(|held| held.with(&values)).collect())
    }

    /// A name that stands for a conjunction.
    fn abbreviation(&self, one: &Term) -> Option<Vec<Term>> {
        let (file, name, all) = self.defined(one)?;
        let spec = self.spec(&file);
        let [(params, right)] = spec.equations.get(&name)?.as_slice() else { return None };
        if params.len() != all.len() || !right.contains('×') {
            return None;
        }
        let values: Vec<(String, Term)> = params.iter().cloned().zip(all).collect();
        Some(conjuncts(right).iter().filter_map(|text| spec.term(text)).map(|part| part.with(&values)).collect())
    }

    fn defined(&self, one: &Term) -> Option<(String, String, Vec<Term>)> {
        let (of, all) = match one {
            Term::Apply(of, all) => (of.as_ref(), all.clone()),
            Term::Name(_) => (one, Vec::new()),
            _ => return None,
        };
        let Term::Name(whole) = of else { return None };
        let (file, name) = whole.split_once('#')?;
        Some((file.to_string(), name.to_string(), all))
    }

    /// A term by the first equation that fits it, until none does.
    pub fn reduce(&self, one: &Term) -> Term {
        let Some((file, name, all)) = self.defined(one) else { return one.clone() };
        let spec = self.spec(&file);
        for (params, right) in spec.equations.get(&name).into_iter().flatten() {
            let mut values = Vec::new();
            let fits =
                params.len() == all.len() && params.iter().zip(&all).all(|(param, value)| self.fits(&spec, param, value, &mut values));
            if let Some(right) = fits.then(|| spec.term(right)).flatten() {
                return self.reduce(&right.with(&values));
            }
        }
        one.clone()
    }

    fn fits(&self, spec: &Spec, pattern: &str, value: &Term, values: &mut Vec<(String, Term)>) -> bool {
        spec.term(pattern).is_some_and(|pattern| self.matches(&pattern, value, values))
    }

    fn matches(&self, pattern: &Term, value: &Term, values: &mut Vec<(String, Term)>) -> bool {
        match pattern {
            Term::Name(name) if !name.contains('#') => {
                values.push((name.clone(), value.clone()));
                true
            }
            Term::Name(_) | Term::Number(_) => *pattern == self.reduce(value),
            Term::Apply(of, all) => match self.reduce(value) {
                Term::Apply(other, others) => {
                    of == &other && all.len() == others.len() && all.iter().zip(&others).all(|(one, two)| self.matches(one, two, values))
                }
                _ => false,
            },
            Term::Pair(sign, one, two) => match self.reduce(value) {
                Term::Pair(other, first, second) => {
                    *sign == other && self.matches(one, &first, values) && self.matches(two, &second, values)
                }
                _ => false,
            },
        }
    }
}

impl Spec {
    fn term(&self, text: &str) -> Option<Term> {
        term(text, &|name| self.names.get(name).cloned().unwrap_or_else(|| name.to_string()))
    }

    /// Imports, records, the constructors of data types, and equations; nothing else is looked at.
    fn parse(file: &str, text: &str) -> Spec {
        let mut spec = Spec::default();
        let mut within = None;
        for line in joined(text) {
            if let Some(rest) = line.strip_prefix("use ") {
                spec.names.extend(imports(rest));
            } else if let Some(rest) = line.strip_prefix("pub record ").or_else(|| line.strip_prefix("record ")) {
                let name = rest.split_whitespace().next().unwrap_or("").to_string();
                let head = rest.split(" : Type").next().unwrap_or("");
                spec.records.insert(name.clone(), Record { params: params(head), holds: Vec::new() });
                spec.define(file, &name);
                within = Some(name);
            } else if line.contains(" data ") || line.starts_with("data ") {
                within = None;
            } else if let Some((held, of)) = line.strip_prefix("  ").and_then(|line| line.split_once(" : ")) {
                match within.as_ref().and_then(|name| spec.records.get_mut(name)) {
                    Some(record) => record.holds.push(of.to_string()),
                    None => held.split_whitespace().filter(|name| *name != "pub").for_each(|name| spec.define(file, name)),
                }
            } else if !line.starts_with(' ') {
                within = None;
                spec.equation(file, &line);
            }
        }
        spec
    }

    fn define(&mut self, file: &str, name: &str) {
        self.names.insert(name.to_string(), format!("{file}#{name}"));
    }

    /// `name a b = right`, or `abbrev pub name : type`, which only brings the name.
    fn equation(&mut self, file: &str, line: &str) {
        let Some((left, right)) = line.split_once(" = ") else {
            if let Some((head, _)) = line.split_once(" : ") {
                head.split_whitespace().last().into_iter().for_each(|name| self.define(file, name));
            }
            return;
        };
        let mut words = atoms(left);
        if words.is_empty() {
            return;
        }
        let name = words.remove(0);
        self.equations.entry(name).or_default().push((words, right.to_string()));
    }
}

/// The lines of a spec, comments left out, with those that go on a line put to its end.
fn joined(text: &str) -> Vec<String> {
    let mut lines: Vec<String> = Vec::new();
    for line in text.lines().filter(|line| !line.trim_start().starts_with("--") && !line.trim().is_empty()) {
        match lines.last_mut() {
            Some(last) if line.starts_with("    ") => {
                last.push(' ');
                last.push_str(line.trim());
            }
            _ => lines.push(line.to_string()),
        }
    }
    lines
}

/// The names in the brackets of a record's head: `(l : List ℕ) (first n : ℕ)`.
fn params(head: &str) -> Vec<String> {
    let groups = head.split('(').skip(1).filter_map(|group| group.split_once(" : "));
    groups.flat_map(|(names, _)| names.split_whitespace().map(str::to_string).collect::<Vec<_>>()).collect()
}

/// The words of an equation's left side; what stands in brackets is one.
fn atoms(left: &str) -> Vec<String> {
    let (mut found, mut depth) = (vec![String::new()], 0);
    for c in left.chars() {
        match c {
            '(' => depth += 1,
            ')' => depth -= 1,
            _ => {}
        }
        if c == ' ' && depth == 0 {
            found.push(String::new());
        } else {
            found.last_mut().expect("one at least").push(c);
        }
    }
    found.retain(|word| !word.is_empty());
    found
}
