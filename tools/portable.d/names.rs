//! That every name of the code is one that the code itself brings, or one of Rust's that is known: nothing of Rust's own comes in untold.
use std::collections::{BTreeMap, BTreeSet};

use crate::known::{self, BY_FORM, VALUES};
use crate::lexer::{Refused, Span, refuse};
use crate::syntax::*;
use crate::walk::{self, Node};

/// The types that are Rust's own.
const TYPES: [&str; 9] = ["u8", "u16", "u32", "u64", "usize", "i16", "i32", "bool", "Self"];

/// The methods that the types of the house have, each with how many values it takes.
pub type Methods = BTreeMap<String, BTreeSet<usize>>;

/// What may stand in the code of an item.
struct Names<'a> {
    brought: &'a BTreeSet<String>,
    methods: &'a Methods,
    bound: BTreeSet<String>,
}

/// The names that the items of a file bring.
pub fn brought(items: &[Item]) -> BTreeSet<String> {
    let of = |item: &Item| match &item.kind {
        ItemKind::Use(paths) => paths.iter().filter_map(|path| path.last().cloned()).collect(),
        ItemKind::Mod(name) => vec![name.clone()],
        ItemKind::Struct(structure) => vec![structure.name.clone()],
        ItemKind::Enum(enumeration) => vec![enumeration.name.clone()],
        ItemKind::Alias(alias) => vec![alias.name.clone()],
        ItemKind::Const(constant) => vec![constant.name.clone()],
        ItemKind::Fn(function) => vec![function.name.clone()],
        ItemKind::Macro(_) => vec![BY_FORM.to_string()],
        ItemKind::Impl(_) | ItemKind::Ghost => Vec::new(),
    };
    items.iter().flat_map(of).collect()
}

/// The methods of the types of a file: the functions of their `impl`s that begin with `self`.
pub fn methods(items: &[Item], found: &mut Methods) {
    for item in items {
        match &item.kind {
            ItemKind::Impl(block) => methods(&block.items, found),
            ItemKind::Fn(function) if function.params.first().is_some_and(|param| param.name == "self") => {
                found.entry(function.name.clone()).or_default().insert(function.params.len() - 1);
            }
            _ => {}
        }
    }
}

/// Names that stand alone: a variable of the function, or what the file brings; of types also Rust's numbers. And the names of methods.
pub fn check(item: &Item, brought: &BTreeSet<String>, methods: &Methods) -> Result<(), Refused> {
    let mut names = Names { brought, methods, bound: BTreeSet::new() };
    let mut fault = None;
    if let ItemKind::Impl(block) = &item.kind {
        walk::head(block, &mut |node| fault = fault.take().or_else(|| names.fault(node)));
        fault.map_or(Ok(()), Err)?;
        if block.of.is_none() && TYPES.iter().any(|name| matches!(&block.ty.kind, TypeKind::Named(path) if path[..] == [*name])) {
            return refuse(block.ty.span.start, "a type of Rust's own has no functions of the code's");
        }
        return block.items.iter().try_for_each(|one| check(one, brought, methods));
    }
    names.bound = bound(item);
    walk::item(item, &mut |node| fault = fault.take().or_else(|| names.fault(node)));
    fault.map_or(Ok(()), Err)
}

impl Names<'_> {
    /// What is wrong at a place of the code.
    fn fault(&self, node: Node) -> Option<Refused> {
        let value = |name: &str| VALUES.contains(&name) || self.brought.contains(name);
        let (path, span, fine): (&[String], Span, bool) = match node {
            Node::Expr(Expr { kind: ExprKind::Method(method), .. }) => {
                let (name, count) = (method.name.as_str(), method.all.len());
                let known = known::is_method(name, count) || self.methods.get(name).is_some_and(|counts| counts.contains(&count));
                return (!known).then(|| Refused { at: method.at, what: format!("the method '{name}' is not known (of {count} values)") });
            }
            Node::Expr(Expr { kind: ExprKind::ByForm(..), span }) => {
                let known = self.brought.contains(BY_FORM);
                return (!known).then(|| Refused { at: span.start, what: format!("nothing that is known is called '{BY_FORM}'") });
            }
            Node::Expr(Expr { kind: ExprKind::Path(path), span }) => (path, *span, value(&path[0]) || self.bound.contains(&path[0])),
            Node::Expr(Expr { kind: ExprKind::Struct(path, _), span })
            | Node::Pattern(Pattern { kind: PatternKind::Struct(path, _), span }) => {
                (path, *span, self.brought.contains(&path[0]) || path[0] == "Self")
            }
            Node::Pattern(Pattern { kind: PatternKind::Of(path, _) | PatternKind::Path(path), span }) => (path, *span, value(&path[0])),
            Node::Type(Type { kind: TypeKind::Named(path), span }) => {
                (path, *span, TYPES.contains(&path[0].as_str()) || self.brought.contains(&path[0]))
            }
            _ => return None,
        };
        let alone = path.len() == 1 && !fine;
        alone.then(|| Refused { at: span.start, what: format!("nothing that is known is called '{}'", path[0]) })
    }
}

/// Parameters, and what patterns name.
fn bound(item: &Item) -> BTreeSet<String> {
    let mut found = BTreeSet::new();
    if let ItemKind::Fn(function) = &item.kind {
        found.extend(function.params.iter().map(|param| param.name.clone()));
    }
    walk::item(item, &mut |node| {
        if let Node::Pattern(Pattern { kind: PatternKind::Name(name), .. }) = node {
            found.insert(name.clone());
        }
    });
    found
}
