//! Which function a call names: every function by its whole path, and what the names of a file stand for.
use std::collections::BTreeMap;

use crate::house::{House, Module};
use crate::lexer::Span;
use crate::syntax::*;

/// A function where it stands: its module, and the `impl` around it, if there is one.
#[derive(Clone, Copy)]
pub struct Known<'a> {
    pub module: &'a Module,
    pub around: Option<&'a Impl>,
    pub item: &'a Item,
    pub function: &'a Function,
}

impl Known<'_> {
    /// Whether it can be called in other ways than by its path: as a method, or as what a trait has.
    pub fn is_method(&self) -> bool {
        self.around.is_some_and(|around| around.of.is_some()) || self.function.params.iter().any(|param| param.name == "self")
    }
}

pub struct Scope<'a> {
    house: &'a House,
    pub functions: BTreeMap<String, Known<'a>>,
    /// What the other names of types stand for, each with the module where that is written.
    aliases: BTreeMap<String, (&'a Module, &'a Type)>,
}

/// A module's own path, from its crate on.
pub fn address(module: &Module) -> String {
    std::iter::once(&module.krate).chain(&module.path).cloned().collect::<Vec<_>>().join("::")
}

impl<'a> Scope<'a> {
    pub fn of(house: &'a House) -> Scope<'a> {
        let mut scope = Scope { house, functions: BTreeMap::new(), aliases: BTreeMap::new() };
        for module in house.crates.iter().flat_map(|krate| &krate.modules) {
            scope.add(module, &address(module), None, &module.syntax.items);
        }
        scope
    }

    fn add(&mut self, module: &'a Module, within: &str, around: Option<&'a Impl>, items: &'a [Item]) {
        for item in items {
            match &item.kind {
                ItemKind::Fn(function) => {
                    self.functions.insert(format!("{within}::{}", function.name), Known { module, around, item, function });
                }
                ItemKind::Alias(alias) if around.is_none() => {
                    self.aliases.insert(format!("{within}::{}", alias.name), (module, &alias.ty));
                }
                ItemKind::Impl(block) => self.add(module, &within_impl(module, within, block), Some(block), &block.items),
                _ => {}
            }
        }
    }

    /// What a type is by its own name, and the module where that is written.
    pub fn meant<'t>(&self, module: &'t Module, ty: &'t Type) -> (&'t Module, &'t Type)
    where
        'a: 't,
    {
        let TypeKind::Named(path) = &ty.kind else { return (module, ty) };
        match self.aliases.get(&self.absolute(module, path)) {
            Some((module, ty)) => self.meant(module, ty),
            None => (module, ty),
        }
    }

    /// A path of a file as it reads from outside.
    pub fn absolute(&self, module: &Module, path: &[String]) -> String {
        let (first, rest) = (&path[0], &path[1..]);
        let front = if first == "crate" {
            module.krate.clone()
        } else if let Some(used) = used(module, first) {
            used
        } else if rest.is_empty() || declared(module, first) || !self.house.has(first) {
            format!("{}::{first}", address(module))
        } else {
            first.clone()
        };
        std::iter::once(front).chain(rest.iter().cloned()).collect::<Vec<_>>().join("::")
    }

    /// The function that a function calls, if it is one of the house.
    pub fn called(&self, caller: &Known, callee: &Expr) -> Option<(String, Known<'a>)> {
        let ExprKind::Path(path) = &callee.kind else { return None };
        let whole = match caller.around.map(|around| &around.ty.kind) {
            Some(TypeKind::Named(own)) if path[0] == "Self" => [own.as_slice(), &path[1..]].concat(),
            _ => path.clone(),
        };
        let address = self.absolute(caller.module, &whole);
        self.functions.get(&address).map(|known| (address, *known))
    }
}

/// How the functions of an `impl` are called from outside; those that a trait has by its text, by which no path names them.
pub fn within_impl(module: &Module, within: &str, block: &Impl) -> String {
    let text = |span: Span| &module.text[span.start..span.end];
    match &block.of {
        Some(of) => format!("{within}::{} as {}", text(block.ty.span), text(of.span)),
        None => format!("{within}::{}", text(block.ty.span).split('<').next().unwrap_or("")),
    }
}

/// What a `use` line makes of a name.
fn used(module: &Module, name: &str) -> Option<String> {
    let paths = module.syntax.items.iter().filter_map(|item| if let ItemKind::Use(paths) = &item.kind { Some(paths) } else { None });
    let path = paths.flatten().find(|path| path.last().is_some_and(|last| last == name))?;
    let front = if path[0] == "crate" { &module.krate } else { &path[0] };
    Some(std::iter::once(front).chain(&path[1..]).cloned().collect::<Vec<_>>().join("::"))
}

/// Whether a module or a type of that name stands in the file.
fn declared(module: &Module, name: &str) -> bool {
    module.syntax.items.iter().any(|item| match &item.kind {
        ItemKind::Mod(declared) => declared == name,
        ItemKind::Struct(structure) => structure.name == name,
        ItemKind::Enum(enumeration) => enumeration.name == name,
        ItemKind::Alias(alias) => alias.name == name,
        _ => false,
    })
}
