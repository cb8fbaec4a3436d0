//! The steps that make the text fast. Each keeps what a function does, by a reason that docs/PORTABLE.md has; which functions it meets is read off contracts and types.
use std::collections::{BTreeMap, BTreeSet};
use std::path::Path;

use crate::contracts::{Arithmetic, required};
use crate::edits::Edits;
use crate::house::{House, Module, Told};
use crate::images::{Image, Images, named};
use crate::lexer::Span;
use crate::plain::{param_of, signed};
use crate::scope::{Known, Scope, address};
use crate::syntax::*;
use crate::walk::{self, Node};

pub struct Steps<'a> {
    pub images: Images<'a>,
    large: BTreeSet<String>,
    structs: BTreeSet<String>,
}

const LENGTHS: [&str; 3] = ["N", "M", "L"];

/// Gives a part of a text in Rust.
pub type Source<'s> = &'s dyn Fn(Span) -> String;

impl<'a> Steps<'a> {
    pub fn of(root: &Path, house: &'a House) -> Told<Steps<'a>> {
        let images = Images::of(root, house)?;
        let large = large(house, &images.scope);
        Ok(Steps { images, large, structs: structs(house) })
    }

    /// The parameters of a function as they are then, and the lengths over which it goes. What `source` gives is a part of the text in Rust.
    pub fn params(&self, address: &str, known: &Known, source: Source) -> (Vec<String>, Vec<String>) {
        self.lent(known, self.images.at(address), true, source)
    }

    /// With some of its images as arrays; their forms may be left out.
    fn lent(&self, known: &Known, images: &[Image], formless: bool, source: Source) -> (Vec<String>, Vec<String>) {
        let mut params = Vec::new();
        for (at, param) in known.function.params.iter().enumerate() {
            if formless && images.iter().any(|image| image.form == Some(at)) {
                continue;
            }
            let text = source(param.ty.span);
            let length = images.iter().position(|image| image.param == at).map(|place| LENGTHS[place]);
            let ty = length.map_or(text.clone(), |length| text.replace("[u8]", &format!("[u8; {length}]")));
            params.push(param_of(param, ty));
        }
        (params, lengths(images.len()))
    }

    /// The lines at the front of a function: its form as a constant of the length, and what the contract says of numbers.
    pub fn front_lines(&self, address: &str, known: &Known, up: &str) -> Vec<String> {
        let mut lines = Vec::new();
        for (place, image) in self.images.at(address).iter().enumerate() {
            let Some(form) = image.form else { continue };
            let name = &known.function.params[form].name;
            if self.still_named(known, name) {
                let length = LENGTHS[place];
                lines.push(format!("let {name} = const {{ {up}{}::form_at({length}) }};", self.images.forms.module));
            }
        }
        let tests = self.tests(known);
        if !tests.is_empty() {
            lines.push(format!("assert!({});", tests.join(" && ")));
        }
        lines
    }

    fn tests(&self, known: &Known) -> Vec<String> {
        let arithmetic = Arithmetic { specs: &self.images.specs, function: known.function, text: &known.module.text };
        required(&self.images.specs, known).iter().filter_map(|one| arithmetic.test(one)).collect()
    }

    /// Whether a form is still named when it is no longer handed on, and has no arms.
    fn still_named(&self, known: &Known, name: &str) -> bool {
        let dropped = [self.images.dropped(known), armed(known.function)].concat();
        named(known.function, name).iter().any(|span| !dropped.iter().any(|part| part.holds(*span)))
    }

    /// The body that a contract names: a word read or written, or bytes copied: Rust has functions for them.
    pub fn body(&self, known: &Known) -> Option<String> {
        if known.is_method() {
            return None;
        }
        let text = &known.module.text;
        let said = |what: String| known.function.contracts.iter().any(|span| text[span.start..span.end] == format!("ensures {{ {what} }}"));
        let names: Vec<&str> = known.function.params.iter().map(|param| param.name.as_str()).collect();
        match names.as_slice() {
            [bytes, at] if said(format!("result ≡ register_at {at} {bytes}.now")) => {
                let part = format!("{bytes}[{at}..].first_chunk::<8>()");
                Some(format!("match {part} {{\n        Some(word) => u64::from_le_bytes(*word),\n        None => 0,\n    }}"))
            }
            [bytes, at, x] if said(format!("{bytes}.new ≡ with_word {at} {x} {bytes}.old")) => {
                let part = format!("{bytes}[{at}..].first_chunk_mut::<8>()");
                Some(format!("if let Some(word) = {part} {{\n        *word = {x}.to_le_bytes();\n    }}"))
            }
            [to, from, ..] if said(format!("{to}.new ≡ {from}.now")) => Some(format!("{to}.copy_from_slice({from});")),
            _ => None,
        }
    }

    /// Every function but a front has its body at hand where it is called, however the crate is split for the compiler. Where a state or an array goes by value, a call
    /// would copy it: the function becomes part of its caller. The long way of a call stays apart, so that what it keeps is not kept by the short one.
    pub fn inlining(&self, known: &Known) -> &'static str {
        if is_long_way(known) || self.only_says_why(known) {
            return "#[inline(never)]";
        }
        if self.tells_form(known) {
            return "#[inline(always)]";
        }
        let own = known.around.map(|around| &around.ty);
        let is_own = |param: &Param| param.name == "self" && matches!(param.ty.kind, TypeKind::Named(_));
        let types = known.function.params.iter().filter_map(|param| if is_own(param) { own } else { Some(&param.ty) });
        let types = types.chain(&known.function.result);
        if types.into_iter().any(|ty| self.is_large(known.module, ty)) { "#[inline(always)]" } else { "#[inline]" }
    }

    /// The test of an image, by which a call begins: it hands back the form, or an error. A call of it would hand that over in memory.
    fn tells_form(&self, known: &Known) -> bool {
        let form = self.images.forms.name.rsplit("::").next().unwrap_or_default();
        handed_back(known).is_some_and(|text| text.starts_with(&format!("Result<{form}, ")))
    }

    /// What hands back a struct as its error and else nothing is asked only of what is refused already: why, and where.
    fn only_says_why(&self, known: &Known) -> bool {
        let error = handed_back(known).and_then(|text| text.strip_prefix("Result<(), ")).and_then(|text| text.strip_suffix('>'));
        error.is_some_and(|name| self.structs.contains(name))
    }

    fn is_large<'t>(&self, module: &'t Module, ty: &'t Type) -> bool
    where
        'a: 't,
    {
        let scope = &self.images.scope;
        by_value(scope, module, ty).into_iter().any(|(module, ty)| match &ty.kind {
            TypeKind::Array(..) => true,
            TypeKind::Named(path) => self.large.contains(&scope.absolute(module, path)),
            _ => false,
        })
    }

    /// The constant function that tells the form of a length.
    pub fn form_at(&self, module: &Module) -> Option<(usize, String)> {
        if address(module) != self.images.forms.module {
            return None;
        }
        let known = self.images.scope.functions.get(&self.images.forms.teller)?;
        let (last, others) = self.images.forms.lengths.split_last()?;
        let arms: String = others.iter().map(|(length, form)| format!("        {length} => {form},\n")).collect();
        let docs = "/// The form of a length that is a form's; nothing comes here of any other length.\n";
        let text = format!(
            "\n\n{docs}pub const fn form_at(length: usize) -> {} {{\n    match length {{\n{arms}        _ => {},\n    }}\n}}",
            self.images.forms.name, last.1
        );
        Some((known.item.span.end, text))
    }

    /// A front, which any bytes may be handed to: its own tests of room, and then one arm for each length of a form. Of several images each has a function with such arms.
    pub fn arms(&self, address: &str, known: &Known, tests: &str, source: Source) -> String {
        let images = self.images.at(address);
        let name = &known.function.name;
        let mut text = String::new();
        for place in 0..images.len() {
            let (params, _) = self.lent(known, &images[..place], false, source);
            let angles: Vec<String> = lengths(place);
            let this = if place == 0 { name.clone() } else { format!("{name}_{place}") };
            let next = if place + 1 == images.len() { format!("{name}_of") } else { format!("{name}_{}", place + 1) };
            let result = known.function.result.as_ref().map(|ty| source(ty.span));
            let head = signed("", place == 0, &this, &angles, &params, result.as_deref());
            let tests = if place == 0 { tests } else { "" };
            let arms = self.arms_of(known, images[place].param, &next);
            let inlined = if place == 0 { "" } else { "#[inline]\n" };
            text.push_str(&format!("{inlined}{head} {{\n{tests}{arms}}}\n\n"));
        }
        text
    }

    /// For each length of a form the next function on an array; for any other on one of no bytes.
    fn arms_of(&self, known: &Known, image: usize, next: &str) -> String {
        let params = &known.function.params;
        let name = &params[image].name;
        let changed = matches!(params[image].ty.kind, TypeKind::Lent(true, _));
        let (mark, lent) = if changed { ("&mut ", format!("&mut *{name}")) } else { ("&", name.clone()) };
        let call = |image: &str| {
            let all = params.iter().map(|param| if param.name == *name { image } else { &param.name });
            format!("{next}({})", all.collect::<Vec<_>>().join(", "))
        };
        let arm = |length: &String| {
            format!("    if let Ok({name}) = <{mark}[u8; {length}]>::try_from({lent}) {{\n        return {};\n    }}\n", call(name))
        };
        let arms: String = self.images.forms.lengths.iter().map(|(length, _)| arm(length)).collect();
        format!("{arms}    {}\n", call(&format!("{mark}[0u8; 0]")))
    }

    /// The tests at the front of a front that do not name an image: where they end.
    pub fn tests_before(&self, address: &str, known: &Known) -> usize {
        let names: Vec<&str> = self.images.at(address).iter().map(|image| known.function.params[image.param].name.as_str()).collect();
        let images: Vec<Span> = names.iter().flat_map(|name| named(known.function, name)).collect();
        let mut end = known.function.body.span.start + 1;
        for statement in &known.function.body.statements {
            let Statement::Expr(Expr { kind: ExprKind::If(_, _, None), span }) = statement else { break };
            if images.iter().any(|image| span.holds(*image)) {
                break;
            }
            end = span.end;
        }
        end
    }

    /// All changes of a module but for the heads of its functions.
    pub fn change(&self, module: &Module, edits: &mut Edits) {
        for known in self.images.scope.functions.values().filter(|known| std::ptr::eq(known.module, module)) {
            for span in self.images.dropped(known) {
                edits.overwrite(span, "");
            }
        }
        if let Some((at, text)) = self.form_at(module) {
            edits.insert(at, text);
        }
    }
}

/// The names that `by_form!` is handed.
fn armed(function: &Function) -> Vec<Span> {
    let mut found = Vec::new();
    walk::block(&function.body, &mut |node| {
        if let Node::Expr(Expr { kind: ExprKind::ByForm(form, _), .. }) = node {
            found.push(form.span);
        }
    });
    found
}

fn lengths(count: usize) -> Vec<String> {
    LENGTHS[..count].iter().map(|length| format!("const {length}: usize")).collect()
}

/// The structs that hold an array, and their parts: a state goes by value as a whole or part by part.
fn large(house: &House, scope: &Scope) -> BTreeSet<String> {
    let mut structs: BTreeMap<String, (bool, Vec<String>)> = BTreeMap::new();
    for module in house.crates.iter().flat_map(|krate| &krate.modules) {
        for item in &module.syntax.items {
            let ItemKind::Struct(structure) = &item.kind else { continue };
            let held: Vec<(&Module, &Type)> = structure.fields.iter().flat_map(|field| by_value(scope, module, &field.ty)).collect();
            let holds = held.iter().any(|(_, ty)| matches!(ty.kind, TypeKind::Array(..)));
            let parts = held.iter().filter_map(|(module, ty)| match &ty.kind {
                TypeKind::Named(path) => Some(scope.absolute(module, path)),
                _ => None,
            });
            structs.insert(format!("{}::{}", address(module), structure.name), (holds, parts.collect()));
        }
    }
    let mut found: BTreeSet<String> = structs.iter().filter(|(_, (holds, _))| *holds).map(|(name, _)| name.clone()).collect();
    loop {
        let wholes: Vec<String> =
            structs.iter().filter(|(_, (_, parts))| parts.iter().any(|part| found.contains(part))).map(|(name, _)| name.clone()).collect();
        let before = found.len();
        found.extend(wholes);
        if found.len() == before {
            break;
        }
    }
    let parts: Vec<String> = found.iter().flat_map(|name| structs[name].1.clone()).filter(|part| structs.contains_key(part)).collect();
    found.extend(parts);
    found
}

/// The types that go by value where one does: itself, or what an `Option`, a `Result` or a tuple may hold. Each with the module where it is written.
fn by_value<'t>(scope: &Scope<'t>, module: &'t Module, ty: &'t Type) -> Vec<(&'t Module, &'t Type)> {
    let (module, ty) = scope.meant(module, ty);
    match &ty.kind {
        TypeKind::Of(all) | TypeKind::Tuple(all) => all.iter().flat_map(|one| by_value(scope, module, one)).collect(),
        TypeKind::Named(_) | TypeKind::Array(..) => vec![(module, ty)],
        TypeKind::Lent(..) | TypeKind::Slice(_) => Vec::new(),
    }
}

/// What a function hands back, as it is written.
fn handed_back<'k>(known: &'k Known) -> Option<&'k str> {
    known.function.result.as_ref().map(|ty| &known.module.text[ty.span.start..ty.span.end])
}

/// The names of all structs.
fn structs(house: &House) -> BTreeSet<String> {
    let items = house.crates.iter().flat_map(|krate| &krate.modules).flat_map(|module| &module.syntax.items);
    items.filter_map(|item| if let ItemKind::Struct(structure) = &item.kind { Some(structure.name.clone()) } else { None }).collect()
}

/// The long way of a call, by its name, where what the call tells is handed back.
fn is_long_way(known: &Known) -> bool {
    let long = ["_waiting", "_tested", "_any"].iter().any(|end| known.function.name.ends_with(end));
    let tells = match known.function.result.as_ref().map(|result| &result.kind) {
        Some(TypeKind::Named(path)) => path.last().is_some_and(|name| name == "u8" || name == "Told"),
        _ => false,
    };
    long && tells && !known.function.exported
}
