//! Which parameters are images of a form. It is read off the contracts and types; what does not fit is refused.
use std::collections::BTreeMap;
use std::path::Path;

use crate::contracts::{required, says_form};
use crate::house::{House, Module, Told, told};
use crate::lexer::{Refused, Span, refuse};
use crate::scope::{Known, Scope, address};
use crate::specs::Specs;
use crate::syntax::*;
use crate::walk::{self, Node};

/// A parameter that is an image, and the one that has its form, where there is one.
#[derive(Clone, Copy, Debug, PartialEq, Eq)]
pub struct Image {
    pub param: usize,
    pub form: Option<usize>,
}

/// The forms: their type, the function that tells them by a length, and the lengths.
pub struct Forms {
    /// The module in which they stand, and the type there.
    pub module: String,
    pub name: String,
    /// The length and the variant, as written.
    pub lengths: Vec<(String, String)>,
    /// The function that tells which it is.
    pub teller: String,
}

/// The images of each function, by its path.
pub struct Images<'a> {
    pub scope: Scope<'a>,
    pub specs: Specs,
    pub forms: Forms,
    found: BTreeMap<String, Vec<Image>>,
}

impl<'a> Images<'a> {
    pub fn of(root: &Path, house: &'a House) -> Told<Images<'a>> {
        let scope = Scope::of(house);
        let forms = forms(&scope)?;
        let mut images = Images { scope, specs: Specs::of(root), forms, found: BTreeMap::new() };
        let all: Vec<(String, Known)> = images.scope.functions.iter().map(|(address, known)| (address.clone(), *known)).collect();
        for (address, known) in &all {
            let found = images.with_form(known).map_err(refused_in(known))?;
            if !found.is_empty() {
                images.found.insert(address.clone(), found);
            }
        }
        while images.one_more(&all)? {}
        for (address, known) in &all {
            images.only_called(address, known).map_err(refused_in(known))?;
            images.only_passed_on(address, known).map_err(refused_in(known))?;
        }
        Ok(images)
    }

    pub fn at(&self, address: &str) -> &[Image] {
        self.found.get(address).map_or(&[], Vec::as_slice)
    }

    /// What is handed on as an image is one: another parameter that is, if there is one.
    fn one_more(&mut self, all: &[(String, Known)]) -> Told<bool> {
        for (address, known) in all {
            for param in self.passed_on(known).map_err(refused_in(known))? {
                if !self.at(address).iter().any(|image| image.param == param) {
                    let images = self.found.entry(address.clone()).or_default();
                    images.push(Image { param, form: None });
                    images.sort_by_key(|image| image.param);
                    return Ok(true);
                }
            }
        }
        Ok(false)
    }

    /// Bytes that a parameter follows which is a form: an image of that form, if the contract says so.
    fn with_form(&self, known: &Known) -> Result<Vec<Image>, Refused> {
        let params = &known.function.params;
        let mut found = Vec::new();
        for (at, pair) in params.windows(2).enumerate() {
            if !is_bytes(&pair[0].ty) || !self.is_form(known.module, &pair[1].ty) {
                continue;
            }
            let said = required(&self.specs, known);
            if !said.iter().any(|one| says_form(one, &pair[0].name, &pair[1].name)) {
                let at = known.item.span.start;
                return refuse(at, format!("the contract does not say that '{}' has the length of '{}'", pair[0].name, pair[1].name));
            }
            found.push(Image { param: at, form: Some(at + 1) });
        }
        Ok(found)
    }

    fn is_form(&self, module: &Module, ty: &Type) -> bool {
        let (module, ty) = self.scope.meant(module, ty);
        let TypeKind::Named(path) = &ty.kind else { return false };
        self.scope.absolute(module, path) == format!("{}::{}", self.forms.module, self.forms.name)
    }

    /// The parameters of bytes that a function hands on as images.
    fn passed_on(&self, known: &Known) -> Result<Vec<usize>, Refused> {
        let mut found = Vec::new();
        for (image, argument) in self.image_arguments(known) {
            let name = lent_name(argument);
            let param = known.function.params.iter().position(|param| Some(param.name.as_str()) == name && is_bytes(&param.ty));
            let Some(param) = param else {
                return refuse(argument.span.start, format!("an image is handed on that is no parameter ({})", image.param));
            };
            found.push(param);
        }
        Ok(found)
    }

    /// The arguments of a function's calls that are images.
    fn image_arguments<'b>(&self, known: &Known<'b>) -> Vec<(Image, &'b Expr)> {
        let mut found = Vec::new();
        walk::block(&known.function.body, &mut |node| {
            let Node::Expr(Expr { kind: ExprKind::Call(callee, all), .. }) = node else { return };
            let Some((address, _)) = self.scope.called(known, callee) else { return };
            found.extend(self.at(&address).iter().filter_map(|image| Some((*image, all.get(image.param)?))));
        });
        found
    }

    /// A function that takes an image is called by its path, and nothing else is made of it; and the form that it is handed has a name: with the form goes nothing that
    /// is done or told.
    fn only_called(&self, address: &str, known: &Known) -> Result<(), Refused> {
        if known.is_method() && !self.at(address).is_empty() {
            return refuse(known.item.span.start, "a method that takes an image is not known");
        }
        let (mut callees, mut fault) = (Vec::new(), None);
        walk::block(&known.function.body, &mut |node| {
            let Node::Expr(expr) = node else { return };
            if let ExprKind::Call(callee, all) = &expr.kind {
                callees.push(callee.span);
                let images = self.scope.called(known, callee).map_or(&[][..], |(address, _)| self.at(&address));
                let forms = images.iter().filter_map(|image| all.get(image.form?));
                if let Some(form) = forms.into_iter().find(|form| !matches!(form.kind, ExprKind::Path(_) | ExprKind::Field(_))) {
                    fault.get_or_insert((form.span.start, "the form of an image is handed on that has no name"));
                }
            } else if !callees.contains(&expr.span) && !is_local(known.function, expr) && self.takes_image(known, expr) {
                fault.get_or_insert((expr.span.start, "a function that takes an image is named here, and not called"));
            }
        });
        fault.map_or(Ok(()), |(at, what)| refuse(at, what))
    }

    fn takes_image(&self, caller: &Known, callee: &Expr) -> bool {
        self.scope.called(caller, callee).is_some_and(|(address, _)| !self.at(&address).is_empty())
    }

    /// A function that takes an image without its form looks at nothing but its length, and hands it on. So an image of no form's length may be
    /// any other such image.
    fn only_passed_on(&self, address: &str, known: &Known) -> Result<(), Refused> {
        for image in self.at(address) {
            let name = known.function.params[image.param].name.as_str();
            if bound(known.function, name) {
                return refuse(known.item.span.start, format!("'{name}' is an image, and the name is given to something else as well"));
            }
            if image.form.is_some() {
                continue;
            }
            let mut fine: Vec<Span> = self.image_arguments(known).iter().map(|(_, argument)| argument.span).collect();
            fine.extend(self.lengths_told(known, name));
            if let Some(span) = named(known.function, name).into_iter().find(|span| !fine.iter().any(|part| part.holds(*span))) {
                return refuse(span.start, format!("'{name}' is looked at before its form is known"));
            }
        }
        Ok(())
    }

    /// Where the length of an image goes to what tells the form, by itself or by a name that goes nowhere else.
    fn lengths_told(&self, known: &Known, name: &str) -> Vec<Span> {
        let mut told: Vec<Span> = Vec::new();
        let mut lets: Vec<(String, Span)> = Vec::new();
        walk::block(&known.function.body, &mut |node| match node {
            Node::Expr(Expr { kind: ExprKind::Call(callee, all), .. }) => {
                let teller = self.scope.called(known, callee).is_some_and(|(address, _)| address == self.forms.teller);
                told.extend(all.iter().filter(|_| teller).map(|one| one.span));
            }
            Node::Let(Let { pattern: Pattern { kind: PatternKind::Name(bound), .. }, value, .. }) => lets.push((bound.clone(), value.span)),
            _ => {}
        });
        let only_told = |bound: &str| named(known.function, bound).iter().all(|span| told.contains(span));
        let by_name: Vec<Span> = lets.iter().filter(|(bound, _)| only_told(bound)).map(|(_, value)| *value).collect();
        let mut found = Vec::new();
        walk::block(&known.function.body, &mut |node| {
            if let Node::Expr(Expr { kind: ExprKind::Method(Method { of, name: method, .. }), span }) = node
                && method == "len"
                && lent_name(of) == Some(name)
                && (told.contains(span) || by_name.contains(span))
            {
                found.push(*span);
            }
        });
        found
    }

    /// The arguments that are forms of images: from the end of the one before each to its own end.
    pub fn dropped(&self, known: &Known) -> Vec<Span> {
        let mut found = Vec::new();
        walk::block(&known.function.body, &mut |node| {
            let Node::Expr(Expr { kind: ExprKind::Call(callee, all), .. }) = node else { return };
            let Some((address, _)) = self.scope.called(known, callee) else { return };
            for form in self.at(&address).iter().filter_map(|image| image.form) {
                found.push(Span { start: all[form - 1].span.end, end: all[form].span.end });
            }
        });
        found
    }
}

fn refused_in<'k>(known: &'k Known<'k>) -> impl Fn(Refused) -> String + 'k {
    move |refused| told(&known.module.file, &known.module.text, &refused)
}

fn is_bytes(ty: &Type) -> bool {
    let TypeKind::Lent(_, of) = &ty.kind else { return false };
    let TypeKind::Slice(of) = &of.kind else { return false };
    matches!(&of.kind, TypeKind::Named(path) if path.len() == 1 && path[0] == "u8")
}

/// The name that is lent on, as it is or by `&*`.
fn lent_name(expr: &Expr) -> Option<&str> {
    match &expr.kind {
        ExprKind::Path(path) if path.len() == 1 => Some(&path[0]),
        ExprKind::Before("&", inner) => match &inner.kind {
            ExprKind::Before("*", inner) => lent_name(inner),
            _ => None,
        },
        _ => None,
    }
}

/// Every place where a function names something.
pub fn named(function: &Function, name: &str) -> Vec<Span> {
    let mut found = Vec::new();
    walk::block(&function.body, &mut |node| {
        if let Node::Expr(Expr { kind: ExprKind::Path(path), span }) = node
            && path.len() == 1
            && path[0] == name
        {
            found.push(*span);
        }
    });
    found
}

/// Whether a name is bound within a function.
fn bound(function: &Function, name: &str) -> bool {
    let mut found = false;
    walk::block(&function.body, &mut |node| {
        if let Node::Pattern(Pattern { kind: PatternKind::Name(bound), .. }) = node {
            found |= bound == name;
        }
    });
    found
}

/// Whether it is a parameter or a variable of the function.
fn is_local(function: &Function, expr: &Expr) -> bool {
    let ExprKind::Path(path) = &expr.kind else { return false };
    path.len() == 1 && (bound(function, &path[0]) || function.params.iter().any(|param| param.name == path[0]))
}

/// The forms, from the one function that tells by a length which of them it is.
fn forms(scope: &Scope) -> Told<Forms> {
    let mut found = Vec::new();
    for (teller, known) in &scope.functions {
        if let Some((ty, lengths)) = told_lengths(known) {
            let (module, name) = ty;
            found.push(Forms { module, name, lengths, teller: teller.clone() });
        }
    }
    match found.len() {
        1 => Ok(found.remove(0)),
        count => Err(format!("portable: {count} functions tell the form of a length, and one is wanted")),
    }
}

type Lengths = ((String, String), Vec<(String, String)>);

/// `match length { 259 => Some(Form::One), .. }` over its only parameter.
fn told_lengths(known: &Known) -> Option<Lengths> {
    let [param] = known.function.params.as_slice() else { return None };
    let [Statement::Expr(Expr { kind: ExprKind::Match(over, arms), .. })] = known.function.body.statements.as_slice() else {
        return None;
    };
    let text = &known.module.text;
    let said = known.function.contracts.iter().any(|span| text[span.start..span.end].contains(&format!("≡ form_of {}", param.name)));
    if !said || lent_name(over) != Some(&param.name) {
        return None;
    }
    let mut lengths = Vec::new();
    let mut name = None;
    if arms.iter().any(|arm| arm.guard.is_some()) {
        return None;
    }
    for Arm { pattern, value, .. } in arms {
        let (PatternKind::Literal, ExprKind::Call(_, all)) = (&pattern.kind, &value.kind) else { continue };
        let [Expr { kind: ExprKind::Path(path), span }] = all.as_slice() else { return None };
        name = path.first().cloned();
        lengths.push((text[pattern.span.start..pattern.span.end].to_string(), text[span.start..span.end].to_string()));
    }
    Some(((address(known.module), name?), lengths))
}
