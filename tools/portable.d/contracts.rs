//! What a function requires, as terms; and of these the arithmetic, as Rust.
use crate::scope::Known;
use crate::specs::{Specs, imports};
use crate::syntax::*;
use crate::terms::{Term, conjuncts, term};

/// The conjuncts of what a function requires, records unfolded. What is no term is left out: nothing is built on it.
pub fn required(specs: &Specs, known: &Known) -> Vec<Term> {
    let text = &known.module.text;
    let ghosts = known.module.syntax.items.iter().filter(|item| matches!(item.kind, ItemKind::Ghost));
    let uses = ghosts.filter_map(|item| text[item.span.start..item.span.end].strip_prefix("ghost use "));
    let names: Vec<(String, String)> = uses.flat_map(imports).collect();
    let named = |name: &str| names.iter().find(|(known, _)| known == name).map_or_else(|| name.to_string(), |(_, whole)| whole.clone());
    let contracts = known.function.contracts.iter().map(|span| &text[span.start..span.end]);
    let said = contracts.filter_map(|contract| contract.strip_prefix("requires")?.split_once('{')?.1.strip_suffix('}'));
    let found: Vec<Term> = said.flat_map(conjuncts).filter_map(|one| term(&one, &named)).collect();
    found.iter().flat_map(|one| specs.unfold(one)).collect()
}

/// `length name.now`: the name.
pub fn length_of(one: &Term) -> Option<&str> {
    let [lent] = one.applied("length", 1)? else { return None };
    let [Term::Name(name)] = lent.applied("now", 1)? else { return None };
    Some(name)
}

/// Whether a conjunct says that the bytes of a parameter have the length of the form that another tells.
pub fn says_form(one: &Term, image: &str, form: &str) -> bool {
    let named = |of: &Term, by: &str, name: &str| of.applied(by, 1).is_some_and(|all| all == [Term::Name(name.to_string())]);
    let tested = |head: &Term| named(head, "Ok", form) || named(head, "Of", form);
    if one.applied("Headed", 2).is_some_and(|all| tested(&all[0]) && named(&all[1], "now", image)) {
        return true;
    }
    let Term::Pair(sign, left, right) = one else { return false };
    let is_form = |of: &Term| of.applied("form_view", 1).is_some_and(|all| all == [Term::Name(form.to_string())]);
    let by_length = length_of(left) == Some(image) && right.applied("form_length", 1).is_some_and(|all| is_form(&all[0]));
    let by_form = left.applied("form_of", 1).is_some_and(|all| length_of(&all[0]) == Some(image))
        && right.applied("known", 1).is_some_and(|all| is_form(&all[0]));
    sign == "≡" && (by_length || by_form)
}

/// A number's type, or none where a literal fits all.
type Typed = (String, Option<String>);

/// The arithmetic of contracts over a function's parameters.
pub struct Arithmetic<'a> {
    pub specs: &'a Specs,
    pub function: &'a Function,
    pub text: &'a str,
}

impl Arithmetic<'_> {
    /// A conjunct as a test in Rust, if it is one over numbers and lengths. A sum on the left is written without a sum, which could pass the greatest number.
    pub fn test(&self, one: &Term) -> Option<String> {
        let Term::Pair(sign, left, right) = one else { return None };
        let (most, of) = self.number(right)?;
        let mut parts: Vec<Typed> = Vec::new();
        for part in self.sum(left) {
            parts.push(self.number(&part)?);
        }
        let parts = literals_first(parts);
        let types: Vec<&String> = parts.iter().filter_map(|(_, of)| of.as_ref()).chain(of.as_ref()).collect();
        if types.is_empty() || types.iter().any(|other| *other != types[0]) {
            return None;
        }
        let sign = match sign.as_str() {
            "≡" => "==",
            "≤" => "<=",
            "<" => "<",
            _ => return None,
        };
        let (last, before) = parts.split_last()?;
        if sign == "==" && !before.is_empty() {
            return None;
        }
        let mut left_over = most;
        let mut tests = Vec::new();
        for (part, _) in before {
            tests.push(format!("{part} <= {left_over}"));
            left_over = less(&left_over, part);
        }
        tests.push(format!("{} {sign} {left_over}", last.0));
        tests.retain(|test| !is_fixed(test));
        Some(tests.join(" && "))
    }

    /// A term by its definition, if it has one.
    fn opened(&self, one: &Term) -> Term {
        self.specs.reduce(one)
    }

    /// The parts of a sum, each by its definition.
    fn sum(&self, one: &Term) -> Vec<Term> {
        match self.opened(one) {
            Term::Pair(sign, left, right) if sign == "+" => [self.sum(&left), self.sum(&right)].concat(),
            other => vec![other],
        }
    }

    fn number(&self, one: &Term) -> Option<Typed> {
        if let Some(name) = length_of(one) {
            return self.is_lent(name).then(|| (format!("{name}.len()"), Some("usize".to_string())));
        }
        match one {
            Term::Number(value) => Some((value.to_string(), None)),
            Term::Name(name) if !name.contains('#') => Some((name.clone(), Some(self.number_type(name)?))),
            Term::Pair(sign, left, right) => self.pair(sign, left, right),
            _ => {
                let opened = self.opened(one);
                if opened == *one { None } else { self.number(&opened) }
            }
        }
    }

    fn pair(&self, sign: &str, left: &Term, right: &Term) -> Option<Typed> {
        let ((one, of), (two, other)) = (self.number(left)?, self.number(right)?);
        if let (Ok(one), Ok(two)) = (one.parse::<u64>(), two.parse::<u64>()) {
            let value = match sign {
                "+" => one.checked_add(two),
                "*" => one.checked_mul(two),
                _ => None,
            };
            return value.map(|value| (value.to_string(), None));
        }
        let same = of.is_none() || other.is_none() || of == other;
        (sign == "*" && same).then(|| (format!("{one} * {two}"), of.or(other)))
    }

    fn is_lent(&self, name: &str) -> bool {
        self.function.params.iter().any(|param| param.name == name && matches!(param.ty.kind, TypeKind::Lent(..)))
    }

    fn number_type(&self, name: &str) -> Option<String> {
        let param = self.function.params.iter().find(|param| param.name == name)?;
        let text = &self.text[param.ty.span.start..param.ty.span.end];
        ["usize", "u64", "u32", "u16", "u8"].contains(&text).then(|| text.to_string())
    }
}

/// What is fixed as one number, and then the others.
fn literals_first(parts: Vec<Typed>) -> Vec<Typed> {
    let fixed: Vec<u64> = parts.iter().filter_map(|(part, _)| part.parse().ok()).collect();
    let others = parts.into_iter().filter(|(_, of)| of.is_some());
    let total = (!fixed.is_empty()).then(|| (fixed.iter().sum::<u64>().to_string(), None));
    total.into_iter().chain(others).collect()
}

/// A difference; of two fixed numbers the number that it is.
fn less(from: &str, part: &str) -> String {
    match (from.parse::<u64>(), part.parse::<u64>()) {
        (Ok(from), Ok(part)) if part <= from => (from - part).to_string(),
        _ => format!("{from} - {part}"),
    }
}

/// Whether a test is between two fixed numbers.
fn is_fixed(test: &str) -> bool {
    test.split(' ').all(|word| word.parse::<u64>().is_ok() || word == "<=")
}
