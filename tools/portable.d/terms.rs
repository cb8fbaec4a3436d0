//! The terms of contracts and of the definitions that they name, as far as arithmetic goes. What is no such term is left alone.

#[derive(Clone, Debug, PartialEq, Eq)]
pub enum Term {
    Number(u64),
    /// A variable, or a name that is defined somewhere: then `FILE#NAME`.
    Name(String),
    Apply(Box<Term>, Vec<Term>),
    /// `+ * - ≡ ≤ < ∷`.
    Pair(String, Box<Term>, Box<Term>),
}

impl Term {
    /// With terms in the place of variables.
    pub fn with(&self, values: &[(String, Term)]) -> Term {
        match self {
            Term::Number(_) => self.clone(),
            Term::Name(name) => values.iter().find(|(variable, _)| variable == name).map_or(self.clone(), |(_, value)| value.clone()),
            Term::Apply(of, all) => Term::Apply(Box::new(of.with(values)), all.iter().map(|one| one.with(values)).collect()),
            Term::Pair(sign, one, two) => Term::Pair(sign.clone(), Box::new(one.with(values)), Box::new(two.with(values))),
        }
    }

    /// The name of what is defined, without its file, that is applied to so many terms.
    pub fn applied(&self, name: &str, count: usize) -> Option<&[Term]> {
        let Term::Apply(of, all) = self else { return None };
        let Term::Name(whole) = of.as_ref() else { return None };
        (whole.rsplit('#').next() == Some(name) && all.len() == count).then_some(all)
    }
}

/// The parts of a conjunction: what stands between `×` outside of all brackets.
pub fn conjuncts(text: &str) -> Vec<String> {
    let (mut parts, mut depth) = (vec![String::new()], 0);
    for c in text.chars() {
        match c {
            '(' | '{' => depth += 1,
            ')' | '}' => depth -= 1,
            _ => {}
        }
        if c == '×' && depth == 0 {
            parts.push(String::new());
        } else {
            parts.last_mut().expect("one at least").push(c);
        }
    }
    parts.iter().map(|part| part.trim().to_string()).collect()
}

/// A text as a term, each name by what `named` makes of it.
pub fn term(text: &str, named: &dyn Fn(&str) -> String) -> Option<Term> {
    let spaced = text.replace('(', " ( ").replace(')', " ) ");
    let mut reader = Reader { words: spaced.split_whitespace().collect(), at: 0, named };
    let found = reader.row(0)?;
    (reader.at == reader.words.len()).then_some(found)
}

struct Reader<'a> {
    words: Vec<&'a str>,
    at: usize,
    named: &'a dyn Fn(&str) -> String,
}

/// The signs between two terms; they bind more tightly from row to row.
const ROWS: [&[&str]; 4] = [&["≡", "≤", "<"], &["∷"], &["+", "-"], &["*"]];
/// Words that no term of arithmetic has.
const OTHERS: [&str; 12] = ["λ", "→", "^", "/", "%", ":", "×", "record", "=", "++", "&&", "||"];

impl Reader<'_> {
    fn row(&mut self, row: usize) -> Option<Term> {
        if row == ROWS.len() {
            return self.application();
        }
        let mut left = self.row(row + 1)?;
        while let Some(sign) = self.words.get(self.at).filter(|word| ROWS[row].contains(word)).copied() {
            self.at += 1;
            // a list goes on to the right
            let right = if sign == "∷" { self.row(row)? } else { self.row(row + 1)? };
            left = Term::Pair(sign.to_string(), Box::new(left), Box::new(right));
        }
        Some(left)
    }

    fn application(&mut self) -> Option<Term> {
        let of = self.atom()?;
        let mut all = Vec::new();
        while self.at < self.words.len() && self.words[self.at] != ")" && !ROWS.iter().any(|row| row.contains(&self.words[self.at])) {
            all.push(self.atom()?);
        }
        Some(if all.is_empty() { of } else { Term::Apply(Box::new(of), all) })
    }

    fn atom(&mut self) -> Option<Term> {
        let word = *self.words.get(self.at)?;
        self.at += 1;
        if word == "(" {
            let inner = self.row(0)?;
            self.at += 1;
            return (self.words.get(self.at - 1) == Some(&")")).then_some(inner);
        }
        if word == ")" || OTHERS.contains(&word) || word.starts_with('.') {
            return None;
        }
        // What is lent, as it is, or as it was before the call: a requires speaks of no other time.
        if let Some(lent) = word.strip_suffix(".now").or_else(|| word.strip_suffix(".old")) {
            return Some(Term::Apply(Box::new(Term::Name("now".to_string())), vec![Term::Name((self.named)(lent))]));
        }
        Some(word.parse().map_or_else(|_| Term::Name((self.named)(word)), Term::Number))
    }
}
