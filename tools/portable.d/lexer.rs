//! The tokens of a Rattle source. Comments and what is ghost stand beside them; a character that begins no token is refused.

/// Where something stands, in bytes.
#[derive(Clone, Copy, Debug, PartialEq, Eq)]
pub struct Span {
    pub start: usize,
    pub end: usize,
}

impl Span {
    /// Whether another stands within it.
    pub fn holds(&self, other: Span) -> bool {
        self.start <= other.start && other.end <= self.end
    }
}

/// What is refused, with its place in the text.
#[derive(Debug)]
pub struct Refused {
    pub at: usize,
    pub what: String,
}

pub fn refuse<T>(at: usize, what: impl Into<String>) -> Result<T, Refused> {
    Err(Refused { at, what: what.into() })
}

#[derive(Clone, Copy, Debug, PartialEq, Eq)]
pub enum Kind {
    Word,
    Number,
    /// A byte such as b'x'.
    Byte,
    Text,
    Lifetime,
    Sign,
    /// `requires` or `ensures` with what it promises, to its closing brace.
    Contract,
    /// `ghost use ..;`, `ghost { .. }`, or a ghost member of a type or of a trait: `ghost NAME: { .. }`, `ghost NAME = { .. }`.
    Ghost,
    End,
}

#[derive(Clone, Copy, Debug)]
pub struct Token {
    pub kind: Kind,
    pub span: Span,
}

pub struct Tokens {
    pub tokens: Vec<Token>,
    pub comments: Vec<Span>,
}

/// The signs of more than one character, the longest first.
const SIGNS: [&str; 22] =
    ["<<=", ">>=", "..=", "->", "=>", "::", "..", "<<", ">>", "<=", ">=", "==", "!=", "&&", "||", "+=", "-=", "*=", "/=", "%=", "&=", "|="];
const SINGLE: &str = "{}()[],;:.=<>+-*/%&|^!#?$";

pub fn tokens(text: &str) -> Result<Tokens, Refused> {
    let mut lexer = Lexer { text, at: 0, found: Tokens { tokens: Vec::new(), comments: Vec::new() } };
    while lexer.at < text.len() {
        lexer.next()?;
    }
    let end = Span { start: text.len(), end: text.len() };
    lexer.found.tokens.push(Token { kind: Kind::End, span: end });
    Ok(lexer.found)
}

struct Lexer<'a> {
    text: &'a str,
    at: usize,
    found: Tokens,
}

impl Lexer<'_> {
    fn rest(&self) -> &str {
        &self.text[self.at..]
    }

    fn push(&mut self, kind: Kind, length: usize) {
        let span = Span { start: self.at, end: self.at + length };
        self.found.tokens.push(Token { kind, span });
        self.at += length;
    }

    /// One token, one comment, or what stands between two.
    fn next(&mut self) -> Result<(), Refused> {
        let rest = self.rest();
        let first = rest.chars().next().expect("not at the end");
        if first == ' ' || first == '\n' {
            self.at += 1;
        } else if rest.starts_with("///") || rest.starts_with("//!") {
            return refuse(self.at, "a doc comment is not known: contracts and plain comments become docs");
        } else if rest.starts_with("//") {
            let end = self.at + rest.find('\n').unwrap_or(rest.len());
            self.found.comments.push(Span { start: self.at, end });
            self.at = end;
        } else if rest.starts_with("b'") {
            self.byte()?;
        } else if first == '\'' {
            let length = 1 + word_length(&rest[1..]);
            if length == 1 || rest[length..].starts_with('\'') {
                return refuse(self.at, "a character is not known, only bytes such as b'x'");
            }
            self.push(Kind::Lifetime, length);
        } else if first == '"' {
            let Some(length) = rest[1..].find('"') else { return refuse(self.at, "a text without an end") };
            self.push(Kind::Text, length + 2);
        } else if first.is_ascii_digit() {
            let length = word_length(rest);
            if !is_number(&rest[..length]) {
                return refuse(self.at, format!("the number '{}' is not known", &rest[..length]));
            }
            self.push(Kind::Number, length);
        } else if first.is_ascii_alphabetic() || first == '_' {
            self.word()?;
        } else if let Some(sign) = SIGNS.iter().find(|sign| rest.starts_with(**sign)) {
            self.push(Kind::Sign, sign.len());
        } else if SINGLE.contains(first) {
            self.push(Kind::Sign, 1);
        } else {
            return refuse(self.at, format!("the character '{first}' begins nothing that is known"));
        }
        Ok(())
    }

    fn byte(&mut self) -> Result<(), Refused> {
        let bytes = self.rest().as_bytes();
        let length = if bytes.get(2) == Some(&b'\\') { 5 } else { 4 };
        if bytes.get(length - 1) != Some(&b'\'') {
            return refuse(self.at, "a byte without an end");
        }
        self.push(Kind::Byte, length);
        Ok(())
    }

    /// A word; `requires`, `ensures` and `ghost` take with them what they stand for.
    fn word(&mut self) -> Result<(), Refused> {
        let length = word_length(self.rest());
        match &self.rest()[..length] {
            "requires" | "ensures" => self.raw(Kind::Contract, length),
            "ghost" => self.raw(Kind::Ghost, length),
            _ => {
                self.push(Kind::Word, length);
                Ok(())
            }
        }
    }

    /// What is not code, as it stands: a `use` to its semicolon, anything else to the brace that closes its first one.
    fn raw(&mut self, kind: Kind, word: usize) -> Result<(), Refused> {
        let rest = self.rest();
        if kind == Kind::Ghost && rest[word..].trim_start().starts_with("use ") {
            let Some(end) = rest.find(';') else { return refuse(self.at, "a ghost use without an end") };
            self.push(kind, end + 1);
            return Ok(());
        }
        let between = if kind == Kind::Ghost { " _\n:=" } else { " _\n*" };
        let mut depth = 0;
        for (at, c) in rest.char_indices().skip(word) {
            match c {
                '{' => depth += 1,
                '}' if depth == 1 => {
                    self.push(kind, at + 1);
                    return Ok(());
                }
                '}' => depth -= 1,
                c if depth == 0 && !(c.is_ascii_alphanumeric() || between.contains(c)) => break,
                _ => {}
            }
        }
        refuse(self.at, format!("'{}' without what it stands for, in braces", &rest[..word]))
    }
}

fn word_length(text: &str) -> usize {
    text.find(|c: char| !(c.is_ascii_alphanumeric() || c == '_')).unwrap_or(text.len())
}

/// Digits, or 0x and hexadecimal ones, with `_` between; and perhaps a type.
fn is_number(word: &str) -> bool {
    let types = ["usize", "u64", "u32", "u16", "u8", "i32", "i16"];
    let hex = word.strip_prefix("0x");
    let digits = types.iter().find_map(|ty| word.strip_suffix(ty)).unwrap_or(word);
    let (digits, base) = hex.map_or((digits, 10), |_| (digits.strip_prefix("0x").unwrap_or(""), 16));
    !digits.is_empty() && digits.chars().all(|c| c == '_' || c.is_digit(base))
}
