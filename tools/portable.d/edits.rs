//! Changes of a text that leave all else as it stands.
use crate::lexer::Span;

#[derive(Default)]
pub struct Edits {
    changes: Vec<(Span, String)>,
}

impl Edits {
    pub fn replace(&mut self, span: Span, with: impl Into<String>) {
        self.changes.push((span, with.into()));
    }

    /// In place of a part, and of all changes within it.
    pub fn overwrite(&mut self, span: Span, with: impl Into<String>) {
        self.changes.retain(|(other, _)| !(span.start <= other.start && other.end <= span.end));
        self.replace(span, with);
    }

    pub fn insert(&mut self, at: usize, text: impl Into<String>) {
        self.replace(Span { start: at, end: at }, text);
    }

    /// A part of the text with the changes within it. Two that overlap are a fault of the translator.
    pub fn apply(&self, text: &str, part: Span) -> String {
        let mut within: Vec<&(Span, String)> =
            self.changes.iter().filter(|(span, _)| part.start <= span.start && span.end <= part.end).collect();
        within.sort_by_key(|(span, _)| (span.start, span.end));
        let (mut out, mut at) = (String::new(), part.start);
        for (span, with) in within {
            assert!(at <= span.start, "two changes overlap at: {}", &text[span.start..span.end]);
            out.push_str(&text[at..span.start]);
            out.push_str(with);
            at = span.end;
        }
        out.push_str(&text[at..part.end]);
        out
    }
}

/// No two blank lines in a row, none at the front, none before a closing brace's end of the text.
pub fn tidy(text: &str) -> String {
    let mut out: Vec<&str> = Vec::new();
    for line in text.lines() {
        let line = line.trim_end();
        if line.is_empty() && out.last().is_none_or(|last| last.is_empty()) {
            continue;
        }
        out.push(line);
    }
    while out.last().is_some_and(|last| last.is_empty()) {
        out.pop();
    }
    out.join("\n") + "\n"
}
