//! The plain copy: ghost lines go, contracts become docs, the few names that differ are rewritten, and all else is copied.
use std::collections::BTreeSet;

use crate::edits::{Edits, tidy};
use crate::house::{House, Module, Told, told};
use crate::known::{self, BY_FORM, wrapping};
use crate::lexer::{Refused, Span, refuse};
use crate::names;
use crate::scope::{Known, address, within_impl};
use crate::steps::Steps;
use crate::syntax::*;
use crate::walk::{self, Node};

/// A signature of more columns stands on several lines.
const WIDTH: usize = 100;

/// What was made: a path below the layer's folder, and a text.
pub struct Made {
    pub path: String,
    pub text: String,
}

/// All modules: the plain copy, or with the steps on it.
pub fn copy(house: &House, steps: Option<&Steps>) -> Told<Vec<Made>> {
    let mut made = Vec::new();
    for krate in &house.crates {
        for module in &krate.modules {
            let text = Copy::of(house, module, steps).and_then(|copy| copy.text());
            let text = text.map_err(|refused| told(&module.file, &module.text, &refused))?;
            made.push(Made { path: path_of(module), text });
        }
    }
    Ok(made)
}

/// A module with modules of its own is the mod.rs of its folder.
pub fn path_of(module: &Module) -> String {
    let parts: Vec<&str> = std::iter::once(module.krate.as_str()).chain(module.path.iter().map(String::as_str)).collect();
    let inner = module.syntax.items.iter().any(|item| matches!(item.kind, ItemKind::Mod(_)));
    if module.path.is_empty() || inner { format!("{}/mod.rs", parts.join("/")) } else { format!("{}.rs", parts.join("/")) }
}

/// One module on its way to Rust.
pub struct Copy<'a> {
    pub house: &'a House,
    pub module: &'a Module,
    pub edits: Edits,
    steps: Option<&'a Steps<'a>>,
    /// The names that `use` lines, modules and items of the file bring.
    names: BTreeSet<String>,
    /// The crates that the code names by their own names.
    crates: BTreeSet<String>,
    /// Whether a place of 64 bits is made a usize.
    near: bool,
}

/// What stands at the end of a file with such a place.
const NEAR: &str = "
/// A place of 64 bits as a usize. Where that has 32 bits, one of 2^31 and more is 2^31 and its own within eight bytes: nothing stands at either.
#[inline(always)]
fn near(place: u64) -> usize {
    if usize::BITS == 64 || place < 1 << 31 { place as usize } else { 1 << 31 | (place % 8) as usize }
}
";

impl<'a> Copy<'a> {
    /// With the changes of the plain copy but for the heads of functions, which `text` writes.
    pub fn of(house: &'a House, module: &'a Module, steps: Option<&'a Steps<'a>>) -> Result<Copy<'a>, Refused> {
        let names = names::brought(&module.syntax.items);
        let mut copy = Copy { house, module, edits: Edits::default(), steps, names, crates: BTreeSet::new(), near: false };
        module.syntax.asked.iter().for_each(|asked| copy.edits.replace(*asked, ""));
        for item in &module.syntax.items {
            names::check(item, &copy.names, &house.methods)?;
            copy.item(item)?;
        }
        if let Some(steps) = steps {
            steps.change(module, &mut copy.edits);
        }
        Ok(copy)
    }

    /// The whole text in Rust.
    pub fn text(mut self) -> Result<String, Refused> {
        self.comments();
        self.by_forms();
        self.functions(&self.module.syntax.items, None, &address(self.module));
        self.uses()?;
        let text = &self.module.text;
        let mut body = self.edits.apply(text, Span { start: 0, end: text.len() });
        if self.near {
            body.push_str(NEAR);
        }
        Ok(format!("// Made from {} by tools/portable: do not change it here.\n{}", self.module.file, tidy(&body)))
    }

    // ---- paths

    /// The way from this module up to its crate, or to what holds all crates.
    fn up(&self, crates: bool) -> String {
        let steps = self.module.path.len() + usize::from(crates);
        if steps == 0 { "self::".to_string() } else { "super::".repeat(steps) }
    }

    /// The front of a path as Rust has it, if it is to be another.
    fn path(&mut self, path: &[String], span: Span) -> Result<(), Refused> {
        if let Some(known) = wrapping(path) {
            self.edits.replace(self.front(path, span), known);
            return Ok(());
        }
        let first = path[0].as_str();
        if first == "crate" {
            self.edits.replace(Span { start: span.start, end: span.start + "crate::".len() }, self.up(false));
        } else if first == "std" && known::is_known(path) {
            self.edits.replace(Span { start: span.start, end: span.start + "std".len() }, "core");
        } else if path.len() > 1 && !self.names.contains(first) && self.house.has(first) {
            self.crates.insert(first.to_string());
        } else if path.len() > 1 && !self.names.contains(first) && !known::is_known(path) && first != "Self" {
            return refuse(span.start, format!("nothing that is known is called '{first}'"));
        }
        Ok(())
    }

    /// The path alone, at the front of something longer, such as a struct.
    fn front(&self, path: &[String], span: Span) -> Span {
        Span { start: span.start, end: span.start + path.join("::").len() }
    }

    fn item(&mut self, item: &'a Item) -> Result<(), Refused> {
        let mut paths: Vec<(Vec<String>, Span)> = Vec::new();
        walk::item(item, &mut |node| {
            let (path, span) = match node {
                Node::Expr(Expr { kind: ExprKind::Path(path) | ExprKind::Struct(path, _), span }) => (path, span),
                Node::Pattern(Pattern {
                    kind: PatternKind::Path(path) | PatternKind::Of(path, _) | PatternKind::Struct(path, _),
                    span,
                }) => (path, span),
                Node::Type(Type { kind: TypeKind::Named(path), span }) => (path, span),
                _ => return,
            };
            paths.push((path.clone(), *span));
        });
        for (path, span) in paths {
            self.path(&path, span)?;
        }
        self.attributes(item);
        self.places(item);
        self.ghosts(item);
        Ok(())
    }

    /// What a struct or an enum derives; all else that attributes ask goes. Those of functions go with their heads.
    fn attributes(&mut self, item: &'a Item) {
        let copied = match &item.kind {
            ItemKind::Struct(structure) => !structure.fields.iter().any(|field| changes(&field.ty)),
            ItemKind::Enum(enumeration) => !enumeration.variants.iter().flat_map(walk::held).any(changes),
            ItemKind::Impl(block) => {
                block.items.iter().for_each(|inner| self.attributes(inner));
                false
            }
            ItemKind::Fn(_) | ItemKind::Ghost | ItemKind::Use(_) => return,
            ItemKind::Const(_) | ItemKind::Alias(_) | ItemKind::Macro(_) | ItemKind::Mod(_) => false,
        };
        let mut all: Vec<&str> = if copied { vec!["Clone", "Copy"] } else { Vec::new() };
        all.extend(item.derives.iter().map(String::as_str).filter(|name| !matches!(*name, "Clone" | "Copy")));
        self.edits.replace(item.attributes, if all.is_empty() { String::new() } else { format!("#[derive({})]\n", all.join(", ")) });
    }

    /// A sum or a difference that wraps may be any number of 64 bits, and as a usize it may not fit.
    fn places(&mut self, item: &'a Item) {
        if let ItemKind::Impl(block) = &item.kind {
            return block.items.iter().for_each(|inner| self.places(inner));
        }
        let ItemKind::Fn(function) = &item.kind else { return };
        let (mut wide, mut casts) = (BTreeSet::new(), Vec::new());
        walk::item(item, &mut |node| match node {
            Node::Let(Let { pattern: Pattern { kind: PatternKind::Name(name), .. }, value, .. }) if wraps(function, value) => {
                wide.insert(name.clone());
            }
            Node::Expr(Expr { kind: ExprKind::Assign(to, value), .. }) if wraps(function, value) => {
                if let ExprKind::Path(path) = &to.kind {
                    wide.insert(path.join("::"));
                }
            }
            Node::Expr(Expr { kind: ExprKind::Cast(of, Type { kind: TypeKind::Named(to), .. }), span }) if to[..] == ["usize"] => {
                casts.push((of.as_ref(), *span));
            }
            _ => {}
        });
        for (of, span) in casts {
            if wraps(function, of) || matches!(&of.kind, ExprKind::Path(path) if wide.contains(&path.join("::"))) {
                self.edits.insert(of.span.start, "near(");
                self.edits.replace(Span { start: of.span.end, end: span.end }, ")");
                self.near = true;
            }
        }
    }

    /// Ghost statements within functions, and ghost members of types.
    fn ghosts(&mut self, item: &'a Item) {
        let mut found: Vec<Span> = Vec::new();
        walk::item(item, &mut |node| {
            if let Node::Block(block) = node {
                found.extend(block.statements.iter().filter_map(|one| if let Statement::Ghost(span) = one { Some(*span) } else { None }));
            }
        });
        let members: Vec<Span> = match &item.kind {
            ItemKind::Struct(structure) => structure.ghosts.clone(),
            ItemKind::Impl(block) => {
                block.items.iter().filter(|inner| matches!(inner.kind, ItemKind::Ghost)).map(|inner| inner.span).collect()
            }
            _ => Vec::new(),
        };
        found.extend(members.into_iter().map(|span| self.lines(span)));
        for span in found {
            self.edits.replace(span, "");
        }
    }

    /// The lines that something fills; and the blank ones behind it, where nothing of the block stands before it.
    fn lines(&self, span: Span) -> Span {
        let text = &self.module.text;
        let start = text[..span.start].rfind('\n').map_or(0, |end| end + 1);
        let behind = text[span.end..].find('\n').map_or(text.len(), |end| span.end + end + 1);
        if !(text[start..span.start].trim().is_empty() && text[span.end..behind].trim().is_empty()) {
            return span;
        }
        let first = text[..start].trim_end().ends_with('{');
        let blank = text[behind..].len() - text[behind..].trim_start_matches('\n').len();
        Span { start, end: if first { behind + blank } else { behind } }
    }

    // ---- by_form!

    /// `by_form!` is a macro in Rust too; its arms name the type of the forms as the file has it that uses them. With the steps a form is a constant of its image's length, so
    /// that what would have an arm for each stands once.
    fn by_forms(&mut self) {
        for item in &self.module.syntax.items {
            let ItemKind::Macro(declared) = &item.kind else { continue };
            if self.steps.is_some() {
                let above = self.above(item.span.start).filter(|block| block.start != self.front_of_file());
                let start = above.map_or(item.span.start, |block| block.start);
                self.edits.overwrite(Span { start, end: item.span.end }, "");
            } else {
                declared.fronts.iter().for_each(|front| self.edits.replace(*front, ""));
                self.edits.insert(item.span.end, format!("\n\npub(crate) use {BY_FORM};"));
            }
        }
        if self.steps.is_none() {
            return;
        }
        let (mut found, mut last) = (Vec::new(), BTreeSet::new());
        for item in &self.module.syntax.items {
            walk::item(item, &mut |node| match node {
                Node::Expr(Expr { kind: ExprKind::ByForm(_, body), span }) => found.push((*span, body)),
                Node::Block(block) => last.extend(self.ending(block)),
                _ => {}
            });
        }
        // One within another first. A block with nothing behind it needs no braces.
        for (span, body) in found.into_iter().rev() {
            let bare = matches!(body.kind, ExprKind::Block(_)) && last.contains(&span.start);
            let (mut start, mut end) = (body.span.start, body.span.end);
            if bare {
                (start, end) = (start + 1, end - 1);
                start += self.module.text[start..].len() - self.module.text[start..].trim_start().len();
            }
            let text = self.source(Span { start, end });
            let further_in = self.margin(start).saturating_sub(self.margin(span.start));
            self.edits.overwrite(span, moved(text.trim_end(), further_in));
        }
    }

    /// How far in the line stands that a place is in.
    fn margin(&self, at: usize) -> usize {
        let line = &self.module.text[self.module.text[..at].rfind('\n').map_or(0, |end| end + 1)..];
        line.len() - line.trim_start_matches(' ').len()
    }

    /// Where the expression begins that a block ends with.
    fn ending(&self, block: &Block) -> Option<usize> {
        let Some(Statement::Expr(last)) = block.statements.last() else { return None };
        self.module.text[last.span.end..block.span.end - 1].trim().is_empty().then_some(last.span.start)
    }

    // ---- use

    /// All `use` lines in one place, sorted, with those of the crates that the code names.
    fn uses(&mut self) -> Result<(), Refused> {
        let mut lines = BTreeSet::new();
        let mut place = None;
        for item in &self.module.syntax.items {
            match &item.kind {
                ItemKind::Use(paths) => {
                    for path in paths {
                        lines.extend(self.used(path, item.span)?);
                    }
                    place.get_or_insert(item.span.start);
                    self.edits.replace(item.span, "");
                }
                ItemKind::Ghost => {
                    place.get_or_insert(item.span.start);
                    self.edits.replace(item.span, "");
                }
                _ => {}
            }
        }
        for name in &self.crates {
            lines.insert(sortable(&format!("{}{name}", self.up(true))));
        }
        if lines.is_empty() {
            return Ok(());
        }
        let text: String = lines.iter().map(|(_, line)| format!("use {line};\n")).collect();
        let Some(place) = place.or_else(|| self.first_code()) else { return Ok(()) };
        self.edits.insert(place, format!("{text}\n"));
        Ok(())
    }

    /// Where the code begins, of a file without a `use`: before the comment above its first item.
    fn first_code(&self) -> Option<usize> {
        let first = self.module.syntax.items.iter().find(|item| !matches!(item.kind, ItemKind::Mod(_)))?;
        Some(self.above(first.span.start).map_or(first.span.start, |block| block.start))
    }

    fn used(&self, path: &[String], span: Span) -> Result<Vec<(String, String)>, Refused> {
        let rest = path[1..].join("::");
        let own = path[0] == "crate";
        let front = if own { self.up(false) } else { format!("{}{}::", self.up(true), path[0]) };
        let krate = if own { &self.module.krate } else { &path[0] };
        let declared = if rest == BY_FORM { self.house.by_form(krate) } else { None };
        if let Some((module, declared)) = declared {
            let here = module.path.iter().map(String::as_str).chain([BY_FORM]).collect::<Vec<_>>().join("::");
            let lines = [here, declared.ty.join("::")].map(|rest| sortable(&format!("{front}{rest}")));
            return Ok(if self.steps.is_some() { Vec::new() } else { lines.to_vec() });
        }
        if known::is_used(path) {
            return Ok(vec![sortable(&format!("core::{rest}"))]);
        }
        if !own && !self.house.has(&path[0]) {
            return refuse(span.start, format!("no crate that is known is called '{}'", path[0]));
        }
        Ok(vec![sortable(&format!("{front}{rest}"))])
    }

    // ---- comments and contracts

    /// The block of comment lines that ends right above a place.
    fn above(&self, at: usize) -> Option<Span> {
        blocks(&self.module.text, &self.module.syntax.comments).into_iter().find(|block| {
            let between = &self.module.text[block.end..at.max(block.end)];
            block.end <= at && between.trim().is_empty() && between.matches('\n').count() == 1
        })
    }

    /// Where the file's own words begin: behind what it asks of the prover.
    fn front_of_file(&self) -> usize {
        let text = &self.module.text;
        let mut at = 0;
        loop {
            at += text[at..].len() - text[at..].trim_start().len();
            let Some(asked) = self.module.syntax.asked.iter().find(|asked| asked.start == at) else { return at };
            at = asked.end;
        }
    }

    /// The first block is the file's own docs; a block right above an item, a field or a variant is the docs of that. All others stay.
    fn comments(&mut self) {
        let mut owners = Vec::new();
        owned(&self.module.syntax.items, &mut owners);
        let mut docs: Vec<(Span, &str)> = owners.iter().filter_map(|at| self.above(*at)).map(|block| (block, "///")).collect();
        let front = self.front_of_file();
        docs.retain(|(block, _)| block.start != front);
        docs.extend(blocks(&self.module.text, &self.module.syntax.comments).into_iter().filter(|b| b.start == front).map(|b| (b, "//!")));
        for (block, mark) in docs {
            for comment in self.module.syntax.comments.iter().filter(|comment| block.start <= comment.start && comment.end <= block.end) {
                let words = documented(&self.module.text[comment.start + 2..comment.end]);
                self.edits.replace(*comment, format!("{mark}{words}"));
            }
            if mark == "//!" {
                self.edits.insert(block.end, "\n");
            }
        }
    }

    fn functions(&mut self, items: &'a [Item], around: Option<&'a Impl>, within: &str) {
        for item in items {
            match &item.kind {
                ItemKind::Fn(function) => {
                    let known = Known { module: self.module, around, item, function };
                    let head = Span { start: item.span.start, end: function.body.span.start + 1 };
                    let text = match self.steps {
                        Some(steps) => self.stepped(steps, &format!("{within}::{}", function.name), &known),
                        None => format!("{} {{", self.signature(item, function)),
                    };
                    self.edits.overwrite(head, format!("{}{text}", self.contracts(item, function)));
                }
                ItemKind::Impl(block) => self.functions(&block.items, Some(block), &within_impl(self.module, within, block)),
                _ => {}
            }
        }
    }

    /// A function's head with the steps on it, up to the first line of its body that is copied.
    fn stepped(&mut self, steps: &Steps, address: &str, known: &Known) -> String {
        let (function, indent) = (known.function, self.indent(known.item.span.start));
        let (params, lengths) = steps.params(address, known, &|span| self.source(span));
        let result = function.result.as_ref().map(|result| self.source(result.span));
        let (mut arms, mut name, mut public) = (String::new(), function.name.clone(), known.item.public);
        if function.exported && !lengths.is_empty() {
            let tests = Span { start: function.body.span.start + 1, end: steps.tests_before(address, known) };
            let lines = format!("{}\n", self.source(tests));
            arms = steps.arms(address, known, lines.trim_start_matches('\n'), &|span| self.source(span));
            (name, public) = (format!("{name}_of"), false);
            self.edits.overwrite(tests, "");
        }
        let angles: Vec<String> = function.lifetime.iter().cloned().chain(lengths).collect();
        let signature = signed(&indent, public, &name, &angles, &params, result.as_deref());
        let inlined = if public && function.exported { String::new() } else { format!("{}\n{indent}", steps.inlining(known)) };
        let lines: String = steps.front_lines(address, known, &self.up(true)).iter().map(|line| format!("\n{indent}    {line}")).collect();
        if let Some(body) = steps.body(known) {
            let inner = Span { start: function.body.span.start + 1, end: function.body.span.end - 1 };
            self.edits.overwrite(inner, format!("\n{indent}    {body}\n{indent}"));
        }
        format!("{arms}{inlined}{signature} {{{lines}")
    }

    fn indent(&self, at: usize) -> String {
        let line = self.module.text[..at].rfind('\n').map_or(0, |end| end + 1);
        " ".repeat(at - line)
    }

    /// What a function requires and ensures, as written, in docs.
    pub fn contracts(&self, item: &Item, function: &Function) -> String {
        if function.contracts.is_empty() {
            return String::new();
        }
        let indent = self.indent(item.span.start);
        let documented = self.above(item.span.start).is_some_and(|block| block.start != self.front_of_file());
        let mut lines = if documented { vec![String::new()] } else { Vec::new() };
        lines.push("```text".to_string());
        for contract in &function.contracts {
            let text = &self.module.text[contract.start..contract.end];
            let cut = format!("{indent}    ");
            lines.extend(text.lines().map(|line| line.strip_prefix(&cut).unwrap_or(line).to_string()));
        }
        lines.push("```".to_string());
        lines.iter().map(|line| format!("{}\n{indent}", format!("/// {line}").trim_end())).collect()
    }

    pub fn signature(&self, item: &Item, function: &Function) -> String {
        let params: Vec<String> = function.params.iter().map(|param| param_of(param, self.source(param.ty.span))).collect();
        let result = function.result.as_ref().map(|result| self.source(result.span));
        let angles = function.lifetime.iter().cloned().collect::<Vec<_>>();
        signed(&self.indent(item.span.start), item.public, &function.name, &angles, &params, result.as_deref())
    }

    /// A part of the source with the changes so far.
    pub fn source(&self, span: Span) -> String {
        self.edits.apply(&self.module.text, span)
    }
}

/// The lines behind the first so much less far in.
fn moved(text: &str, by: usize) -> String {
    let margin = " ".repeat(by);
    text.split('\n').map(|line| line.strip_prefix(&margin).unwrap_or(line)).collect::<Vec<_>>().join("\n")
}

/// A comment's words in docs: what Markdown would read as a tag or a link is marked, but within backticks.
fn documented(words: &str) -> String {
    let mut out = String::new();
    let mut code = false;
    for c in words.chars() {
        code ^= c == '`';
        if !code && (c == '<' || c == '[') {
            out.push('\\');
        }
        out.push(c);
    }
    out
}

/// A signature on one line, or, where that is too long, with a line for each parameter.
pub fn signed(indent: &str, public: bool, name: &str, angles: &[String], params: &[String], result: Option<&str>) -> String {
    let angles = if angles.is_empty() { String::new() } else { format!("<{}>", angles.join(", ")) };
    let head = format!("{}fn {name}{angles}", if public { "pub " } else { "" });
    let result = result.map_or(String::new(), |result| format!(" -> {result}"));
    let line = format!("{head}({}){result}", params.join(", "));
    if indent.len() + line.chars().count() + " {".len() <= WIDTH {
        return line;
    }
    let lines: String = params.iter().map(|param| format!("\n{indent}    {param},")).collect();
    format!("{head}({lines}\n{indent}){result}")
}

/// A parameter of a type that is written so.
pub fn param_of(param: &Param, ty: String) -> String {
    if param.name == "self" { ty } else { format!("{}: {ty}", param.name) }
}

/// Whether a type holds something that is lent to be changed; it cannot be copied then.
fn changes(ty: &Type) -> bool {
    walk::any_type(ty, |kind| matches!(kind, TypeKind::Lent(true, _)))
}

/// Whether a value is a sum or a difference that wraps, of 64 bits; of a parameter that is another number it is not.
fn wraps(function: &Function, value: &Expr) -> bool {
    match &value.kind {
        ExprKind::Inner(inner) => wraps(function, inner),
        ExprKind::Call(called, _) => {
            matches!(&called.kind, ExprKind::Path(path) if wrapping(path).is_some_and(|known| known.starts_with("u64::")))
        }
        ExprKind::Method(method) if method.name == "wrapping_add" || method.name == "wrapping_sub" => {
            let ExprKind::Path(path) = &method.of.kind else { return true };
            let param = function.params.iter().find(|param| path[..] == [param.name.as_str()]);
            param.is_none_or(|param| matches!(&param.ty.kind, TypeKind::Named(of) if of[..] == ["u64"]))
        }
        _ => false,
    }
}

/// Comments that fill their lines, in blocks of lines that follow one another.
fn blocks(text: &str, comments: &[Span]) -> Vec<Span> {
    let alone = |comment: &&Span| text[..comment.start].rsplit('\n').next().is_some_and(|line| line.trim().is_empty());
    let mut found: Vec<Span> = Vec::new();
    for comment in comments.iter().filter(alone) {
        match found.last_mut() {
            Some(last) if text[last.end..comment.start].trim().is_empty() && text[last.end..comment.start].matches('\n').count() == 1 => {
                last.end = comment.end;
            }
            _ => found.push(*comment),
        }
    }
    found
}

/// Where each item, field and variant begins that can have docs.
fn owned(items: &[Item], found: &mut Vec<usize>) {
    for item in items {
        match &item.kind {
            ItemKind::Ghost | ItemKind::Use(_) | ItemKind::Mod(_) => continue,
            ItemKind::Impl(block) => owned(&block.items, found),
            ItemKind::Struct(structure) => found.extend(structure.fields.iter().map(|field| field.span.start)),
            ItemKind::Enum(enumeration) => {
                found.extend(enumeration.variants.iter().map(|variant| variant.span.start));
                found.extend(enumeration.variants.iter().flat_map(|variant| &variant.fields).map(|field| field.span.start));
            }
            ItemKind::Const(_) | ItemKind::Alias(_) | ItemKind::Macro(_) | ItemKind::Fn(_) => {}
        }
        found.push(item.span.start);
    }
}

/// A path with its place among others: what leads up first, then small letters, then names of types, then constants.
fn sortable(path: &str) -> (String, String) {
    let rank = |part: &str| match part {
        "self" | "super" => 0,
        _ if part.chars().next().is_some_and(char::is_lowercase) => 1,
        _ if part.chars().any(char::is_lowercase) => 2,
        _ => 3,
    };
    let key: Vec<String> = path.split("::").map(|part| format!("{}{part}", rank(part))).collect();
    (key.join(" "), path.to_string())
}
