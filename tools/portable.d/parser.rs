//! Reads a source as the constructs of `syntax`, and refuses whatever is none of them.
use crate::known::{self, NUMBERS};
use crate::lexer::{Kind, Refused, Span, Token, Tokens, refuse, tokens};
use crate::syntax::*;
use crate::walk;

pub fn parse(text: &str) -> Result<File, Refused> {
    let Tokens { tokens, comments } = tokens(text)?;
    let mut parser = Parser { text, tokens, at: 0, structs: true, within: false, paths: Vec::new() };
    let (mut asked, mut items) = (Vec::new(), Vec::new());
    while parser.token().kind != Kind::End {
        if parser.is("#") && parser.ahead(1, "!") {
            asked.push(parser.attribute(2)?.1);
        } else {
            items.push(parser.item()?);
        }
    }
    parser.own_paths(&items)?;
    Ok(File { asked, items, comments })
}

struct Parser<'a> {
    text: &'a str,
    tokens: Vec<Token>,
    at: usize,
    /// Whether a brace behind a path begins a struct; it does not in the heads of `if`, `while`, `for` and `match`.
    structs: bool,
    /// Whether a function may begin with `self`: it stands in an `impl`.
    within: bool,
    /// The paths of expressions and patterns, with their places.
    paths: Vec<(Vec<String>, usize)>,
}

/// Whether a name is spelled as constants are.
fn is_constant(name: &str) -> bool {
    name.len() > 1
        && name.starts_with(|c: char| c.is_ascii_uppercase())
        && name.chars().all(|c| c.is_ascii_uppercase() || c.is_ascii_digit() || c == '_')
}

type Read<T> = Result<T, Refused>;

/// The signs between two operands.
const ROWS: [&[&str]; 9] =
    [&["||"], &["&&"], &["==", "!=", "<", ">", "<=", ">="], &["|"], &["^"], &["&"], &["<<", ">>"], &["+", "-"], &["*", "/", "%"]];
/// The first row behind those of `||` and `&&`.
const LAZY: usize = 2;

/// The words that are no names.
const RESERVED: [&str; 36] = [
    "as", "async", "await", "break", "const", "continue", "crate", "dyn", "else", "enum", "extern", "fn", "for", "if", "impl", "in", "let",
    "loop", "macro", "match", "mod", "move", "mut", "pub", "ref", "return", "self", "static", "struct", "super", "trait", "type", "unsafe",
    "use", "where", "while",
];

impl Parser<'_> {
    fn token(&self) -> Token {
        self.tokens[self.at]
    }

    fn word(&self) -> &str {
        let span = self.token().span;
        &self.text[span.start..span.end]
    }

    fn start(&self) -> usize {
        self.token().span.start
    }

    fn since(&self, start: usize) -> Span {
        Span { start, end: self.tokens[self.at - 1].span.end }
    }

    fn is(&self, word: &str) -> bool {
        matches!(self.token().kind, Kind::Word | Kind::Sign) && self.word() == word
    }

    fn ahead(&self, count: usize, word: &str) -> bool {
        let span = self.tokens[(self.at + count).min(self.tokens.len() - 1)].span;
        &self.text[span.start..span.end] == word
    }

    fn take(&mut self, word: &str) -> bool {
        let there = self.is(word);
        if there {
            self.at += 1;
        }
        there
    }

    fn want(&mut self, word: &str) -> Read<()> {
        if self.take(word) { Ok(()) } else { self.unknown(&format!("'{word}' is wanted here")) }
    }

    fn unknown<T>(&self, what: &str) -> Read<T> {
        let found = if self.token().kind == Kind::End { "the end" } else { self.word() };
        let line = found.lines().next().unwrap_or("");
        refuse(self.start(), format!("{what}, and not '{line}'"))
    }

    /// What is the kit's or Rust's own is known: by its whole path, or by a name that a `use` line brings.
    fn own_paths(&self, items: &[Item]) -> Read<()> {
        let used = |item: &Item| if let ItemKind::Use(paths) = &item.kind { paths.clone() } else { Vec::new() };
        let used: Vec<Vec<String>> = items.iter().flat_map(used).filter(|path| known::is_foreign(path)).collect();
        for (path, at) in &self.paths {
            let whole = match used.iter().find(|used| used.last() == path.first()) {
                Some(front) => [front.as_slice(), &path[1..]].concat(),
                None => path.clone(),
            };
            if known::is_foreign(&whole) && !known::is_known(&whole) {
                return refuse(*at, format!("'{}' is not known", path.join("::")));
            }
        }
        Ok(())
    }

    fn name(&mut self) -> Read<String> {
        if self.token().kind != Kind::Word || RESERVED.contains(&self.word()) {
            return self.unknown("a name is wanted here");
        }
        self.at += 1;
        let span = self.tokens[self.at - 1].span;
        Ok(self.text[span.start..span.end].to_string())
    }

    /// What `one` reads, with commas between, up to a closing sign.
    fn list<T>(&mut self, close: &str, mut one: impl FnMut(&mut Self) -> Read<T>) -> Read<Vec<T>> {
        let mut found = Vec::new();
        while !self.take(close) {
            found.push(one(self)?);
            if !self.take(",") {
                self.want(close)?;
                break;
            }
        }
        Ok(found)
    }

    // ---- items

    fn item(&mut self) -> Read<Item> {
        let start = self.start();
        if self.token().kind == Kind::Ghost {
            self.at += 1;
            if self.within {
                self.take(";");
            }
            let (span, attributes) = (self.since(start), Span { start, end: start });
            return Ok(Item { span, attributes, derives: Vec::new(), public: false, kind: ItemKind::Ghost });
        }
        if self.is("#") && self.ahead(2, "macro_export") {
            return self.by_form_rules();
        }
        let (exported, derives) = self.attributes()?;
        let attributes = Span { start, end: self.start() };
        let public = self.take("pub");
        if !(derives.is_empty() || self.is("struct") || self.is("enum")) {
            return refuse(start, "only a struct or an enum derives something");
        }
        let kind = match self.word() {
            "use" if !public && !exported => self.used()?,
            "mod" if !exported => self.module()?,
            "const" | "static" if !exported => ItemKind::Const(self.constant()?),
            "struct" if !exported => ItemKind::Struct(self.structure()?),
            "enum" if !exported => ItemKind::Enum(self.enumeration()?),
            "type" if !exported => ItemKind::Alias(self.alias()?),
            "impl" if !public && !exported => self.implementation()?,
            "extern" if exported && public => self.exported_function()?,
            "fn" if !exported => ItemKind::Fn(self.function(false)?),
            _ => return self.unknown("an item that is known is wanted here (use, mod, const, static, struct, enum, type, impl, fn)"),
        };
        Ok(Item { span: self.since(start), attributes, derives, public, kind })
    }

    /// The attributes of an item: whether one exports it to C, and what it derives.
    fn attributes(&mut self) -> Read<(bool, Vec<String>)> {
        let (mut exported, mut derives) = (false, Vec::new());
        while self.is("#") {
            let start = self.start();
            let said = self.attribute(1)?.0;
            match said.as_str() {
                "unsafe(no_mangle)" => exported = true,
                said if said.starts_with("cycle(") || said.starts_with("tactic(") || said.starts_with("inline(") => {}
                said => match said.strip_prefix("derive(").and_then(|list| list.strip_suffix(')')) {
                    Some(list) => derives.extend(derived(list, start)?),
                    None => return refuse(start, format!("the attribute '{said}' is not known")),
                },
            }
        }
        Ok((exported, derives))
    }

    /// What an attribute says, and its place, to the bracket that closes it.
    fn attribute(&mut self, before: usize) -> Read<(String, Span)> {
        let start = self.start();
        self.at += before;
        self.want("[")?;
        let inner = self.start();
        while !self.is("]") {
            if self.token().kind == Kind::End {
                return refuse(start, "an attribute without an end");
            }
            self.at += 1;
        }
        let said = self.text[inner..self.start()].to_string();
        self.at += 1;
        Ok((said, self.since(start)))
    }

    /// `by_form!` as it is declared, and no other macro: of each variant of a type an arm in which the name is bound to it.
    fn by_form_rules(&mut self) -> Read<Item> {
        let start = self.start();
        self.all("# [ macro_export ]")?;
        let attributes = Span { start, end: self.start() };
        self.all("macro_rules ! by_form { ( $ form : ident , $ body : expr ) => { match $ form {")?;
        let (mut ty, mut fronts) = (Vec::new(), Vec::new());
        while !self.take("}") {
            let at = self.start();
            let arm = self.variant(&mut fronts)?;
            self.all("=> { let $ form =")?;
            let bound = self.variant(&mut fronts)?;
            self.all("; $ body }")?;
            let of = arm[..arm.len() - 1].to_vec();
            if arm != bound || !(ty.is_empty() || ty == of) {
                return refuse(at, "an arm of another type, or one that is bound to something else");
            }
            ty = of;
        }
        self.all("} ; }")?;
        if ty.is_empty() {
            return refuse(start, "a macro without an arm");
        }
        Ok(Item { span: self.since(start), attributes, derives: Vec::new(), public: false, kind: ItemKind::Macro(Macro { ty, fronts }) })
    }

    /// `$crate::a::Type::Variant`: its path in the crate. What stands before the type goes to `fronts`.
    fn variant(&mut self, fronts: &mut Vec<Span>) -> Read<Vec<String>> {
        let start = self.start();
        self.all("$ crate ::")?;
        let path = self.path()?;
        if path.len() < 2 {
            return refuse(start, "a variant with its type is wanted here");
        }
        fronts.push(Span { start, end: self.tokens[self.at - 3].span.start });
        Ok(path)
    }

    /// Signs and words one behind the other.
    fn all(&mut self, words: &str) -> Read<()> {
        words.split(' ').try_for_each(|word| self.want(word))
    }

    fn used(&mut self) -> Read<ItemKind> {
        self.at += 1;
        let mut path = vec![if self.take("crate") { "crate".to_string() } else { self.name()? }];
        let mut last = Vec::new();
        while self.take("::") {
            if self.take("{") {
                last = self.list("}", Self::name)?;
                break;
            }
            path.push(self.name()?);
        }
        self.want(";")?;
        let all = last.into_iter().map(|name| [path.clone(), vec![name]].concat()).collect::<Vec<_>>();
        Ok(ItemKind::Use(if all.is_empty() { vec![path] } else { all }))
    }

    fn module(&mut self) -> Read<ItemKind> {
        self.at += 1;
        let name = self.name()?;
        self.want(";")?;
        Ok(ItemKind::Mod(name))
    }

    fn constant(&mut self) -> Read<Const> {
        self.at += 1;
        let name = self.name()?;
        self.want(":")?;
        let ty = self.ty()?;
        self.want("=")?;
        let value = self.expr()?;
        self.want(";")?;
        Ok(Const { name, ty, value })
    }

    /// A lifetime in angles, if there is one.
    fn lifetime(&mut self) -> Read<Option<String>> {
        if !self.take("<") {
            return Ok(None);
        }
        if self.token().kind != Kind::Lifetime {
            return self.unknown("of what stands in angles only one lifetime is known");
        }
        let name = self.word().to_string();
        self.at += 1;
        self.close_angle()?;
        Ok(Some(name))
    }

    /// The `>` that closes angles; two of them that stand together are one token.
    fn close_angle(&mut self) -> Read<()> {
        if self.is(">>") {
            let Token { kind, span } = self.token();
            let middle = span.start + 1;
            self.tokens[self.at] = Token { kind, span: Span { start: span.start, end: middle } };
            self.tokens.insert(self.at + 1, Token { kind, span: Span { start: middle, end: span.end } });
        }
        self.want(">")
    }

    /// So many types in angles.
    fn angles(&mut self, count: usize) -> Read<Vec<Type>> {
        self.want("<")?;
        let mut found = vec![self.ty()?];
        while found.len() < count {
            self.want(",")?;
            found.push(self.ty()?);
        }
        self.close_angle()?;
        Ok(found)
    }

    /// A field of a struct or of a variant: its name and its type.
    fn field(&mut self, start: usize) -> Read<Field> {
        self.name()?;
        self.want(":")?;
        let ty = self.ty()?;
        Ok(Field { span: self.since(start), ty })
    }

    fn structure(&mut self) -> Read<Struct> {
        self.at += 1;
        let name = self.name()?;
        self.lifetime()?;
        if self.take("(") {
            let fields = self.list(")", |parser| {
                let start = parser.start();
                parser.take("pub");
                let ty = parser.ty()?;
                Ok(Field { span: parser.since(start), ty })
            })?;
            self.want(";")?;
            return Ok(Struct { name, fields, ghosts: Vec::new() });
        }
        self.want("{")?;
        let (mut fields, mut ghosts) = (Vec::new(), Vec::new());
        while !self.take("}") {
            let start = self.start();
            self.take("pub");
            let ghost = self.token().kind == Kind::Ghost;
            if ghost {
                self.at += 1;
            } else {
                fields.push(self.field(start)?);
            }
            let more = self.take(",");
            if ghost {
                ghosts.push(self.since(start));
            }
            if !more {
                self.want("}")?;
                break;
            }
        }
        Ok(Struct { name, fields, ghosts })
    }

    fn enumeration(&mut self) -> Read<Enum> {
        self.at += 1;
        let name = self.name()?;
        self.want("{")?;
        let variants = self.list("}", |parser| {
            let start = parser.start();
            parser.name()?;
            let holds = if parser.take("(") { parser.list(")", Self::ty)? } else { Vec::new() };
            let named = holds.is_empty() && parser.take("{");
            let fields = if named { parser.list("}", |parser| parser.field(parser.start()))? } else { Vec::new() };
            Ok(Variant { span: parser.since(start), holds, fields })
        })?;
        Ok(Enum { name, variants })
    }

    fn alias(&mut self) -> Read<Alias> {
        self.at += 1;
        let name = self.name()?;
        self.want("=")?;
        let ty = self.ty()?;
        self.want(";")?;
        if walk::any_type(&ty, |kind| matches!(kind, TypeKind::Lent(..) | TypeKind::Slice(_))) {
            return refuse(ty.span.start, "another name is known only of a type that lends nothing");
        }
        Ok(Alias { name, ty })
    }

    /// `impl TYPE` or `impl TRAIT for TYPE`, with its items.
    fn implementation(&mut self) -> Read<ItemKind> {
        self.at += 1;
        self.lifetime()?;
        let start = self.start();
        let mut of = None;
        if known::TRAITS.contains(&self.word()) && self.ahead(1, "<") {
            self.at += 1;
            let all = self.angles(1)?;
            of = Some(Trait { span: self.since(start), all });
            self.want("for")?;
        }
        let ty = self.ty()?;
        if of.is_none() && !matches!(&ty.kind, TypeKind::Named(path) if path.len() == 1) {
            return refuse(ty.span.start, "constants and functions are known of a type by its name");
        }
        self.want("{")?;
        let within = std::mem::replace(&mut self.within, true);
        let mut items = Vec::new();
        while !self.take("}") {
            let start = self.start();
            let item = self.item()?;
            let fine = match &item.kind {
                ItemKind::Ghost => true,
                ItemKind::Const(_) => of.is_none(),
                ItemKind::Alias(_) => of.is_some() && !item.public,
                ItemKind::Fn(function) => !function.exported,
                _ => false,
            };
            if !fine {
                return refuse(start, "of a type only constants and functions are known");
            }
            items.push(item);
        }
        self.within = within;
        Ok(ItemKind::Impl(Impl { of, ty, items }))
    }

    fn exported_function(&mut self) -> Read<ItemKind> {
        self.at += 1;
        if self.word() != "\"C\"" {
            return self.unknown("an exported function is extern \"C\"");
        }
        self.at += 1;
        if !self.is("fn") {
            return self.unknown("'fn' is wanted here");
        }
        Ok(ItemKind::Fn(self.function(true)?))
    }

    fn function(&mut self, exported: bool) -> Read<Function> {
        self.at += 1;
        let name = self.name()?;
        let lifetime = self.lifetime()?;
        self.want("(")?;
        let mut first = self.within;
        let params = self.list(")", |parser| {
            if let Some(own) = std::mem::take(&mut first).then(|| parser.own()).flatten() {
                return Ok(own);
            }
            let name = parser.name()?;
            parser.want(":")?;
            Ok(Param { name, ty: parser.ty()? })
        })?;
        let result = if self.take("->") { Some(self.ty()?) } else { None };
        let mut contracts = Vec::new();
        while self.token().kind == Kind::Contract {
            contracts.push(self.token().span);
            self.at += 1;
        }
        let body = self.block()?;
        Ok(Function { name, exported, lifetime, params, result, contracts, body })
    }

    /// `self`, `&self` or `&mut self`.
    fn own(&mut self) -> Option<Param> {
        let start = self.start();
        let lent = self.is("&");
        let changed = lent && self.ahead(1, "mut");
        let signs = usize::from(lent) + usize::from(changed);
        if !self.ahead(signs, "self") {
            return None;
        }
        self.at += signs + 1;
        let span = self.since(start);
        let this = Type { span, kind: TypeKind::Named(vec!["Self".to_string()]) };
        let ty = if lent { Type { span, kind: TypeKind::Lent(changed, Box::new(this)) } } else { this };
        Some(Param { name: "self".to_string(), ty })
    }

    // ---- types and patterns

    fn ty(&mut self) -> Read<Type> {
        let start = self.start();
        let kind = if self.take("&") {
            if self.token().kind == Kind::Lifetime {
                self.at += 1;
            }
            let changed = self.take("mut");
            TypeKind::Lent(changed, Box::new(self.ty()?))
        } else if self.take("[") {
            let of = Box::new(self.ty()?);
            if self.take(";") {
                let length = Box::new(self.expr()?);
                self.want("]")?;
                TypeKind::Array(of, length)
            } else {
                self.want("]")?;
                TypeKind::Slice(of)
            }
        } else if self.take("(") {
            TypeKind::Tuple(self.list(")", Self::ty)?)
        } else {
            let path = self.path()?;
            match known::angles(&path[0]) {
                Some(count) if path.len() == 1 => TypeKind::Of(self.angles(count)?),
                _ => {
                    self.lifetime()?;
                    TypeKind::Named(path)
                }
            }
        };
        Ok(Type { span: self.since(start), kind })
    }

    /// `a::b::c`, from a name or from `crate`; or `self`.
    fn path(&mut self) -> Read<Vec<String>> {
        if self.take("self") {
            return Ok(vec!["self".to_string()]);
        }
        let mut path = vec![if self.take("crate") { "crate".to_string() } else { self.name()? }];
        while self.take("::") {
            path.push(self.name()?);
        }
        Ok(path)
    }

    fn pattern(&mut self) -> Read<Pattern> {
        let start = self.start();
        let first = self.one_pattern()?;
        if !self.is("|") {
            return Ok(first);
        }
        let mut all = vec![first];
        while self.take("|") {
            all.push(self.one_pattern()?);
        }
        Ok(Pattern { span: self.since(start), kind: PatternKind::Or(all) })
    }

    fn one_pattern(&mut self) -> Read<Pattern> {
        let start = self.start();
        let low = self.end_of_pattern()?;
        if !self.take("..=") {
            return Ok(low);
        }
        let high = self.end_of_pattern()?;
        Ok(Pattern { span: self.since(start), kind: PatternKind::Range(Box::new(low), Box::new(high)) })
    }

    fn end_of_pattern(&mut self) -> Read<Pattern> {
        let start = self.start();
        let kind = match self.token().kind {
            Kind::Number | Kind::Byte => {
                self.at += 1;
                PatternKind::Literal
            }
            _ if self.take("_") => PatternKind::Any,
            _ if self.take("true") || self.take("false") => PatternKind::Literal,
            _ if self.take("mut") => PatternKind::Name(self.name()?),
            _ if self.take("(") => PatternKind::Tuple(self.list(")", Self::pattern)?),
            _ if self.take("&") => {
                self.take("mut");
                PatternKind::Lent(Box::new(self.end_of_pattern()?))
            }
            _ => {
                let mut path = self.path()?;
                self.paths.push((path.clone(), start));
                if self.take("(") {
                    PatternKind::Of(path, self.list(")", Self::pattern)?)
                } else if self.take("{") {
                    PatternKind::Struct(path, self.list("}", Self::field_pattern)?)
                } else if path[..] == ["None"] || (path.len() == 1 && is_constant(&path[0])) {
                    PatternKind::Path(path)
                } else if path.len() == 1 {
                    if !path[0].starts_with(|c: char| c.is_ascii_lowercase() || c == '_') {
                        return refuse(start, format!("'{}' in a pattern is no name, and no variant with its type", path[0]));
                    }
                    PatternKind::Name(path.remove(0))
                } else {
                    PatternKind::Path(path)
                }
            }
        };
        Ok(Pattern { span: self.since(start), kind })
    }

    /// What a field of a struct is; a field without a pattern has its name, and `..` at the end stands for all others.
    fn field_pattern(&mut self) -> Read<Pattern> {
        let start = self.start();
        let kind = if self.take("..") {
            if !self.is("}") {
                return self.unknown("'}' is wanted here");
            }
            PatternKind::Any
        } else if self.take("mut") {
            PatternKind::Name(self.name()?)
        } else {
            let name = self.name()?;
            if self.take(":") {
                return self.pattern();
            }
            PatternKind::Name(name)
        };
        Ok(Pattern { span: self.since(start), kind })
    }

    // ---- statements

    fn block(&mut self) -> Read<Block> {
        let start = self.start();
        self.want("{")?;
        let structs = std::mem::replace(&mut self.structs, true);
        let mut statements = Vec::new();
        while !self.take("}") {
            statements.push(self.statement()?);
        }
        self.structs = structs;
        Ok(Block { span: self.since(start), statements })
    }

    fn statement(&mut self) -> Read<Statement> {
        let start = self.start();
        if self.token().kind == Kind::Ghost {
            self.at += 1;
            return Ok(Statement::Ghost(self.since(start)));
        }
        if self.is("#") {
            let (said, span) = self.attribute(1)?;
            return if said.starts_with("tactic(") {
                Ok(Statement::Ghost(span))
            } else {
                refuse(start, format!("the attribute '{said}' is not known"))
            };
        }
        if self.take("let") {
            return self.binding();
        }
        // What ends with a block is a statement of its own: no sign behind it goes on with it.
        let whole = ["if", "while", "for", "match", "{"].iter().any(|word| self.is(word));
        let value = if whole { self.thing()? } else { self.expr()? };
        let ended = self.take(";");
        if !ended && !whole && !self.is("}") {
            return self.unknown("';' is wanted here");
        }
        Ok(Statement::Expr(value))
    }

    fn binding(&mut self) -> Read<Statement> {
        let pattern = self.pattern()?;
        let ty = if self.take(":") { Some(self.ty()?) } else { None };
        self.want("=")?;
        let value = self.expr()?;
        let otherwise = if self.take("else") { Some(self.block()?) } else { None };
        self.want(";")?;
        Ok(Statement::Let(Let { pattern, ty, value, otherwise }))
    }

    // ---- expressions

    fn expr(&mut self) -> Read<Expr> {
        let start = self.start();
        let target = self.range()?;
        const ASSIGNS: [&str; 9] = ["=", "+=", "-=", "*=", "/=", "%=", "&=", "|=", "^="];
        if matches!(target.kind, ExprKind::Range(_, None)) {
            return refuse(start, "a range without an end is known as an index only");
        }
        if !ASSIGNS.iter().any(|sign| self.is(sign)) {
            return Ok(target);
        }
        self.at += 1;
        let value = self.range()?;
        let kind = ExprKind::Assign(Box::new(target), Box::new(value));
        Ok(Expr { span: self.since(start), kind })
    }

    fn range(&mut self) -> Read<Expr> {
        let start = self.start();
        let low = if self.is("..") || self.is("..=") { None } else { Some(Box::new(self.binary(0)?)) };
        let last = self.take("..=");
        if !(last || self.take("..")) {
            return Ok(*low.expect("no range"));
        }
        let open = !last && (self.is("]") || self.is(")") || self.is("{"));
        let high = if open { None } else { Some(Box::new(self.binary(0)?)) };
        Ok(Expr { span: self.since(start), kind: ExprKind::Range(low, high) })
    }

    /// Two operands and the sign between; the signs bind more tightly from row to row.
    fn binary(&mut self, row: usize) -> Read<Expr> {
        if row == ROWS.len() {
            return self.cast();
        }
        let start = self.start();
        let mut left = self.binary(row + 1)?;
        while ROWS[row].iter().any(|sign| self.is(sign)) {
            self.at += 1;
            let right = self.binary(row + 1)?;
            let kind = ExprKind::Binary(Box::new(left), Box::new(right));
            left = Expr { span: self.since(start), kind };
        }
        Ok(left)
    }

    fn cast(&mut self) -> Read<Expr> {
        let start = self.start();
        let mut value = self.before()?;
        while self.take("as") {
            let ty = self.ty()?;
            let TypeKind::Named(path) = &ty.kind else { return refuse(ty.span.start, "only casts to numbers are known") };
            if !NUMBERS.contains(&path.join("::").as_str()) {
                return refuse(ty.span.start, "only casts to numbers are known");
            }
            value = Expr { span: self.since(start), kind: ExprKind::Cast(Box::new(value), ty) };
        }
        Ok(value)
    }

    fn before(&mut self) -> Read<Expr> {
        let start = self.start();
        let sign = match self.word() {
            "&" if self.ahead(1, "mut") => {
                self.at += 1;
                "&mut "
            }
            "&" => "&",
            "-" => "-",
            "!" => "!",
            "*" => "*",
            _ => return self.behind(),
        };
        self.at += 1;
        let value = self.before()?;
        Ok(Expr { span: self.since(start), kind: ExprKind::Before(sign, Box::new(value)) })
    }

    /// A thing and what follows it: calls, fields, methods, indexes, `?`.
    fn behind(&mut self) -> Read<Expr> {
        let start = self.start();
        let mut value = self.thing()?;
        loop {
            let kind = if self.take("(") {
                if !matches!(value.kind, ExprKind::Path(_)) {
                    return refuse(value.span.start, "only functions that are named are known in calls");
                }
                let closures = matches!(&value.kind, ExprKind::Path(path) if path[path.len() - 1] == known::TAKES_CLOSURE);
                ExprKind::Call(Box::new(value), self.values(closures)?)
            } else if self.take("?") {
                ExprKind::Try(Box::new(value))
            } else if self.take("[") {
                let place = self.open(Self::range)?;
                self.want("]")?;
                ExprKind::Index(Box::new(value), Box::new(place))
            } else if self.take(".") {
                self.member(value)?
            } else {
                return Ok(value);
            };
            value = Expr { span: self.since(start), kind };
        }
    }

    /// A field by its name, or of a tuple by its number; or a method.
    fn member(&mut self, value: Expr) -> Read<ExprKind> {
        let numbered = self.token().kind == Kind::Number && self.word().chars().all(|c| c.is_ascii_digit());
        if numbered && !matches!(value.kind, ExprKind::Literal) {
            self.at += 1;
            return Ok(ExprKind::Field(Box::new(value)));
        }
        let (of, at) = (Box::new(value), self.start());
        let name = self.name()?;
        let typed = name == "sum" && self.take("::");
        let ty = if typed { self.angles(1)?.pop() } else { None };
        if !typed && !self.is("(") {
            return Ok(ExprKind::Field(of));
        }
        self.want("(")?;
        let all = self.values(known::takes_closure(&name))?;
        Ok(ExprKind::Method(Method { of, name, at, ty, all }))
    }

    /// What a function or a method is handed; closures only where they are known.
    fn values(&mut self, closures: bool) -> Read<Vec<Expr>> {
        self.open(|parser| parser.list(")", |parser| if closures && parser.is("|") { parser.closure() } else { parser.expr() }))
    }

    fn closure(&mut self) -> Read<Expr> {
        let start = self.start();
        self.want("|")?;
        let params = self.list("|", |parser| {
            let pattern = parser.one_pattern()?;
            Ok((pattern, if parser.take(":") { Some(parser.ty()?) } else { None }))
        })?;
        let value = Box::new(self.expr()?);
        Ok(Expr { span: self.since(start), kind: ExprKind::Closure(params, value) })
    }

    /// Within signs that close, a struct may begin again.
    fn open<T>(&mut self, one: impl FnOnce(&mut Self) -> Read<T>) -> Read<T> {
        let structs = std::mem::replace(&mut self.structs, true);
        let found = one(self);
        self.structs = structs;
        found
    }

    fn listed(&mut self, close: &str) -> Read<Vec<Expr>> {
        self.open(|parser| parser.list(close, Self::expr))
    }

    fn thing(&mut self) -> Read<Expr> {
        let start = self.start();
        let kind = match self.token().kind {
            Kind::Number | Kind::Byte => {
                self.at += 1;
                ExprKind::Literal
            }
            Kind::Text => return self.unknown("a text is not known here"),
            _ => match self.word() {
                "true" | "false" => {
                    self.at += 1;
                    ExprKind::Literal
                }
                "(" => self.brackets()?,
                "[" => self.array()?,
                "{" => ExprKind::Block(self.block()?),
                "if" => self.condition()?,
                "while" => self.repeated()?,
                "for" => self.each()?,
                "match" => self.cases()?,
                "return" => {
                    self.at += 1;
                    let open = self.is(";") || self.is("}");
                    ExprKind::Return(if open { None } else { Some(Box::new(self.expr()?)) })
                }
                _ => self.named()?,
            },
        };
        Ok(Expr { span: self.since(start), kind })
    }

    /// One thing in brackets, or a tuple: of one thing with a comma behind it, and of none.
    fn brackets(&mut self) -> Read<ExprKind> {
        self.at += 1;
        if self.take(")") {
            return Ok(ExprKind::Tuple(Vec::new()));
        }
        let first = self.open(Self::expr)?;
        if !self.take(",") {
            self.want(")")?;
            return Ok(ExprKind::Inner(Box::new(first)));
        }
        let mut all = vec![first];
        all.extend(self.listed(")")?);
        Ok(ExprKind::Tuple(all))
    }

    fn array(&mut self) -> Read<ExprKind> {
        self.at += 1;
        if self.take("]") {
            return Ok(ExprKind::List(Vec::new()));
        }
        let first = self.open(Self::expr)?;
        if self.take(";") {
            let length = self.open(Self::expr)?;
            self.want("]")?;
            return Ok(ExprKind::Repeat(Box::new(first), Box::new(length)));
        }
        let mut all = vec![first];
        if self.take(",") {
            all.extend(self.listed("]")?);
        } else {
            self.want("]")?;
        }
        Ok(ExprKind::List(all))
    }

    /// What stands between `if`, `while`, `for` or `match` and the brace.
    fn head(&mut self) -> Read<Expr> {
        let structs = std::mem::replace(&mut self.structs, false);
        let found = self.range();
        self.structs = structs;
        found
    }

    /// Behind the `let` of `if` and `while`: a pattern and what it is for, which no `&&` goes on with.
    fn bound(&mut self) -> Read<(Pattern, Box<Expr>)> {
        let pattern = self.pattern()?;
        self.want("=")?;
        let structs = std::mem::replace(&mut self.structs, false);
        let value = self.binary(LAZY);
        self.structs = structs;
        Ok((pattern, Box::new(value?)))
    }

    fn repeated(&mut self) -> Read<ExprKind> {
        self.at += 1;
        if self.take("let") {
            let (pattern, value) = self.bound()?;
            return Ok(ExprKind::WhileLet(pattern, value, self.block()?));
        }
        let test = Box::new(self.head()?);
        Ok(ExprKind::While(test, self.block()?))
    }

    fn condition(&mut self) -> Read<ExprKind> {
        self.at += 1;
        if self.take("let") {
            let (pattern, value) = self.bound()?;
            let then = self.block()?;
            return Ok(ExprKind::IfLet(pattern, value, then, self.otherwise()?));
        }
        let test = Box::new(self.head()?);
        let then = self.block()?;
        Ok(ExprKind::If(test, then, self.otherwise()?))
    }

    fn otherwise(&mut self) -> Read<Option<Box<Expr>>> {
        if !self.take("else") {
            return Ok(None);
        }
        if !(self.is("if") || self.is("{")) {
            return self.unknown("'if' or a block is wanted here");
        }
        Ok(Some(Box::new(self.thing()?)))
    }

    fn each(&mut self) -> Read<ExprKind> {
        self.at += 1;
        let pattern = self.one_pattern()?;
        self.want("in")?;
        let over = self.head()?;
        if matches!(over.kind, ExprKind::Range(None, _) | ExprKind::Range(_, None)) {
            return refuse(over.span.start, "a 'for' is known over a range with both ends only");
        }
        Ok(ExprKind::For(pattern, Box::new(over), self.block()?))
    }

    /// What stands behind `if` in an arm.
    fn guard(&mut self) -> Read<Option<Expr>> {
        if self.take("if") { Ok(Some(self.open(Self::expr)?)) } else { Ok(None) }
    }

    /// Behind the name of `matches!`.
    fn matches(&mut self) -> Read<ExprKind> {
        self.want("!")?;
        self.want("(")?;
        let over = self.open(Self::expr)?;
        self.want(",")?;
        let pattern = self.pattern()?;
        let guard = self.guard()?.map(Box::new);
        self.take(",");
        self.want(")")?;
        Ok(ExprKind::Matches(Box::new(over), pattern, guard))
    }

    /// Behind the name of `by_form!`: a name that has a form, and what is done with each.
    fn by_form(&mut self) -> Read<ExprKind> {
        self.want("!")?;
        self.want("(")?;
        let start = self.start();
        let name = self.name()?;
        let form = Expr { span: self.since(start), kind: ExprKind::Path(vec![name]) };
        self.want(",")?;
        let body = self.open(Self::expr)?;
        self.take(",");
        self.want(")")?;
        Ok(ExprKind::ByForm(Box::new(form), Box::new(body)))
    }

    fn cases(&mut self) -> Read<ExprKind> {
        self.at += 1;
        let over = Box::new(self.head()?);
        self.want("{")?;
        let mut arms = Vec::new();
        while !self.take("}") {
            let pattern = self.pattern()?;
            let guard = self.guard()?;
            self.want("=>")?;
            let value = self.open(Self::expr)?;
            let block = matches!(value.kind, ExprKind::Block(_));
            arms.push(Arm { pattern, guard, value });
            if !self.take(",") && !block && !self.is("}") {
                return self.unknown("',' is wanted here");
            }
        }
        Ok(ExprKind::Match(over, arms))
    }

    /// A path, or a struct that begins with one.
    fn named(&mut self) -> Read<ExprKind> {
        let start = self.start();
        if self.is("|") || self.is("||") || self.is("move") {
            return self.unknown("a closure is not known");
        }
        let path = self.path()?;
        if self.is("!") {
            if path[..] == ["matches"] {
                return self.matches();
            }
            if path[..] == [known::BY_FORM] {
                return self.by_form();
            }
            return refuse(start, format!("the macro '{}!' is not known", path.join("::")));
        }
        self.paths.push((path.clone(), start));
        if !(self.structs && self.is("{")) {
            return Ok(ExprKind::Path(path));
        }
        self.at += 1;
        let fields = self.open(|parser| {
            parser.list("}", |parser| {
                let start = parser.start();
                if parser.take("..") {
                    let others = parser.expr()?;
                    return if parser.is("}") { Ok(others) } else { parser.unknown("'}' is wanted here") };
                }
                let name = parser.name()?;
                let alone = Expr { span: parser.since(start), kind: ExprKind::Path(vec![name]) };
                if parser.take(":") { parser.expr() } else { Ok(alone) }
            })
        })?;
        Ok(ExprKind::Struct(path, fields))
    }
}

/// The names that a `derive` lists, in the order in which they are written.
fn derived(list: &str, at: usize) -> Read<Vec<String>> {
    let said: Vec<&str> = list.split(',').map(str::trim).filter(|name| !name.is_empty()).collect();
    if let Some(name) = said.iter().find(|name| **name != "Drop" && !known::DERIVED.contains(name)) {
        return refuse(at, format!("what derives '{name}' is not known"));
    }
    Ok(known::DERIVED.iter().filter(|name| said.contains(name)).map(|name| name.to_string()).collect())
}
