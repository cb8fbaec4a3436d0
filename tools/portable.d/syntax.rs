//! The constructs that the translator knows. There are no others: what the parser cannot read as one of these it refuses.
use crate::lexer::Span;

pub struct File {
    /// `#![tactic(auto)]`: what the whole file asks of the prover.
    pub asked: Vec<Span>,
    pub items: Vec<Item>,
    pub comments: Vec<Span>,
}

pub struct Item {
    /// With its attributes and `pub`.
    pub span: Span,
    /// The attributes alone, up to what they stand before.
    pub attributes: Span,
    /// What it derives, as written.
    pub derives: Vec<String>,
    pub public: bool,
    pub kind: ItemKind,
}

pub enum ItemKind {
    Ghost,
    /// The paths of a `use`, one for each name.
    Use(Vec<Vec<String>>),
    Mod(String),
    Const(Const),
    Struct(Struct),
    Enum(Enum),
    Alias(Alias),
    Impl(Impl),
    Macro(Macro),
    Fn(Function),
}

/// Or a static, which is not written either.
pub struct Const {
    pub name: String,
    pub ty: Type,
    pub value: Expr,
}

pub struct Struct {
    pub name: String,
    pub fields: Vec<Field>,
    /// Facts over the fields: members without a value.
    pub ghosts: Vec<Span>,
}

pub struct Field {
    pub span: Span,
    pub ty: Type,
}

/// Another name of a type, which lends nothing.
pub struct Alias {
    pub name: String,
    pub ty: Type,
}

/// `by_form!` where it is declared.
pub struct Macro {
    /// The type of the forms, by its path in the crate.
    pub ty: Vec<String>,
    /// What stands before that type's name wherever an arm says it: `$crate::` and modules.
    pub fronts: Vec<Span>,
}

/// Constants and functions of a type of the same file, or how a type meets a trait.
pub struct Impl {
    pub of: Option<Trait>,
    pub ty: Type,
    pub items: Vec<Item>,
}

/// `From<T>` or `TryFrom<T>`, with what stands in angles.
pub struct Trait {
    pub span: Span,
    pub all: Vec<Type>,
}

pub struct Enum {
    pub name: String,
    pub variants: Vec<Variant>,
}

/// It holds nothing, types, or fields with names.
pub struct Variant {
    pub span: Span,
    pub holds: Vec<Type>,
    pub fields: Vec<Field>,
}

pub struct Function {
    pub name: String,
    /// Exported to C by #[unsafe(no_mangle)]: a front's call.
    pub exported: bool,
    pub lifetime: Option<String>,
    pub params: Vec<Param>,
    pub result: Option<Type>,
    pub contracts: Vec<Span>,
    pub body: Block,
}

/// Of `self`, `&self` and `&mut self` the name is `self`, and the type has the place of the whole.
pub struct Param {
    pub name: String,
    pub ty: Type,
}

pub struct Type {
    pub span: Span,
    pub kind: TypeKind,
}

pub enum TypeKind {
    /// A number, `bool`, or a type by its path; with a lifetime perhaps.
    Named(Vec<String>),
    /// `Option<T>` or `Result<T, E>`.
    Of(Vec<Type>),
    Tuple(Vec<Type>),
    /// Whether it is lent to be changed, and what.
    Lent(bool, Box<Type>),
    Slice(Box<Type>),
    Array(Box<Type>, Box<Expr>),
}

pub struct Block {
    /// With its braces.
    pub span: Span,
    pub statements: Vec<Statement>,
}

pub enum Statement {
    /// Or what the next one asks of the prover.
    Ghost(Span),
    Let(Let),
    Expr(Expr),
}

pub struct Let {
    pub pattern: Pattern,
    pub ty: Option<Type>,
    pub value: Expr,
    pub otherwise: Option<Block>,
}

pub struct Expr {
    pub span: Span,
    pub kind: ExprKind,
}

pub enum ExprKind {
    Literal,
    Path(Vec<String>),
    /// A sign before what it is for: `-`, `!`, `*`, `&`, `&mut `.
    Before(&'static str, Box<Expr>),
    Binary(Box<Expr>, Box<Expr>),
    /// `=` or a sign with it.
    Assign(Box<Expr>, Box<Expr>),
    Cast(Box<Expr>, Type),
    Call(Box<Expr>, Vec<Expr>),
    Method(Method),
    /// `|x| ..`, as what a method or a function is handed.
    Closure(Vec<(Pattern, Option<Type>)>, Box<Expr>),
    /// `?` behind something.
    Try(Box<Expr>),
    Field(Box<Expr>),
    Index(Box<Expr>, Box<Expr>),
    Range(Option<Box<Expr>>, Option<Box<Expr>>),
    Inner(Box<Expr>),
    Tuple(Vec<Expr>),
    List(Vec<Expr>),
    Repeat(Box<Expr>, Box<Expr>),
    /// A struct by its path, with the values of its fields; a field without a value is the value of that name. What stands behind `..` at the end is the last.
    Struct(Vec<String>, Vec<Expr>),
    Block(Block),
    If(Box<Expr>, Block, Option<Box<Expr>>),
    /// `if let`.
    IfLet(Pattern, Box<Expr>, Block, Option<Box<Expr>>),
    While(Box<Expr>, Block),
    /// `while let`.
    WhileLet(Pattern, Box<Expr>, Block),
    For(Pattern, Box<Expr>, Block),
    Match(Box<Expr>, Vec<Arm>),
    /// `matches!(value, pattern if guard)`.
    Matches(Box<Expr>, Pattern, Option<Box<Expr>>),
    /// `by_form!(form, body)`.
    ByForm(Box<Expr>, Box<Expr>),
    Return(Option<Box<Expr>>),
}

/// A call `of.name(all)`, and of `sum` the type perhaps.
pub struct Method {
    pub of: Box<Expr>,
    pub name: String,
    /// Where the name stands.
    pub at: usize,
    pub ty: Option<Type>,
    pub all: Vec<Expr>,
}

pub struct Arm {
    pub pattern: Pattern,
    pub guard: Option<Expr>,
    pub value: Expr,
}

pub struct Pattern {
    pub span: Span,
    pub kind: PatternKind,
}

pub enum PatternKind {
    Any,
    Literal,
    /// A name for what is there.
    Name(String),
    Path(Vec<String>),
    Range(Box<Pattern>, Box<Pattern>),
    Of(Vec<String>, Vec<Pattern>),
    /// A struct, or a variant with named fields, with what its fields are.
    Struct(Vec<String>, Vec<Pattern>),
    /// Or a pattern in brackets.
    Tuple(Vec<Pattern>),
    /// What is behind `&`.
    Lent(Box<Pattern>),
    Or(Vec<Pattern>),
}
