//! Visits every block, expression, pattern and type below a function's body or a constant.
use crate::syntax::*;

/// What stands anywhere in the code.
#[derive(Clone, Copy)]
pub enum Node<'a> {
    Block(&'a Block),
    Expr(&'a Expr),
    Pattern(&'a Pattern),
    Type(&'a Type),
    Let(&'a Let),
}

pub type Visit<'v, 'a> = &'v mut dyn FnMut(Node<'a>);

pub fn item<'a>(item: &'a Item, visit: Visit<'_, 'a>) {
    match &item.kind {
        ItemKind::Ghost | ItemKind::Use(_) | ItemKind::Mod(_) | ItemKind::Macro(_) => {}
        ItemKind::Const(constant) => {
            ty(&constant.ty, visit);
            expr(&constant.value, visit);
        }
        ItemKind::Struct(structure) => structure.fields.iter().for_each(|field| ty(&field.ty, visit)),
        ItemKind::Enum(enumeration) => enumeration.variants.iter().flat_map(held).for_each(|held| ty(held, visit)),
        ItemKind::Alias(alias) => ty(&alias.ty, visit),
        ItemKind::Impl(block) => {
            head(block, visit);
            block.items.iter().for_each(|inner| self::item(inner, visit));
        }
        ItemKind::Fn(function) => {
            function.params.iter().for_each(|param| ty(&param.ty, visit));
            function.result.iter().for_each(|result| ty(result, visit));
            block(&function.body, visit);
        }
    }
}

/// The types at the head of an `impl`.
pub fn head<'a>(this: &'a Impl, visit: Visit<'_, 'a>) {
    this.of.iter().flat_map(|of| &of.all).for_each(|one| ty(one, visit));
    ty(&this.ty, visit);
}

/// The types that a variant holds.
pub fn held(variant: &Variant) -> impl Iterator<Item = &Type> {
    variant.holds.iter().chain(variant.fields.iter().map(|field| &field.ty))
}

pub fn ty<'a>(this: &'a Type, visit: Visit<'_, 'a>) {
    visit(Node::Type(this));
    match &this.kind {
        TypeKind::Named(_) => {}
        TypeKind::Of(all) | TypeKind::Tuple(all) => all.iter().for_each(|one| ty(one, visit)),
        TypeKind::Lent(_, of) | TypeKind::Slice(of) => ty(of, visit),
        TypeKind::Array(of, length) => {
            ty(of, visit);
            expr(length, visit);
        }
    }
}

/// Whether a type, or one that it is made of, is such a one.
pub fn any_type(this: &Type, is: impl Fn(&TypeKind) -> bool) -> bool {
    let mut found = false;
    ty(this, &mut |node| {
        if let Node::Type(one) = node {
            found |= is(&one.kind);
        }
    });
    found
}

pub fn pattern<'a>(this: &'a Pattern, visit: Visit<'_, 'a>) {
    visit(Node::Pattern(this));
    match &this.kind {
        PatternKind::Any | PatternKind::Literal | PatternKind::Name(_) | PatternKind::Path(_) => {}
        PatternKind::Lent(of) => pattern(of, visit),
        PatternKind::Range(low, high) => {
            pattern(low, visit);
            pattern(high, visit);
        }
        PatternKind::Of(_, inner) | PatternKind::Struct(_, inner) | PatternKind::Tuple(inner) | PatternKind::Or(inner) => {
            inner.iter().for_each(|one| pattern(one, visit))
        }
    }
}

pub fn block<'a>(this: &'a Block, visit: Visit<'_, 'a>) {
    visit(Node::Block(this));
    for statement in &this.statements {
        match statement {
            Statement::Ghost(_) => {}
            Statement::Let(bound) => {
                visit(Node::Let(bound));
                pattern(&bound.pattern, visit);
                bound.ty.iter().for_each(|of| ty(of, visit));
                expr(&bound.value, visit);
                bound.otherwise.iter().for_each(|inner| block(inner, visit));
            }
            Statement::Expr(value) => expr(value, visit),
        }
    }
}

pub fn expr<'a>(this: &'a Expr, visit: Visit<'_, 'a>) {
    visit(Node::Expr(this));
    match &this.kind {
        ExprKind::Literal | ExprKind::Path(_) => {}
        ExprKind::Before(_, one) | ExprKind::Try(one) | ExprKind::Field(one) | ExprKind::Inner(one) => expr(one, visit),
        ExprKind::Binary(one, two)
        | ExprKind::Assign(one, two)
        | ExprKind::Index(one, two)
        | ExprKind::Repeat(one, two)
        | ExprKind::ByForm(one, two) => {
            expr(one, visit);
            expr(two, visit);
        }
        ExprKind::Cast(one, to) => {
            expr(one, visit);
            ty(to, visit);
        }
        ExprKind::Call(callee, all) => {
            expr(callee, visit);
            all.iter().for_each(|one| expr(one, visit));
        }
        ExprKind::Method(method) => {
            expr(&method.of, visit);
            method.ty.iter().for_each(|of| ty(of, visit));
            method.all.iter().for_each(|one| expr(one, visit));
        }
        ExprKind::Closure(params, value) => {
            for (bound, of) in params {
                pattern(bound, visit);
                of.iter().for_each(|of| ty(of, visit));
            }
            expr(value, visit);
        }
        ExprKind::Range(low, high) => {
            low.iter().for_each(|one| expr(one, visit));
            high.iter().for_each(|one| expr(one, visit));
        }
        ExprKind::Tuple(all) | ExprKind::List(all) | ExprKind::Struct(_, all) => all.iter().for_each(|one| expr(one, visit)),
        ExprKind::Block(inner) => block(inner, visit),
        ExprKind::If(test, then, otherwise) => {
            expr(test, visit);
            block(then, visit);
            otherwise.iter().for_each(|one| expr(one, visit));
        }
        ExprKind::IfLet(bound, value, then, otherwise) => {
            pattern(bound, visit);
            expr(value, visit);
            block(then, visit);
            otherwise.iter().for_each(|one| expr(one, visit));
        }
        ExprKind::While(test, body) => {
            expr(test, visit);
            block(body, visit);
        }
        ExprKind::WhileLet(bound, over, body) | ExprKind::For(bound, over, body) => {
            pattern(bound, visit);
            expr(over, visit);
            block(body, visit);
        }
        ExprKind::Match(over, arms) => {
            expr(over, visit);
            for arm in arms {
                pattern(&arm.pattern, visit);
                arm.guard.iter().for_each(|guard| expr(guard, visit));
                expr(&arm.value, visit);
            }
        }
        ExprKind::Matches(over, bound, guard) => {
            expr(over, visit);
            pattern(bound, visit);
            guard.iter().for_each(|guard| expr(guard, visit));
        }
        ExprKind::Return(value) => value.iter().for_each(|one| expr(one, visit)),
    }
}
