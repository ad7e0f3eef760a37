//! What the other two programs have beside the original: which differences are switched on, what they ask of a tree, and which blocks are reached.
use deno_ast::swc::ast::{BlockStmt, Expr, ReturnStmt, Stmt};
use std::cell::{Cell, RefCell};
use std::collections::BTreeSet;
use std::io::Write;

thread_local! {
    static WORDS: Vec<String> = std::env::var("EXPLAIN").unwrap_or_default().split(',').map(String::from).collect();
    static IN_GENERATOR: Cell<bool> = const { Cell::new(false) };
}

/// Whether a difference is switched on.
pub fn on(word: &str) -> bool {
    WORDS.with(|words| words.iter().any(|each| each == word))
}

/// The next body is that of an arrow, which may be a generator in a tree that no parser makes.
pub fn enter_arrow(is_generator: bool) {
    IN_GENERATOR.set(is_generator)
}

pub fn is_generator() -> bool {
    IN_GENERATOR.replace(false)
}

/// The value of the only return of a body, where that is its last statement and the value names a type.
pub fn naming_value(body: &BlockStmt) -> Option<&Expr> {
    let Some(Stmt::Return(ReturnStmt { arg: Some(value), .. })) = body.stmts.last() else {
        return None;
    };
    let is_named = on("single_return") && returns(&body.stmts) == 1 && names_type(value);
    is_named.then_some(value)
}

fn names_type(value: &Expr) -> bool {
    match value {
        Expr::Paren(node) => names_type(&node.expr),
        Expr::TsSatisfies(node) => names_type(&node.expr),
        Expr::Lit(_) | Expr::Tpl(_) | Expr::TsAs(_) | Expr::TsTypeAssertion(_) => true,
        _ => false,
    }
}

fn returns(stmts: &[Stmt]) -> usize {
    stmts.iter().map(returns_of).sum()
}

fn returns_of(stmt: &Stmt) -> usize {
    match stmt {
        Stmt::Return(_) => 1,
        Stmt::Block(node) => returns(&node.stmts),
        Stmt::With(node) => returns_of(&node.body),
        Stmt::Labeled(node) => returns_of(&node.body),
        Stmt::If(node) => returns_of(&node.cons) + node.alt.as_deref().map_or(0, returns_of),
        Stmt::Switch(node) => node.cases.iter().map(|case| returns(&case.cons)).sum(),
        Stmt::Try(node) => {
            let handler = node.handler.as_ref().map_or(0, |handler| returns(&handler.body.stmts));
            let finalizer = node.finalizer.as_ref().map_or(0, |block| returns(&block.stmts));
            returns(&node.block.stmts) + handler + finalizer
        }
        Stmt::While(node) => returns_of(&node.body),
        Stmt::DoWhile(node) => returns_of(&node.body),
        Stmt::For(node) => returns_of(&node.body),
        Stmt::ForIn(node) => returns_of(&node.body),
        Stmt::ForOf(node) => returns_of(&node.body),
        _ => 0,
    }
}

// ---- which blocks are reached, where `build.py --coverage` counts them

thread_local! {
    static REACHED: RefCell<BTreeSet<(&'static str, u32)>> = const { RefCell::new(BTreeSet::new()) };
}

pub fn reached(file: &'static str, line: u32) {
    REACHED.with_borrow_mut(|lines| lines.insert((file, line)));
}

/// At its end the lines that were reached go behind those in the file that COVERED names.
pub struct Covered;

impl Drop for Covered {
    fn drop(&mut self) {
        let Some(file) = std::env::var_os("COVERED") else { return };
        let lines: String = REACHED.take().iter().map(|(file, line)| format!("{file} {line}\n")).collect();
        let opened = std::fs::OpenOptions::new().append(true).create(true).open(file);
        opened.and_then(|mut file| file.write_all(lines.as_bytes())).expect("the lines are written");
    }
}
