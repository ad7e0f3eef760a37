//! Names, positions and ranges, of swc and of deno_ast.
use serde::{Deserialize, Serialize};
use std::borrow::Cow;
use std::fmt;
use std::ops::{Deref, DerefMut};
use std::sync::Arc;

use crate::nodes::{BindingIdent, Ident};

#[derive(Debug, Clone, PartialEq, Eq, Hash, PartialOrd, Ord, Serialize, Deserialize)]
#[serde(transparent)]
pub struct Atom(Arc<str>);

impl Deref for Atom {
    type Target = str;

    fn deref(&self) -> &str {
        &self.0
    }
}

impl From<&str> for Atom {
    fn from(text: &str) -> Self {
        Atom(text.into())
    }
}

impl From<String> for Atom {
    fn from(text: String) -> Self {
        Atom(text.into())
    }
}

impl PartialEq<str> for Atom {
    fn eq(&self, other: &str) -> bool {
        &*self.0 == other
    }
}

impl PartialEq<&str> for Atom {
    fn eq(&self, other: &&str) -> bool {
        &*self.0 == *other
    }
}

impl fmt::Display for Atom {
    fn fmt(&self, out: &mut fmt::Formatter<'_>) -> fmt::Result {
        out.write_str(&self.0)
    }
}

/// A text that may have lone surrogates; here it has none.
#[derive(Debug, Clone, PartialEq, Eq, Hash, Serialize, Deserialize)]
#[serde(transparent)]
pub struct Wtf8Atom(Arc<str>);

impl Wtf8Atom {
    pub fn to_string_lossy(&self) -> Cow<'_, str> {
        Cow::Borrowed(&self.0)
    }
}

impl From<&str> for Wtf8Atom {
    fn from(text: &str) -> Self {
        Wtf8Atom(text.into())
    }
}

impl From<String> for Wtf8Atom {
    fn from(text: String) -> Self {
        Wtf8Atom(text.into())
    }
}

#[derive(Debug, Clone, Copy, PartialEq, Eq, Hash, PartialOrd, Ord, Default, Serialize, Deserialize)]
#[serde(transparent)]
pub struct SyntaxContext(pub u32);

impl SyntaxContext {
    pub fn empty() -> Self {
        SyntaxContext(0)
    }
}

pub type Id = (Atom, SyntaxContext);

#[derive(Debug, Clone, Copy, PartialEq, Eq, Hash, PartialOrd, Ord, Default, Serialize, Deserialize)]
#[serde(transparent)]
pub struct BytePos(pub u32);

#[derive(Debug, Clone, Copy, PartialEq, Eq, Hash, Default, Serialize, Deserialize)]
#[serde(from = "(BytePos, BytePos)", into = "(BytePos, BytePos)")]
pub struct Span {
    pub lo: BytePos,
    pub hi: BytePos,
}

pub const DUMMY_SP: Span = Span { lo: BytePos(0), hi: BytePos(0) };

impl Span {
    pub fn to(self, end: Span) -> Span {
        Span { lo: self.lo, hi: end.hi }
    }
}

impl From<(BytePos, BytePos)> for Span {
    fn from((lo, hi): (BytePos, BytePos)) -> Self {
        Span { lo, hi }
    }
}

impl From<Span> for (BytePos, BytePos) {
    fn from(span: Span) -> Self {
        (span.lo, span.hi)
    }
}

#[derive(Debug, Clone, Copy, PartialEq, Eq, Hash, PartialOrd, Ord)]
pub struct SourcePos(u32);

impl SourcePos {
    pub fn as_byte_pos(&self) -> BytePos {
        BytePos(self.0)
    }
}

#[derive(Debug, Clone, Copy, PartialEq, Eq, Hash, Deserialize)]
#[serde(from = "Span")]
pub struct SourceRange {
    pub start: SourcePos,
    pub end: SourcePos,
}

impl SourceRange {
    pub fn contains(&self, other: &SourceRange) -> bool {
        self.start <= other.start && self.end >= other.end
    }
}

impl From<Span> for SourceRange {
    fn from(span: Span) -> Self {
        SourceRange { start: SourcePos(span.lo.0), end: SourcePos(span.hi.0) }
    }
}

impl From<SourceRange> for Span {
    fn from(range: SourceRange) -> Self {
        Span { lo: range.start.as_byte_pos(), hi: range.end.as_byte_pos() }
    }
}

pub trait Spanned {
    fn span(&self) -> Span;
}

impl Spanned for Span {
    fn span(&self) -> Span {
        *self
    }
}

impl<T: Spanned + ?Sized> Spanned for Box<T> {
    fn span(&self) -> Span {
        (**self).span()
    }
}

impl<T: Spanned + ?Sized> Spanned for &T {
    fn span(&self) -> Span {
        (**self).span()
    }
}

impl<T: Spanned> Spanned for Option<T> {
    fn span(&self) -> Span {
        self.as_ref().map_or(DUMMY_SP, Spanned::span)
    }
}

pub trait SourceRangedForSpanned {
    fn range(&self) -> SourceRange;

    fn start(&self) -> SourcePos {
        self.range().start
    }

    fn end(&self) -> SourcePos {
        self.range().end
    }
}

impl<T: Spanned> SourceRangedForSpanned for T {
    fn range(&self) -> SourceRange {
        self.span().into()
    }
}

impl Ident {
    pub fn new(sym: Atom, span: Span, ctxt: SyntaxContext) -> Self {
        Ident { span, ctxt, sym, optional: false }
    }

    pub fn to_id(&self) -> Id {
        (self.sym.clone(), self.ctxt)
    }
}

impl Deref for BindingIdent {
    type Target = Ident;

    fn deref(&self) -> &Ident {
        &self.id
    }
}

impl DerefMut for BindingIdent {
    fn deref_mut(&mut self) -> &mut Ident {
        &mut self.id
    }
}
