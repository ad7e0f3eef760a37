//! deno_ast's trait of diagnostics.
use std::borrow::Cow;

use crate::ModuleSpecifier;
use crate::positions::SourcePos;
use crate::sources::SourceTextInfo;

#[derive(Debug, Clone, Copy)]
pub enum DiagnosticLevel {
    Error,
    Warning,
}

#[derive(Debug, Clone, Copy)]
pub enum DiagnosticSourcePos {
    SourcePos(SourcePos),
}

pub struct DiagnosticSourceRange {
    pub start: DiagnosticSourcePos,
    pub end: DiagnosticSourcePos,
}

pub enum DiagnosticLocation<'a> {
    ModulePosition {
        specifier: Cow<'a, ModuleSpecifier>,
        text_info: Cow<'a, SourceTextInfo>,
        source_pos: DiagnosticSourcePos,
    },
    Module {
        specifier: Cow<'a, ModuleSpecifier>,
    },
}

pub enum DiagnosticSnippetHighlightStyle {
    Error,
}

pub struct DiagnosticSnippetHighlight<'a> {
    pub style: DiagnosticSnippetHighlightStyle,
    pub range: DiagnosticSourceRange,
    pub description: Option<Cow<'a, str>>,
}

pub struct DiagnosticSnippet<'a> {
    pub source: Cow<'a, SourceTextInfo>,
    pub highlights: Vec<DiagnosticSnippetHighlight<'a>>,
}

pub trait Diagnostic {
    fn level(&self) -> DiagnosticLevel;
    fn code(&self) -> Cow<'_, str>;
    fn message(&self) -> Cow<'_, str>;
    fn location(&self) -> DiagnosticLocation<'_>;
    fn snippet(&self) -> Option<DiagnosticSnippet<'_>>;
    fn hint(&self) -> Option<Cow<'_, str>>;
    fn snippet_fixed(&self) -> Option<DiagnosticSnippet<'_>>;
    fn info(&self) -> Cow<'_, [Cow<'_, str>]>;
    fn docs_url(&self) -> Option<Cow<'_, str>>;
}
