//! A source with its tree.
use serde::{Deserialize, Deserializer};
use std::sync::Arc;

use crate::comments::MultiThreadedComments;
use crate::nodes::{Module, Program, Script};
use crate::positions::SyntaxContext;

#[derive(Debug, Clone, Copy, PartialEq, Eq, Deserialize)]
pub enum MediaType {
    TypeScript,
    Mts,
    Cts,
    Tsx,
    Dts,
    Dmts,
    Dcts,
    JavaScript,
    Mjs,
    Cjs,
    Jsx,
    Unknown,
}

impl MediaType {
    pub fn is_declaration(&self) -> bool {
        matches!(self, Self::Dts | Self::Dmts | Self::Dcts)
    }

    pub fn is_typed(&self) -> bool {
        self.is_declaration() || matches!(self, Self::TypeScript | Self::Mts | Self::Cts | Self::Tsx)
    }
}

#[derive(Debug, Clone)]
pub struct SourceTextInfo(pub Arc<str>);

impl<'de> Deserialize<'de> for SourceTextInfo {
    fn deserialize<D: Deserializer<'de>>(input: D) -> Result<Self, D::Error> {
        String::deserialize(input).map(|text| SourceTextInfo(text.into()))
    }
}

#[derive(Clone, Copy)]
pub enum ProgramRef<'a> {
    Module(&'a Module),
    Script(&'a Script),
}

#[derive(Debug, Deserialize)]
pub struct ParsedSource {
    media_type: MediaType,
    text: SourceTextInfo,
    program: Program,
    comments: MultiThreadedComments,
    #[serde(default)]
    unresolved_context: SyntaxContext,
}

impl ParsedSource {
    pub fn media_type(&self) -> MediaType {
        self.media_type
    }

    pub fn text(&self) -> &Arc<str> {
        &self.text.0
    }

    pub fn text_info_lazy(&self) -> &SourceTextInfo {
        &self.text
    }

    pub fn comments(&self) -> &MultiThreadedComments {
        &self.comments
    }

    pub fn unresolved_context(&self) -> SyntaxContext {
        self.unresolved_context
    }

    pub fn program_ref(&self) -> ProgramRef<'_> {
        match &self.program {
            Program::Module(module) => ProgramRef::Module(module),
            Program::Script(script) => ProgramRef::Script(script),
        }
    }
}
