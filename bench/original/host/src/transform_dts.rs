//! In place of the writer of declaration files, which is never called: `dts` is left out here.
use deno_ast::SourceTextInfo;
use deno_ast::swc::{ast::Program, common::SyntaxContext};

use super::range_finder::ModulePublicRanges;
use crate::ModuleSpecifier;

#[derive(Debug, Clone)]
pub struct FastCheckDtsDiagnostic;

pub struct FastCheckDtsTransformer {
    pub diagnostics: Vec<FastCheckDtsDiagnostic>,
}

impl FastCheckDtsTransformer {
    pub fn new(_: &SourceTextInfo, _: &ModulePublicRanges, _: &ModuleSpecifier, _: SyntaxContext) -> Self {
        Self { diagnostics: vec![] }
    }

    pub fn transform(&mut self, program: Program) -> Program {
        program
    }
}
