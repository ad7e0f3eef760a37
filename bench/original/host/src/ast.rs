//! The analysis of an answered tree.
use deno_ast::swc::ast::{ModuleDecl, ModuleItem, Str};
use deno_ast::{MediaType, MultiThreadedComments, ProgramRef, SourceTextInfo};

use crate::analysis::{ModuleInfo, StaticSource};

pub struct ParserModuleAnalyzer;

impl ParserModuleAnalyzer {
    pub fn module_info_from_swc(
        _: MediaType,
        program: ProgramRef,
        _: &SourceTextInfo,
        _: &MultiThreadedComments,
    ) -> ModuleInfo {
        let ProgramRef::Module(module) = program else {
            return ModuleInfo::default();
        };
        ModuleInfo { sources: module.body.iter().filter_map(source_of).collect() }
    }
}

fn source_of(item: &ModuleItem) -> Option<StaticSource> {
    let ModuleItem::ModuleDecl(item) = item else {
        return None;
    };
    match item {
        ModuleDecl::Import(node) => Some(static_source(&node.src, false, node.type_only)),
        ModuleDecl::ExportNamed(node) => node.src.as_ref().map(|src| static_source(src, true, node.type_only)),
        ModuleDecl::ExportAll(node) => Some(static_source(&node.src, true, node.type_only)),
        _ => None,
    }
}

fn static_source(src: &Str, is_export: bool, type_only: bool) -> StaticSource {
    StaticSource { is_export, range: src.span, specifier: src.value.to_string_lossy().into_owned(), type_only }
}
