//! The project's profile of the information on a module: the sources of the imports and re-exports of the answered tree. It is not the original's.
use deno_ast::Span;
use serde::{Deserialize, Serialize};

#[derive(Debug, Default, Serialize, Deserialize)]
pub struct StaticSource {
    pub is_export: bool,
    pub range: Span,
    pub specifier: String,
    pub type_only: bool,
}

#[derive(Debug, Default, Serialize, Deserialize)]
pub struct ModuleInfo {
    pub sources: Vec<StaticSource>,
}
