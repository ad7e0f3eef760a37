//! In place of the emitter: the text is the JSON of the comments and of the tree, with a zero byte between them.
use std::fmt;

use crate::ModuleSpecifier;
use crate::comments::SingleThreadedComments;
use crate::sources::ProgramRef;

pub struct SourceMap;

impl SourceMap {
    pub fn single(_: ModuleSpecifier, _: String) -> Self {
        SourceMap
    }
}

pub enum SourceMapOption {
    Separate,
}

pub struct EmitOptions {
    pub remove_comments: bool,
    pub source_map: SourceMapOption,
    pub source_map_base: Option<()>,
    pub source_map_file: Option<()>,
    pub inline_sources: bool,
}

pub struct EmittedSource {
    pub text: String,
    pub source_map: Option<String>,
}

#[derive(Debug)]
pub struct EmitError;

impl fmt::Display for EmitError {
    fn fmt(&self, out: &mut fmt::Formatter<'_>) -> fmt::Result {
        out.write_str("none")
    }
}

pub fn emit(
    program: ProgramRef,
    comments: &SingleThreadedComments,
    _: &SourceMap,
    _: &EmitOptions,
) -> Result<EmittedSource, EmitError> {
    // A JSON value has its members in order.
    let tree = match program {
        ProgramRef::Module(module) => serde_json::to_value(module),
        ProgramRef::Script(script) => serde_json::to_value(script),
    };
    let comments = serde_json::to_value(comments.listed()).map_err(|_| EmitError)?;
    let text = format!("{comments}\0{}", tree.map_err(|_| EmitError)?);
    Ok(EmittedSource { text, source_map: Some(String::new()) })
}
