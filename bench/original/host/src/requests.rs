//! The inputs of the commands.
use deno_ast::SourceRange;
use deno_semver::package::PackageNv;
use serde::Deserialize;
use serde_json::Value;
use std::collections::VecDeque;

use crate::answers::{json_of, json_of_all};
use crate::fast_check::{FastCheckCache, FastCheckDiagnostic, FastCheckModule, TransformOptions, oracle};
use crate::graph::{ModuleGraph, Provider, WorkspaceMember};
use crate::symbols::{AnyModule, EsModuleInfo, RootSymbol};
use crate::{Answer, ModuleSpecifier, fast_check};

#[derive(Deserialize)]
struct TransformRequest {
    graph: ModuleGraph,
    module: EsModuleInfo,
    #[serde(default)]
    ranges: Vec<SourceRange>,
    #[serde(default)]
    impls: Vec<SourceRange>,
    #[serde(default)]
    first: bool,
}

pub fn transform(value: Value) -> Answer {
    let request: TransformRequest = read(value)?;
    let ranges = request.ranges.into_iter().collect();
    let public = oracle::ModulePublicRanges::of(ranges, request.impls.into_iter().collect());
    let options = TransformOptions { workspace_members: &[], should_error_on_first_diagnostic: request.first, dts: false };
    let answer = oracle::transform(&request.graph, &request.module, &public, &options);
    Ok((json_of(&answer).to_string(), i32::from(answer.is_err())))
}

#[derive(Deserialize)]
pub struct BuildRequest {
    pub graph: ModuleGraph,
    #[serde(default)]
    modules: Vec<(ModuleSpecifier, AnyModule)>,
    #[serde(default)]
    aliases: Vec<(ModuleSpecifier, ModuleSpecifier)>,
    #[serde(default)]
    workspace_members: Vec<WorkspaceMember>,
    provider: Provider,
    #[serde(default)]
    pending: Vec<PackageNv>,
    #[serde(default)]
    first: bool,
}

pub type Answers = Vec<(ModuleSpecifier, Result<FastCheckModule, Vec<FastCheckDiagnostic>>)>;

impl BuildRequest {
    pub fn answers(self, cache: Option<&dyn FastCheckCache>) -> Answers {
        let root = RootSymbol::new(self.modules, self.aliases);
        let options = TransformOptions {
            workspace_members: &self.workspace_members,
            should_error_on_first_diagnostic: self.first,
            dts: false,
        };
        let pending = VecDeque::from(self.pending);
        fast_check::build_fast_check_type_graph(cache, &self.provider, &self.graph, &root, pending, &options)
    }
}

pub fn build(value: Value) -> Answer {
    let request: BuildRequest = read(value)?;
    let answers = request.answers(None);
    let is_ok = answers.iter().all(|(_, answer)| answer.is_ok());
    Ok((json_of_all(&answers).to_string(), i32::from(!is_ok)))
}

pub fn read<T: serde::de::DeserializeOwned>(value: Value) -> Result<T, String> {
    serde_json::from_value(value).map_err(|error| format!("bad-form: {error}"))
}
