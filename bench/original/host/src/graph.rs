//! The graph, the workspace and the provider of URLs, as an input lists them.
use deno_semver::Version;
use deno_semver::package::PackageNv;
use indexmap::IndexMap;
use serde::Deserialize;
use std::collections::HashMap;
use std::sync::Arc;

use crate::source::JsrUrlProvider;
use crate::{MediaType, ModuleSpecifier};

/// The source of a module: a text of its own for each hash, none for 0.
type Source = Option<Arc<str>>;

fn source_of(hash: u64) -> Source {
    (hash != 0).then(|| format!("source {hash}").into())
}

#[derive(Deserialize)]
#[serde(from = "ListedJs")]
pub struct JsModule {
    pub media_type: MediaType,
    pub maybe_types_dependency: Option<()>,
    source: Source,
}

#[derive(Deserialize)]
struct ListedJs {
    media_type: MediaType,
    #[serde(default)]
    has_types_dependency: bool,
    #[serde(default)]
    source_hash: u64,
}

impl From<ListedJs> for JsModule {
    fn from(listed: ListedJs) -> Self {
        let maybe_types_dependency = listed.has_types_dependency.then_some(());
        JsModule { media_type: listed.media_type, maybe_types_dependency, source: source_of(listed.source_hash) }
    }
}

#[derive(Deserialize)]
#[serde(from = "Option<ListedData>")]
pub struct DataModule(Source);

#[derive(Default, Deserialize)]
struct ListedData {
    #[serde(default)]
    source_hash: u64,
}

impl From<Option<ListedData>> for DataModule {
    fn from(listed: Option<ListedData>) -> Self {
        DataModule(source_of(listed.unwrap_or_default().source_hash))
    }
}

#[derive(Deserialize)]
#[serde(from = "ListedModule")]
pub enum Module {
    Js(JsModule),
    Json(DataModule),
    Wasm(DataModule),
    Npm(()),
    Node(()),
    External(()),
}

impl Module {
    pub fn source(&self) -> Option<&Arc<str>> {
        match self {
            Module::Js(module) => module.source.as_ref(),
            Module::Json(module) | Module::Wasm(module) => module.0.as_ref(),
            Module::Npm(()) | Module::Node(()) | Module::External(()) => None,
        }
    }
}

#[derive(Deserialize)]
enum ListedModule {
    Js(JsModule),
    Json(DataModule),
    Wasm(DataModule),
    Npm,
    Node,
    External,
}

impl From<ListedModule> for Module {
    fn from(listed: ListedModule) -> Self {
        match listed {
            ListedModule::Js(module) => Module::Js(module),
            ListedModule::Json(module) => Module::Json(module),
            ListedModule::Wasm(module) => Module::Wasm(module),
            ListedModule::Npm => Module::Npm(()),
            ListedModule::Node => Module::Node(()),
            ListedModule::External => Module::External(()),
        }
    }
}

pub type Exports = IndexMap<String, String>;

pub struct Packages(HashMap<PackageNv, Exports>);

impl Packages {
    pub fn package_exports(&self, nv: &PackageNv) -> Option<&Exports> {
        self.0.get(nv)
    }
}

#[derive(Deserialize)]
#[serde(from = "ListedGraph")]
pub struct ModuleGraph {
    modules: HashMap<ModuleSpecifier, Module>,
    resolutions: HashMap<(ModuleSpecifier, String), ModuleSpecifier>,
    pub packages: Packages,
}

impl ModuleGraph {
    pub fn get(&self, specifier: &ModuleSpecifier) -> Option<&Module> {
        self.modules.get(specifier)
    }

    /// The URLs of all modules and their sources.
    pub fn sources(&self) -> impl Iterator<Item = (&ModuleSpecifier, Option<&Arc<str>>)> {
        self.modules.iter().map(|(specifier, module)| (specifier, module.source()))
    }

    pub fn resolve_dependency(&self, text: &str, referrer: &ModuleSpecifier, _: bool) -> Option<&ModuleSpecifier> {
        self.resolutions.get(&(referrer.clone(), text.to_string()))
    }
}

#[derive(Default, Deserialize)]
#[serde(default)]
struct ListedGraph {
    modules: Vec<(ModuleSpecifier, Module)>,
    resolutions: Vec<(ModuleSpecifier, String, ModuleSpecifier)>,
    packages: Vec<(PackageNv, Vec<(String, String)>)>,
}

impl From<ListedGraph> for ModuleGraph {
    fn from(listed: ListedGraph) -> Self {
        let resolution = |(referrer, text, url)| ((referrer, text), url);
        let package = |(nv, exports): (PackageNv, Vec<_>)| (nv, exports.into_iter().collect());
        ModuleGraph {
            modules: listed.modules.into_iter().collect(),
            resolutions: listed.resolutions.into_iter().map(resolution).collect(),
            packages: Packages(listed.packages.into_iter().map(package).collect()),
        }
    }
}

#[derive(Deserialize)]
#[serde(from = "ListedMember")]
pub struct WorkspaceMember {
    pub base: ModuleSpecifier,
    pub name: String,
    pub version: Option<Version>,
    pub exports: Exports,
}

impl WorkspaceMember {
    pub fn as_nv(&self) -> PackageNv {
        let version = self.version.clone().unwrap_or(Version::new(0, 0, 0));
        PackageNv { name: self.name.clone(), version }
    }
}

#[derive(Deserialize)]
struct ListedMember {
    base: ModuleSpecifier,
    name: String,
    #[serde(default, deserialize_with = "version_of")]
    version: Option<Version>,
    #[serde(default)]
    exports: Vec<(String, String)>,
}

fn version_of<'de, D: serde::Deserializer<'de>>(input: D) -> Result<Option<Version>, D::Error> {
    let text = Option::<String>::deserialize(input)?;
    text.map(|text| Version::parse(&text).map_err(serde::de::Error::custom)).transpose()
}

impl From<ListedMember> for WorkspaceMember {
    fn from(listed: ListedMember) -> Self {
        let exports = listed.exports.into_iter().collect();
        WorkspaceMember { base: listed.base, name: listed.name, version: listed.version, exports }
    }
}

/// A package is the first whose URL a URL begins with; of entries of one package the last counts alone.
#[derive(Deserialize)]
#[serde(from = "ListedProvider")]
pub struct Provider {
    fallback: ModuleSpecifier,
    packages: Vec<(PackageNv, ModuleSpecifier)>,
}

impl JsrUrlProvider for Provider {
    fn package_url(&self, nv: &PackageNv) -> ModuleSpecifier {
        self.packages.iter().find(|(listed, _)| listed == nv).map_or(&self.fallback, |(_, url)| url).clone()
    }

    fn package_url_to_nv(&self, url: &ModuleSpecifier) -> Option<PackageNv> {
        self.packages.iter().find(|(_, base)| url.as_str().starts_with(base.as_str())).map(|(nv, _)| nv.clone())
    }
}

#[derive(Deserialize)]
struct ListedProvider {
    fallback: ModuleSpecifier,
    #[serde(default)]
    packages: Vec<(PackageNv, ModuleSpecifier)>,
}

impl From<ListedProvider> for Provider {
    fn from(listed: ListedProvider) -> Self {
        let mut packages: Vec<(PackageNv, ModuleSpecifier)> = vec![];
        for (nv, url) in listed.packages {
            packages.retain(|(earlier, _)| *earlier != nv);
            packages.push((nv, url));
        }
        Provider { fallback: listed.fallback, packages }
    }
}
