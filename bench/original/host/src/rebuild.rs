//! Builds with one cache, one after the other.
use deno_ast::diagnostics::Diagnostic;
use deno_semver::package::PackageNv;
use serde::Deserialize;
use serde_json::Value;
use std::cell::RefCell;
use std::collections::{BTreeSet, HashMap};

use crate::answers::json_of;
use crate::fast_check::{
    FastCheckCache, FastCheckCacheItem, FastCheckCacheKey, FastCheckCacheModuleItem, FastCheckDiagnostic,
};
use crate::graph::ModuleGraph;
use crate::requests::{Answers, BuildRequest, read};
use crate::{Answer, ModuleSpecifier, fast_check::oracle::fast_insecure_hash};

#[derive(Deserialize)]
struct Run {
    #[serde(default)]
    own_seed: bool,
    #[serde(default)]
    one_key: bool,
    /// Items without modules: of which package, with which entry points, and what they need.
    #[serde(default)]
    items: Vec<(PackageNv, BTreeSet<ModuleSpecifier>, BTreeSet<PackageNv>)>,
    #[serde(default = "once")]
    times: usize,
    builds: Vec<Value>,
}

fn once() -> usize {
    1
}

struct Cache {
    seed: Option<&'static str>,
    one_key: bool,
    stored: RefCell<HashMap<u64, FastCheckCacheItem>>,
    set: RefCell<Vec<(u64, FastCheckCacheItem)>>,
}

/// A cache with the seed that the crate gives one.
struct Plain;

impl FastCheckCache for Plain {
    fn get(&self, _: FastCheckCacheKey) -> Option<FastCheckCacheItem> {
        None
    }

    fn set(&self, _: FastCheckCacheKey, _: FastCheckCacheItem) {}
}

impl Cache {
    fn of(run: &Run) -> Self {
        let cache = Cache {
            seed: run.own_seed.then_some("a seed of its own"),
            one_key: run.one_key,
            stored: RefCell::default(),
            set: RefCell::default(),
        };
        for (nv, entry_points, needs) in &run.items {
            let key = FastCheckCacheKey::build(cache.hash_seed(), nv, entry_points);
            let item = FastCheckCacheItem { dependencies: needs.clone(), modules: vec![] };
            cache.stored.borrow_mut().insert(cache.place(key), item);
        }
        cache
    }

    fn place(&self, key: FastCheckCacheKey) -> u64 {
        if self.one_key { 7 } else { key.as_u64() }
    }
}

impl FastCheckCache for Cache {
    fn hash_seed(&self) -> &'static str {
        self.seed.unwrap_or_else(|| Plain.hash_seed())
    }

    fn get(&self, key: FastCheckCacheKey) -> Option<FastCheckCacheItem> {
        self.stored.borrow().get(&self.place(key)).cloned()
    }

    fn set(&self, key: FastCheckCacheKey, item: FastCheckCacheItem) {
        self.stored.borrow_mut().insert(self.place(key), item.clone());
        self.set.borrow_mut().push((self.place(key), item));
    }
}

/// The numbers of the sources, by the hashes of their texts.
fn numbers_of(graph: &ModuleGraph) -> HashMap<u64, String> {
    let texts = graph.sources().filter_map(|(_, source)| source);
    let numbered = |text: &str| (fast_insecure_hash(text.as_bytes()), text.replace("source ", ""));
    texts.map(|text| numbered(text)).collect()
}

fn told(diagnostics: &[FastCheckDiagnostic]) -> String {
    let one = |each: &FastCheckDiagnostic| format!("{} of {}", each.code(), each.specifier());
    diagnostics.iter().map(one).collect::<Vec<_>>().join(" ")
}

/// The lines of the answers, of which `plain` has those without a cache.
fn answer_lines(answers: &Answers, plain: &Answers) -> Vec<String> {
    let is_plain = |url: &ModuleSpecifier, shown: &Value| {
        plain.iter().any(|(other, answer)| other == url && json_of(answer) == *shown)
    };
    let line = |url: &ModuleSpecifier, what: &str| format!("    answers {url}: {what}");
    let lines = answers.iter().map(|(url, answer)| match answer {
        Err(diagnostics) => line(url, &told(diagnostics)),
        Ok(_) if is_plain(url, &json_of(answer)) => line(url, "the skeleton"),
        Ok(_) => line(url, "another skeleton"),
    });
    lines.collect()
}

fn set_line(key: u64, item: &FastCheckCacheItem, numbers: &HashMap<u64, String>) -> String {
    let mut line = format!("    sets {key}:");
    for nv in &item.dependencies {
        line += &format!(" needs {nv}");
    }
    for (url, module) in &item.modules {
        let kind = match module {
            FastCheckCacheModuleItem::Info(_) => "skeleton",
            FastCheckCacheModuleItem::Diagnostic(_) => "diagnostic",
        };
        let number = numbers.get(&module.source_hash()).map_or("0", String::as_str);
        line += &format!(" {kind} {number} of {url}");
    }
    line
}

fn build_lines(request: &Value, cache: &Cache) -> Result<Vec<String>, String> {
    let plain: BuildRequest = read(request.clone())?;
    let cached: BuildRequest = read(request.clone())?;
    let numbers = numbers_of(&cached.graph);
    let mut lines = vec!["  build".to_string()];
    lines.extend(answer_lines(&cached.answers(Some(cache)), &plain.answers(None)));
    let sets = cache.set.take();
    lines.extend(sets.iter().map(|(key, item)| set_line(*key, item, &numbers)));
    Ok(lines)
}

pub fn rebuild(value: Value) -> Answer {
    let run: Run = read(value)?;
    let cache = Cache::of(&run);
    let mut lines = vec![];
    for request in run.builds.iter().cycle().take(run.builds.len() * run.times) {
        lines.extend(build_lines(request, &cache)?);
    }
    Ok((lines.join("\n"), 0))
}
