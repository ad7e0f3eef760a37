"""What is changed in the copy of the original. A change names a line of the crate, and puts lines before, behind or in place of it; no more of the crate is
quoted. `NEEDED` has what `original` is compiled with, and changes no answer but the order of packages; `DIFFERENCES` what `explain` has besides:
each difference that docs/DIFFERENCES.md lists and that a run can show, switched on by its word in the variable EXPLAIN.
"""
import re
import sys


class Change:
    """At a line: the nth that reads so, behind the first one that reads as `behind`. Without a line, at the end of the file."""

    def __init__(self, file, line=None, before="", after="", instead=None, behind=None, nth=1):
        self.file, self.line, self.before, self.after, self.instead = file, line, before, after, instead
        self.behind, self.nth = behind, nth

    def apply(self, lines):
        if self.line is None:
            return [*lines, self.after]
        at = self.place(lines)
        return [*lines[:at], self.before, lines[at] if self.instead is None else self.instead, self.after, *lines[at + 1:]]

    def place(self, lines):
        plain = [line.split(COUNTS)[0].strip() for line in lines]
        start = [place for place, line in enumerate(plain) if self.behind in (None, line)][:1]
        found = [place for place in range(start[0], len(plain)) if plain[place] == self.line] if start else []
        if len(found) < self.nth:
            sys.exit(f"patches.py: {self.file} has no such line: {self.line}")
        return found[self.nth - 1]


class Patch:
    def __init__(self, name, reason, *changes):
        self.name, self.reason, self.changes = name, reason, changes


COUNTS = " crate::explain::reached"
# the lines behind which a block of statements begins
BLOCKS = re.compile(r"(.*(=>|else)|(} else )?if .*|(for|while) .*|loop|) ?\{")


def counted(name, text):
    """The text of a file in which each block says that it is reached, by the line that it begins at."""
    found = []
    for number, line in enumerate(text.split("\n"), 1):
        is_block = BLOCKS.fullmatch(line.strip()) and line.count("(") == line.count(")") and not line.strip().startswith("//")
        found.append(f'{line}{COUNTS}("{name}", {number});' if is_block else line)
    return "\n".join(found)


def apply(patches, folder):
    """Changes the copy in a folder."""
    for change in [change for patch in patches for change in patch.changes]:
        file = folder / change.file
        file.write_text("\n".join(change.apply(file.read_text().split("\n"))))


NEEDED = [
    Patch("ranges", "the ranges of a module come from an input, and their fields are private", Change("range_finder.rs", after="""
impl ModulePublicRanges {
  pub fn of(ranges: HashSet<SourceRange>, impl_with_overload_ranges: HashSet<SourceRange>) -> Self {
    Self { ranges, impl_with_overload_ranges, diagnostics: vec![] }
  }
}
""")),
    Patch("names", "`transform`, the ranges and the hash of a source are private", Change("mod.rs", after="""
pub(crate) mod oracle {
  pub(crate) use super::cache::fast_insecure_hash;
  pub use super::range_finder::ModulePublicRanges;
  pub use super::transform::transform;
}
""")),
    Patch("order", "packages come in the order of a hash map there and in their own order here; so do the modules of a package", Change(
        "mod.rs", "for (nv, package) in public_modules {", before="""
  let public_modules: std::collections::BTreeMap<_, _> = public_modules
    .into_iter()
    .map(|(nv, mut package)| { package.module_ranges.sort_keys(); (nv, package) })
    .collect();""")),
]

DIFFERENCES = [
    Patch("else_branch", "both branches of `if` are looked at for returns", Change(
        "swc_helpers.rs", "Stmt::If(n) => analyze_return_stmts_from_stmt(&n.cons, analysis),", instead="""
    Stmt::If(n) => {
      analyze_return_stmts_from_stmt(&n.cons, analysis)?;
      match &n.alt {
        Some(alt) if crate::explain::on("else_branch") => analyze_return_stmts_from_stmt(alt, analysis),
        _ => ControlFlow::Continue(()),
      }
    }""")),
    Patch("single_return", "a body whose last statement is its only return names the return type",
          Change("transform.rs", "let analysis = analyze_return_stmts_in_function_body(body);", before="""
    let is_named = !crate::explain::is_generator() && !matches!(function_kind, FunctionKind::Setter);
    if is_named && let Some(named) = self.named_by(body, is_async) {
      *return_type = Some(Box::new(TsTypeAnn { span: DUMMY_SP, type_ann: named }));
      return Ok(());
    }"""),
          Change("transform.rs", "fn promise_wrap_type(&self, ty: Box<TsType>) -> Box<TsType> {", before="""
  fn named_by(&self, body: &BlockStmt, is_async: bool) -> Option<Box<TsType>> {
    let value = crate::explain::naming_value(body)?;
    let named = Box::new(self.maybe_infer_type_from_expr(value, DeclMutabilityKind::Mutable)?);
    Some(if is_async { self.promise_wrap_type(named) } else { named })
  }
"""),
          Change("transform.rs", "BlockStmtOrExpr::BlockStmt(body) => {", after="crate::explain::enter_arrow(n.is_generator);")),
    Patch("faulty_arrow", "the body of an arrow whose return type is missing is hidden, and so is the default of a parameter whose type is missing",
          Change("transform.rs", "if let Some(t) = &n.return_type {", behind="fn transform_arrow(", before="""
    if crate::explain::on("faulty_arrow") && n.return_type.is_none() && let BlockStmtOrExpr::BlockStmt(body) = &mut *n.body {
      body.stmts.clear();
    }"""),
          Change("transform.rs", "if !is_expr_leavable {", behind="fn transform_arrow(", after="""
                if crate::explain::on("faulty_arrow") { *expr = obj_as_never_expr(); }"""),
          *(Change("transform.rs", line, behind="fn handle_param_pat(", nth=nth, after="""
                  if crate::explain::on("faulty_arrow") { assign.right = obj_as_never_expr(); }""")
            for line, nth in (("if !is_expr_leavable {", 1), ("{", 1), ("{", 2), ("Pat::Assign(_) | Pat::Invalid(_) | Pat::Rest(_) | Pat::Expr(_) => {", 1)))),
    Patch("partial_default", "a set of names with `default` in part, and all names but `default` added, answers all names",
          Change("range_finder.rs", 'if current_subset.0.contains_key("default") {', before="""
          let all = crate::explain::on("partial_default")
            && matches!(current_subset.0.get("default"), Some(Exports::Subset(_)));"""),
          Change("range_finder.rs", "Some(ImportedExports::Star)", behind='if current_subset.0.contains_key("default") {',
                 instead="Some(if all { ImportedExports::StarWithDefault } else { ImportedExports::Star })")),
    Patch("nothing_new", "names of which none is new answer None", Change(
        "range_finder.rs", "Some(ImportedExports::Subset(current_subset.extend(new_subset)))", instead="""
          let new = current_subset.extend(new_subset);
          (!crate::explain::on("nothing_new") || !new.0.is_empty()).then_some(ImportedExports::Subset(new))""")),
    Patch("handed_in_once", "a package that is handed in twice is followed once",
          Change("range_finder.rs", "pending_nvs: VecDeque<PackageNv>,", behind="pub fn find_public_ranges<'a>(",
                 instead="mut pending_nvs: VecDeque<PackageNv>,"),
          Change("range_finder.rs", ") -> HashMap<PackageNv, PackagePublicRanges> {", behind="pub fn find_public_ranges<'a>(", after="""
  let mut handed_in = HashSet::new();
  pending_nvs.retain(|nv| handed_in.insert(nv.clone()) || !crate::explain::on("handed_in_once"));""")),
    Patch("nested_javascript", "a module without known types has `UnsupportedNestedJavaScript` where it has no other diagnostic", Change(
        "range_finder.rs", "self.public_ranges", behind="pub fn find(mut self) -> HashMap<PackageNv, PackagePublicRanges> {", before="""
    let modules = self.public_ranges.values_mut().flat_map(|package| package.module_ranges.values_mut());
    for ranges in modules.filter(|_| crate::explain::on("nested_javascript")) {
      let is_nested = |it: &FastCheckDiagnostic| matches!(it, FastCheckDiagnostic::UnsupportedNestedJavaScript { .. });
      if !ranges.diagnostics.iter().all(is_nested) { ranges.diagnostics.retain(|it| !is_nested(it)); }
    }""")),
    Patch("first_referrer", "a private member that several others refer to is reported once in its module", Change(
        "range_finder.rs", "self.public_ranges", behind="pub fn find(mut self) -> HashMap<PackageNv, PackagePublicRanges> {", before="""
    let modules = self.public_ranges.values_mut().flat_map(|package| package.module_ranges.values_mut());
    for ranges in modules.filter(|_| crate::explain::on("first_referrer")) {
      let mut told = HashSet::new();
      ranges.diagnostics.retain(|it| match it {
        FastCheckDiagnostic::UnsupportedPrivateMemberReference { range, .. } => told.insert(range.range),
        _ => true,
      });
    }""")),
    Patch("other_package", "a name that another package answers behind a re-export of all makes that package a dependency, which is entered too", Change(
        "range_finder.rs", "let mut new_named_exports = NamedSubset::default();",
        before='if crate::explain::on("other_package") { self.add_pending_nv(&nv, pkg_nv); }')),
    Patch("member_order", "members that are asked for by several qualified names are found in whatever order",
          Change("range_finder.rs", "for (second_part, next_parts) in next_parts.0 {", before="let all_members = member_symbols.clone();"),
          Change("range_finder.rs", "let member_symbol = member_symbols.find(|s| {",
                 before='if crate::explain::on("member_order") { member_symbols = all_members.clone(); }')),
    Patch("asked_once", "equal demands by a qualified name, from one referrer, are followed once",
          Change("range_finder.rs", "let mut pending_traces = PendingTraces::default();", after="let mut asked_once = HashSet::new();"),
          Change("range_finder.rs", "let mut handled = false;", before="""
          let is_asked = !asked_once.insert((symbol_id, explained_paths(&parts), referrer_id));
          if is_asked && crate::explain::on("asked_once") { continue; }""")),
    Patch("one_path", "the names of one qualified name are demanded as one path, and sets of names are not joined while they wait",
          Change("range_finder.rs", "if let Some(trace) = self.traced_exports.add(specifier, trace) {", after="""
      if crate::explain::on("one_path")
        && let Some((package_nv, exports_to_trace)) = self.pending_traces.0.shift_remove(specifier)
      {
        self.analyze_trace(&PendingTrace { package_nv, specifier: specifier.clone(), exports_to_trace });
      }"""),
          Change("range_finder.rs", "let mut handled = false;", before="""
          let paths = explained_paths(&parts);
          if paths.len() > 1 && crate::explain::on("one_path") {
            for path in paths {
              pending_traces.traces.push_back(PendingIdTrace::QualifiedId {
                symbol_id, parts: NamedSubset::from_parts(&path), referrer_id,
              });
            }
            continue;
          }"""),
          Change("range_finder.rs", "let mut new_parts = parts.clone();", before="""
                if crate::explain::on("one_path") {
                  let own = target_parts.iter().map(|name| NamedSubset::from_parts(&[name.clone()]));
                  for parts in std::iter::once(parts.clone()).chain(own) {
                    pending_traces.traces.push_back(PendingIdTrace::QualifiedId { symbol_id, parts, referrer_id });
                  }
                  continue;
                }"""),
          Change("range_finder.rs", after="""
fn explained_paths(set: &NamedSubset) -> Vec<Vec<String>> {
  let mut paths = vec![];
  for (name, inner) in &set.0 {
    let below = match inner {
      Exports::Subset(subset) if !subset.0.is_empty() => explained_paths(subset),
      _ => vec![vec![]],
    };
    paths.extend(below.into_iter().map(|path| [vec![name.clone()], path].concat()));
  }
  paths.sort();
  paths
}
""")),
    Patch("child_in_each", "a child is followed in each namespace in which it was not demanded before",
          Change("range_finder.rs", "let mut pending_traces = PendingTraces::default();",
                 after="let mut children_done: HashMap<SymbolId, Namespaces> = HashMap::new();"),
          Change("range_finder.rs", "if !pending_traces.done_id_traces.contains_key(&child_id) {", instead="""
            if crate::explain::on("child_in_each") {
              let none = Namespaces::none();
              let asked = pending_traces.done_id_traces.get(&child_id).copied().unwrap_or(none);
              let before = children_done.get(&child_id).copied().unwrap_or(none);
              let namespaces = Namespaces::both().difference(asked).difference(before);
              children_done.insert(child_id, before.union(namespaces));
              if !namespaces.is_empty() {
                let referrer_id = symbol.symbol_id();
                pending_traces.traces.push_back(PendingIdTrace::Id { symbol_id: child_id, referrer_id, namespaces });
              }
            } else if !pending_traces.done_id_traces.contains_key(&child_id) {""")),
    Patch("no_symbol", "an alias whose identifier no symbol is bound to is followed to nothing", *(Change(
        "range_finder.rs", "handled = true;", nth=nth, after="""
                let is_bound = module_info.esm().and_then(|m| m.symbol_id_from_swc(id)).is_some();
                if !is_bound && crate::explain::on("no_symbol") { continue; }""") for nth in (1, 2))),
    Patch("kept_needs", "the packages that an item depends on are kept as dependencies of its package",
          Change("range_finder.rs", "for dep in cache_item.dependencies {", before="let needs = cache_item.dependencies.clone();"),
          Change("range_finder.rs", "let mut package = PackagePublicRanges::default();",
                 after='if crate::explain::on("kept_needs") { package.dependencies = needs; }')),
    Patch("kept_findings", "what was found before an item without modules was used stays", Change(
        "range_finder.rs", "self.public_ranges.insert(nv, public_ranges);", before="""
          if crate::explain::on("kept_findings") && let Some(found) = self.public_ranges.remove(&nv) {
            public_ranges.module_ranges = found.module_ranges;
            public_ranges.dependencies.extend(found.dependencies);
          }""")),
]
