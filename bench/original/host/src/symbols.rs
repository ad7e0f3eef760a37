//! `crate::symbols`, of which every answer is a table of the input.
use deno_ast::swc::ast::{AssignExpr, AssignTarget, Class, ClassExpr, ExportAll, Expr, Id, Ident, Invalid, MemberExpr, Str};
use deno_ast::{Atom, DUMMY_SP, ParsedSource, SourceRange, SourceRangedForSpanned, SourceTextInfo, Span, SyntaxContext};
use indexmap::IndexMap;
use serde::Deserialize;
use std::borrow::Cow;
use std::collections::HashMap;
use std::marker::PhantomData;

use crate::ModuleSpecifier;

#[derive(Debug, Clone, Copy, PartialEq, Eq, Hash, Deserialize)]
#[serde(transparent)]
pub struct SymbolId(u32);

#[derive(Debug, Deserialize)]
pub struct Symbol {
    id: SymbolId,
    #[serde(default)]
    parent_id: Option<SymbolId>,
    #[serde(default)]
    is_private_member: bool,
    maybe_name: Option<String>,
    qualified_name: Option<String>,
    #[serde(default, deserialize_with = "in_order")]
    exports: IndexMap<String, SymbolId>,
    #[serde(default)]
    members: Vec<SymbolId>,
    #[serde(default)]
    decls: Vec<SymbolDecl>,
}

fn in_order<'de, D: serde::Deserializer<'de>>(input: D) -> Result<IndexMap<String, SymbolId>, D::Error> {
    Ok(Vec::<(String, SymbolId)>::deserialize(input)?.into_iter().collect())
}

impl Symbol {
    pub fn symbol_id(&self) -> SymbolId {
        self.id
    }

    pub fn parent_id(&self) -> Option<SymbolId> {
        self.parent_id
    }

    pub fn is_private_member(&self) -> bool {
        self.is_private_member
    }

    pub fn maybe_name(&self) -> Option<Cow<'_, str>> {
        self.maybe_name.as_deref().map(Cow::Borrowed)
    }

    pub fn exports(&self) -> &IndexMap<String, SymbolId> {
        &self.exports
    }

    pub fn export(&self, name: &str) -> Option<SymbolId> {
        self.exports.get(name).copied()
    }

    pub fn members(&self) -> &Vec<SymbolId> {
        &self.members
    }

    pub fn decls(&self) -> &[SymbolDecl] {
        &self.decls
    }
}

#[derive(Debug, Deserialize)]
pub struct SymbolDecl {
    #[serde(default = "no_range")]
    pub range: SourceRange,
    pub kind: SymbolDeclKind,
    #[serde(default)]
    value: bool,
    #[serde(default)]
    type_: bool,
    #[serde(default)]
    has_overloads: bool,
    #[serde(default)]
    has_body: bool,
}

fn no_range() -> SourceRange {
    DUMMY_SP.into()
}

impl SymbolDecl {
    pub fn namespaces(&self) -> (bool, bool) {
        (self.value, self.type_)
    }

    pub fn has_overloads(&self) -> bool {
        self.has_overloads
    }

    pub fn has_body(&self) -> bool {
        self.has_body
    }

    pub fn maybe_name(&self) -> Option<Cow<'_, str>> {
        None
    }

    pub fn maybe_node(&self) -> Option<SymbolNodeRef<'_>> {
        match &self.kind {
            SymbolDeclKind::Definition(node) => node.maybe_ref(),
            _ => None,
        }
    }

    pub fn is_class(&self) -> bool {
        self.maybe_node().is_some_and(|node| node.is_class())
    }
}

#[derive(Debug, Deserialize)]
pub enum SymbolDeclKind {
    Target(Id),
    QualifiedTarget(Id, Vec<String>),
    FileRef(FileDep),
    Definition(SymbolNode),
}

#[derive(Debug, Deserialize)]
pub struct FileDep {
    pub specifier: String,
    pub name: FileDepName,
}

#[derive(Debug, Clone, Deserialize)]
pub enum FileDepName {
    Star,
    Name(String),
}

#[derive(Debug, Deserialize)]
#[serde(transparent)]
pub struct SymbolNode(Option<TableNode>);

impl SymbolNode {
    /// The variant that the original's patterns ask for. Where a table has both flags it is that of a class declaration.
    pub fn maybe_ref(&self) -> Option<SymbolNodeRef<'_>> {
        let node = self.0.as_ref()?;
        Some(if node.flags.is_plain_class_decl {
            SymbolNodeRef::ClassDecl(node)
        } else if node.flags.is_default_class_expr {
            SymbolNodeRef::ExportDefaultExpr(node)
        } else {
            SymbolNodeRef::Other(node)
        })
    }
}

#[derive(Debug, Default, Deserialize)]
#[serde(default)]
struct NodeFlags {
    is_class: bool,
    is_member: bool,
    is_function: bool,
    is_ts_namespace: bool,
    is_default_class_expr: bool,
    is_plain_class_decl: bool,
    has_export_keyword: bool,
    deps: Vec<(SymbolNodeDep, ReferenceNamespace)>,
}

/// What a table knows of a node; the original looks into `class` and `expr`.
#[derive(Debug, Deserialize)]
#[serde(from = "NodeFlags")]
pub struct TableNode {
    pub class: TableClass,
    pub expr: Box<Expr>,
    flags: NodeFlags,
}

#[derive(Debug)]
pub struct TableClass {
    pub type_params: Option<()>,
}

impl From<NodeFlags> for TableNode {
    fn from(flags: NodeFlags) -> Self {
        let expr = if flags.is_default_class_expr { empty_class() } else { Expr::Invalid(Invalid { span: DUMMY_SP }) };
        TableNode { class: TableClass { type_params: None }, expr: Box::new(expr), flags }
    }
}

fn empty_class() -> Expr {
    let class = Class {
        span: DUMMY_SP,
        ctxt: SyntaxContext(0),
        decorators: vec![],
        body: vec![],
        super_class: None,
        is_abstract: false,
        type_params: None,
        super_type_params: None,
        implements: vec![],
    };
    Expr::Class(ClassExpr { ident: None, class: Box::new(class) })
}

pub enum ExportDeclRef<'a> {
    Class(&'a TableNode),
    Other,
}

pub enum SymbolNodeRef<'a> {
    ClassDecl(&'a TableNode),
    ExportDecl(&'a TableNode, ExportDeclRef<'a>),
    ExportDefaultExpr(&'a TableNode),
    Other(&'a TableNode),
}

pub enum ResolveDepsMode {
    TypesAndExpressions,
}

#[derive(Debug, Clone, Copy, Deserialize)]
pub enum ReferenceNamespace {
    Value,
    #[serde(rename = "Type_")]
    Type,
    Both,
}

#[derive(Debug, Clone, Deserialize)]
pub enum SymbolNodeDep {
    Id(Id),
    QualifiedId(Id, Vec<String>),
    ImportType(String, Vec<String>),
}

impl<'a> SymbolNodeRef<'a> {
    fn flags(&self) -> &'a NodeFlags {
        match self {
            Self::ClassDecl(node) | Self::ExportDecl(node, _) | Self::ExportDefaultExpr(node) | Self::Other(node) => {
                &node.flags
            }
        }
    }

    pub fn is_class(&self) -> bool {
        self.flags().is_class
    }

    pub fn is_member(&self) -> bool {
        self.flags().is_member
    }

    pub fn is_function(&self) -> bool {
        self.flags().is_function
    }

    pub fn is_ts_namespace(&self) -> bool {
        self.flags().is_ts_namespace
    }

    pub fn has_export_keyword(&self) -> bool {
        self.flags().has_export_keyword
    }

    pub fn deps_with_namespace(&self, _: ResolveDepsMode) -> Vec<(SymbolNodeDep, ReferenceNamespace)> {
        self.flags().deps.clone()
    }
}

#[derive(Deserialize)]
struct ListedTables {
    specifier: ModuleSpecifier,
    source: Option<ParsedSource>,
    #[serde(default)]
    symbols: Vec<Symbol>,
    module_symbol: SymbolId,
    #[serde(default)]
    swc_ids: Vec<(Id, SymbolId)>,
    #[serde(default)]
    re_export_all_nodes: Vec<(Span, String)>,
    #[serde(default)]
    resolved_exports: Vec<(String, ModuleSpecifier)>,
}

/// The tables of a module.
#[derive(Deserialize)]
#[serde(from = "ListedTables")]
pub struct Tables {
    specifier: ModuleSpecifier,
    source: Option<ParsedSource>,
    no_text: SourceTextInfo,
    symbols: HashMap<SymbolId, Symbol>,
    module_symbol: SymbolId,
    swc_ids: HashMap<Id, SymbolId>,
    re_export_all_nodes: Vec<ExportAll>,
    resolved_exports: IndexMap<String, ModuleSpecifier>,
}

fn export_all((span, text): (Span, String)) -> ExportAll {
    let src = Str { span: DUMMY_SP, value: text.as_str().into(), raw: None };
    ExportAll { span, src: Box::new(src), type_only: false, with: None }
}

impl From<ListedTables> for Tables {
    fn from(listed: ListedTables) -> Self {
        Tables {
            specifier: listed.specifier,
            source: listed.source,
            no_text: SourceTextInfo("".into()),
            symbols: listed.symbols.into_iter().map(|symbol| (symbol.id, symbol)).collect(),
            module_symbol: listed.module_symbol,
            swc_ids: listed.swc_ids.into_iter().collect(),
            re_export_all_nodes: listed.re_export_all_nodes.into_iter().map(export_all).collect(),
            resolved_exports: listed.resolved_exports.into_iter().collect(),
        }
    }
}

#[derive(Deserialize)]
#[serde(transparent)]
pub struct EsModuleInfo(Tables);

#[derive(Deserialize)]
#[serde(transparent)]
pub struct JsonModuleInfo(Tables);

impl EsModuleInfo {
    pub fn specifier(&self) -> &ModuleSpecifier {
        &self.0.specifier
    }

    pub fn source(&self) -> &ParsedSource {
        self.0.source.as_ref().expect("a module of a language has a source")
    }

    pub fn symbol_id_from_swc(&self, id: &Id) -> Option<SymbolId> {
        self.0.swc_ids.get(id).copied()
    }

    pub fn symbol_from_swc(&self, id: &Id) -> Option<&Symbol> {
        self.0.symbols.get(&self.symbol_id_from_swc(id)?)
    }
}

#[derive(Deserialize)]
pub enum AnyModule {
    Esm(EsModuleInfo),
    Json(JsonModuleInfo),
}

impl AnyModule {
    fn lend(&self) -> ModuleInfoRef<'_> {
        match self {
            AnyModule::Esm(module) => ModuleInfoRef::Esm(module),
            AnyModule::Json(module) => ModuleInfoRef::Json(module),
        }
    }
}

#[derive(Clone, Copy)]
pub enum ModuleInfoRef<'a> {
    Esm(&'a EsModuleInfo),
    Json(&'a JsonModuleInfo),
}

impl<'a> ModuleInfoRef<'a> {
    fn tables(&self) -> &'a Tables {
        match self {
            Self::Esm(module) => &module.0,
            Self::Json(module) => &module.0,
        }
    }

    pub fn esm(&self) -> Option<&'a EsModuleInfo> {
        match self {
            Self::Esm(module) => Some(module),
            Self::Json(_) => None,
        }
    }

    pub fn specifier(&self) -> &'a ModuleSpecifier {
        &self.tables().specifier
    }

    pub fn text_info(&self) -> &'a SourceTextInfo {
        let tables = self.tables();
        tables.source.as_ref().map_or(&tables.no_text, ParsedSource::text_info_lazy)
    }

    pub fn module_symbol(&self) -> &'a Symbol {
        &self.tables().symbols[&self.tables().module_symbol]
    }

    pub fn symbol(&self, id: SymbolId) -> Option<&'a Symbol> {
        self.tables().symbols.get(&id)
    }

    pub fn re_export_all_nodes(&self) -> Option<std::slice::Iter<'a, ExportAll>> {
        Some(self.tables().re_export_all_nodes.iter())
    }

    pub fn fully_qualified_symbol_name(&self, symbol: &Symbol) -> Option<String> {
        symbol.qualified_name.clone()
    }

    pub fn exports(&self, _: &RootSymbol) -> ModuleExports<'a> {
        let export = |url| ResolvedExportOrReExportAllPath::Export(ResolvedExport { module: AnsweringModule(url) });
        let resolved = self.tables().resolved_exports.iter();
        ModuleExports { resolved: resolved.map(|(name, url)| (name.clone(), export(url))).collect() }
    }
}

#[derive(Clone, Copy)]
pub struct AnsweringModule<'a>(&'a ModuleSpecifier);

impl<'a> AnsweringModule<'a> {
    pub fn specifier(&self) -> &'a ModuleSpecifier {
        self.0
    }
}

pub struct ResolvedExport<'a> {
    pub module: AnsweringModule<'a>,
}

pub struct ReExportAllPath<'a> {
    pub referrer_module: AnsweringModule<'a>,
}

pub enum ResolvedExportOrReExportAllPath<'a> {
    Export(ResolvedExport<'a>),
    ReExportAllPath(ReExportAllPath<'a>),
}

pub struct ModuleExports<'a> {
    pub resolved: IndexMap<String, ResolvedExportOrReExportAllPath<'a>>,
}

pub struct RootSymbol<'a> {
    modules: HashMap<ModuleSpecifier, AnyModule>,
    aliases: HashMap<ModuleSpecifier, ModuleSpecifier>,
    phantom: PhantomData<&'a ()>,
}

impl RootSymbol<'_> {
    pub fn new(
        modules: Vec<(ModuleSpecifier, AnyModule)>,
        aliases: Vec<(ModuleSpecifier, ModuleSpecifier)>,
    ) -> Self {
        let modules = modules.into_iter().collect();
        RootSymbol { modules, aliases: aliases.into_iter().collect(), phantom: PhantomData }
    }

    pub fn module_from_specifier(&self, specifier: &ModuleSpecifier) -> Option<ModuleInfoRef<'_>> {
        let by_alias = || self.modules.get(self.aliases.get(specifier)?);
        self.modules.get(specifier).or_else(by_alias).map(AnyModule::lend)
    }
}

/// The assignment `object.name = value` with plain identifiers.
pub struct ExpandoPropertyRef<'a>(&'a MemberExpr);

impl<'a> ExpandoPropertyRef<'a> {
    pub fn maybe_new(node: &'a AssignExpr) -> Option<Self> {
        let AssignTarget::Simple(target) = &node.left else {
            return None;
        };
        let member = target.as_member()?;
        let is_expando = &*node.op == "=" && member.obj.is_ident() && member.prop.is_ident();
        is_expando.then_some(Self(member))
    }

    pub fn member_expr(&self) -> &'a MemberExpr {
        self.0
    }

    pub fn obj_ident(&self) -> &'a Ident {
        self.0.obj.as_ident().expect("the object is an identifier")
    }

    pub fn prop_name(&self) -> &'a Atom {
        &self.0.prop.as_ident().expect("the property is a name").sym
    }

    pub fn prop_name_range(&self) -> SourceRange {
        self.0.prop.range()
    }
}
