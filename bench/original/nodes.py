"""Writes swc's structs and enums in Rust from forms/forms.txt: with serde's reading and printing, the range of each node, and a visitor.

usage: nodes.py > nodes.rs

What forms.txt does not say is stated here: where swc has a `Box`, and the range of a node that has none of its own. Both are from swc's sources by memory; a
`Box` in a wrong place does not compile with the original, and `node_ranges.py` compares the ranges with those of the front end's trees.
"""
import re
import sys
from pathlib import Path

sys.path.insert(0, str(Path(__file__).resolve().parents[2] / "forms"))
from table import Table  # noqa: E402

TABLE = Path(__file__).resolve().parents[2] / "forms/forms.txt"

# what swc boxes wherever it stands; in a list of statements, and in these variants, it stands itself
BOXED = {"Expr", "TsType", "Stmt", "Function", "Class", "TsTypeAnn", "TsTypeParamDecl", "TsTypeParamInstantiation", "OptChainBase", "BlockStmtOrExpr"}
UNBOXED_IN_LISTS = {"Stmt"}
UNBOXED_IN_CHOICES = {"Stmt", "Class", "Function"}
BOXED_FIELDS = {
    ("AssignPat", "left"), ("RestPat", "arg"), ("KeyValuePatProp", "value"), ("SetterProp", "param"), ("TaggedTpl", "tpl"), ("TsNamespaceDecl", "body"),
    ("ImportDecl", "src"), ("NamedExport", "src"), ("ExportAll", "src"), ("ImportDecl", "with"), ("NamedExport", "with"), ("ExportAll", "with"),
}
BOXED_VARIANTS = {
    ("Decl", "Var"), ("Decl", "Using"), ("Decl", "TsInterface"), ("Decl", "TsTypeAlias"), ("Decl", "TsEnum"), ("Decl", "TsModule"), ("Stmt", "Try"),
    ("DefaultDecl", "TsInterfaceDecl"), ("PropOrSpread", "Prop"), ("TsEntityName", "TsQualifiedName"), ("ForHead", "VarDecl"), ("ForHead", "UsingDecl"),
    ("ForHead", "Pat"), ("VarDeclOrExpr", "VarDecl"), ("AssignTarget", "Pat"), ("AssignTarget", "Simple"),
}
# the ranges of the nodes without one of their own
RANGES = {
    "BindingIdent": "self.id.span()",
    "ClassDecl": "self.class.span()",
    "ClassExpr": "self.class.span()",
    "FnDecl": "self.function.span()",
    "FnExpr": "self.function.span()",
    "ExportDefaultSpecifier": "self.exported.span()",
    "ExprOrSpread": "self.spread.unwrap_or(self.expr.span()).to(self.expr.span())",
    "SpreadElement": "self.dot3_token.to(self.expr.span())",
    "KeyValueProp": "self.key.span().to(self.value.span())",
    "KeyValuePatProp": "self.key.span().to(self.value.span())",
    "MethodProp": "self.key.span().to(self.function.span())",
}
LEAVES = {"flag": "bool", "scope": "SyntaxContext", "text": "Atom", "range": "Span"}
MAY_BE_MISSING = {"flag", "scope", "range"}
WTF8 = {("Str", "value"), ("TplElement", "cooked")}
# swc has the source text beside a value that no rule looks into
OPTIONAL_TEXTS = {("Number", "raw"), ("BigInt", "raw")}
VALUES = {"Number": ("f64", "f64::default"), "BigInt": ("Box<String>", "Box::<String>::default")}
COPIED = {"Bool", "Null", "ThisExpr", "EmptyStmt"}
COUNTED = {"": "{}", "?": "Option<{}>", "*": "Vec<{}>", "?*": "Vec<Option<{}>>", "*?": "Option<Vec<{}>>"}
DERIVED = "#[derive(Debug, Clone, PartialEq, Serialize, Deserialize"
HEAD = """use serde::{Deserialize, Serialize};

use crate::positions::{Atom, Span, Spanned, SyntaxContext, Wtf8Atom};
use crate::visit::{Visit, VisitWith};
"""


def identifier(name):
    return "r#" + name if name in ("type", "static", "in") else name


def snake(name):
    name = re.sub(r"([a-z0-9])([A-Z])", r"\1_\2", name)
    return re.sub(r"([A-Z]+)([A-Z][a-z])", r"\1_\2", name).lower()


def element(form, field):
    """The type of what a field holds, or holds a list of."""
    place = (form.name, field.name)
    if field.type in LEAVES:
        return "Wtf8Atom" if place in WTF8 else LEAVES[field.type]
    is_boxed = field.type in BOXED and not ("*" in field.count and field.type in UNBOXED_IN_LISTS)
    return f"Box<{field.type}>" if is_boxed or place in BOXED_FIELDS else field.type


def field_lines(form, field):
    if "*" in field.count or field.count == "" and field.type in MAY_BE_MISSING:
        yield "    #[serde(default)]"
    count = "?" if (form.name, field.name) in OPTIONAL_TEXTS else field.count
    yield f"    pub {identifier(field.name)}: {COUNTED[count].format(element(form, field))},"


def struct_lines(form):
    yield f"{DERIVED}{', Copy' if form.name in COPIED else ''})]"
    yield f"pub struct {form.name} {{"
    for field in form.fields:
        yield from field_lines(form, field)
    if form.name in VALUES:
        yield '    #[serde(skip, default = "{1}")]\n    pub value: {0},'.format(*VALUES[form.name])
    yield "}"


def range_of(form):
    if any(field.name == "span" for field in form.fields):
        return "self.span"
    if form.name not in RANGES:
        sys.exit(f"nodes.py: nothing says the range of {form.name}")
    return RANGES[form.name]


def visits(form):
    if form.name == "Ident":
        return ["visitor.visit_ident(self);"]
    return [f"self.{identifier(field.name)}.visit_with(visitor);" for field in form.fields if field.type not in LEAVES]


def form_lines(form):
    yield from struct_lines(form)
    yield f"impl Spanned for {form.name} {{ fn span(&self) -> Span {{ {range_of(form)} }} }}"
    yield f"impl<V: Visit + ?Sized> VisitWith<V> for {form.name} {{"
    yield f"    #[allow(unused_variables)] fn visit_with(&self, visitor: &mut V) {{ {' '.join(visits(form))} }}"
    yield "}"


def variant_type(choice, variant, content, marks):
    """What a variant holds. A mark is a box in swc."""
    if content in marks:
        return f"Box<{marks[content].fields[0].type}>"
    is_boxed = content in BOXED and content not in UNBOXED_IN_CHOICES
    return f"Box<{content}>" if is_boxed or (choice.name, variant) in BOXED_VARIANTS else content


def choice_lines(choice, marks):
    variants = [(name, variant_type(choice, name, content, marks)) for name, content in choice.variants]
    arms = lambda text: " ".join(f"{choice.name}::{name}(node) => {text}," for name, _ in variants)
    yield f"{DERIVED})]"
    yield f"pub enum {choice.name} {{ {', '.join(f'{name}({holds})' for name, holds in variants)} }}"
    yield f"impl Spanned for {choice.name} {{ fn span(&self) -> Span {{ match self {{ {arms('node.span()')} }} }} }}"
    yield f"impl<V: Visit + ?Sized> VisitWith<V> for {choice.name} {{"
    yield f"    fn visit_with(&self, visitor: &mut V) {{ match self {{ {arms('node.visit_with(visitor)')} }} }}"
    yield "}"
    yield f"impl {choice.name} {{"
    for name, holds in variants:
        yield f"    pub fn is_{snake(name)}(&self) -> bool {{ matches!(self, {choice.name}::{name}(_)) }}"
        yield f"    #[allow(unreachable_patterns)] pub fn as_{snake(name)}(&self) -> Option<&{holds}> {{"
        yield f"        match self {{ {choice.name}::{name}(node) => Some(node), _ => None }}"
        yield "    }"
    yield "}"


def word_lines(name, words):
    yield "#[derive(Debug, Clone, Copy, PartialEq, Eq, Hash, Serialize, Deserialize)]"
    yield f"pub enum {name} {{ {', '.join(words)} }}"
    yield f"impl<V: Visit + ?Sized> VisitWith<V> for {name} {{ fn visit_with(&self, _: &mut V) {{}} }}"


def main():
    table = Table(TABLE.read_text())
    marks = {form.name: form for form in table.forms.values() if form.mark}
    lines = [HEAD]
    for name, (_, words) in table.words.items():
        lines += word_lines(name, words)
    for form in table.forms.values():
        if not form.mark:
            lines += form_lines(form)
    for choice in table.choices.values():
        lines += choice_lines(choice, marks)
    print("\n".join(lines))


if __name__ == "__main__":
    main()
