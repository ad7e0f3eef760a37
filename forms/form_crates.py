"""The five crates of forms: code, definitions, and the proofs that are found by a search."""
from layout import WIDTH, brackets, camel, fill, ghost_use, indented, snake, use_list
from table import LEAVES

TAKES = {"flag": "bool", "scope": "SyntaxContext", "text": "T", "range": "SourceRange", None: "N"}
READS = {"flag": ".flag()", "scope": ".context()", "text": ".text()", "range": ".range()", None: ""}
MAKES = {"flag": "Tree::Flag", "scope": "Tree::Context", "text": "Tree::Text", "range": "Tree::Range"}
RESERVED = {"module"}


def maker(form):
    """The definition of the node of a form's fields."""
    name = snake(form.name)
    return name + "'" if name in RESERVED else name


def parameters(form, part, text):
    """The type parameters of a form, with these for its parts and its texts."""
    given = ([part] if form.has(None) else []) + ([text] if form.has("text") else [])
    return "<" + ", ".join(given) + ">" if given else ""


def form_struct(form):
    lines = [f"/// {form.doc}", "#[derive(Drop)]", f"pub struct {form.name}{parameters(form, 'N', 'T')} {{"]
    for field in form.fields:
        if field.doc:
            lines.append(f"    /// {field.doc}")
        lines.append(f"    pub {field.name}: {TAKES[field.leaf]},")
    return lines + ["}"]


def form_reading(form):
    life = "'a" if parameters(form, "N", "T") else "'_"
    values = [f"{field.name}: node.part({place}){READS[field.leaf]}" for place, field in enumerate(form.fields)]
    lines = [
        "    /// The fields of a node.",
        f"    pub fn of(node: Part<{life}>) -> Self",
        f"        ensures {{ Reads{form.name} result (seen node.entry) }}",
        "    {",
    ]
    return lines + indented(struct_literal(f"{form.name} {{ ", values, " }", 8), 8) + ["    }"]


def struct_literal(head, values, tail, indent):
    return brackets(head, values, tail, indent, 18)


def form_making(form):
    names = [field.name for field in form.fields]
    given = " ".join([maker(form)] + ["self." + name for name in names])
    lines = [
        "    /// The node of these fields.",
        "    pub fn into_tree(self, alloc: Global) -> Result<Tree, AllocError>",
    ]
    line = f"        ensures {{ IfOk result (λ tree. tree ≡ {given}) }}"
    if len(line) < 100:
        lines.append(line)
    else:
        lines.append("        ensures { IfOk result (λ tree. tree ≡")
        lines += fill(given.split(" "), 12, 92, first=96)
        lines[-1] += ") }"
    lines.append("    {")
    lines += indented(struct_literal(f"let {form.name} {{ ", names, " } = self;", 8), 8)
    parts = [f"{MAKES[field.leaf]}({field.name})" if field.leaf else field.name for field in form.fields]
    array = lambda indent: brackets("[", parts, "]", indent, 60)
    lines += indented(brackets("Tree::node(", ["alloc", f"Kind::{form.name}", array], ")", 8, 60), 8)
    return lines + ["    }"]


def form_impls(form):
    read, made = parameters(form, "Part<'a>", "&'a str"), parameters(form, "Tree", "Atom")
    lines = [("impl<'a> " if read else "impl ") + form.name + read + " {"] + form_reading(form)
    between = ["}", "", f"impl {form.name}{made} {{"] if read else [""]
    return lines + between + form_making(form) + ["}"]


def form_code(table, file):
    """`src/FILE.rt` of a crate of forms."""
    forms = table.forms_of(file)
    cited = [name for form in forms for name in ("Reads" + form.name, maker(form))]
    lines = [f"//! {file.doc} Each form with its fields by their names.", ""]
    lines += [
        "ghost use Rattle.std.specs.Prelude.{◌≡◌, IfOk};",
        "ghost use Rattle.fast_check_tree_syntax.specs.Part.{seen};",
    ]
    lines += ghost_use(f"Rattle.fast_check_{file.crate}.specs.{camel(file.name)}", cited)
    taken = [
        ("Atom", any(form.has("text") for form in forms)),
        ("Kind", True),
        ("Part", True),
        ("SourceRange", any(form.has("range") for form in forms)),
        ("SyntaxContext", any(form.has("scope") for form in forms)),
        ("Tree", True),
    ]
    lines += ["", "use fast_check_tree_syntax::{" + ", ".join(name for name, is_taken in taken if is_taken) + "};"]
    lines += ["use std::alloc::{AllocError, Global};"]
    for form in forms:
        lines += [""] + form_struct(form) + [""] + form_impls(form)
    return lines


GIVES = {"flag": "Bool", "scope": "SyntaxContext", "text": "List ℕ", "range": "SourceRange", None: "Tree"}
ASKS = {"flag": "flag_of", "scope": "context_of", "text": "text_of", "range": "range_of"}
NODES = {"flag": "Flag ", "scope": "Context ", "text": "Text ", "range": "Range ", None: ""}
PRELUDE_TYPES = {"Bool"}


def form_definitions(table, file):
    """`specs/FILE.antt` of a crate of forms."""
    forms = table.forms_of(file)
    lines = [
        f"-- {file.doc}",
        "-- Each form has its fields by their names, what it holds once it reads a node, and the node of its fields.",
    ]
    lines += form_imports(file, forms)
    for form in forms:
        lines += [""] + form_definition(form)
    return lines


def form_imports(file, forms):
    has = {leaf: any(form.has(leaf) for form in forms) for leaf in LEAVES + (None,)}
    pick = lambda pairs: ", ".join(name for name, is_used in pairs if is_used)
    syntax = "use Rattle.fast_check_tree_syntax.specs."
    prelude = [("◌≡◌", True), ("Bool", has["flag"]), ("ℕ, List", has["text"]), ("[], ◌∷◌", True)]
    nodes = [("Tree", True)] + [(NODES[leaf].strip(), has[leaf]) for leaf in ("range", "flag", "scope", "text")]
    shape = [("node", True), ("part", True)] + [(ASKS[leaf], has[leaf]) for leaf in ("range", "text", "flag", "scope")]
    lines = [
        ("use Rattle.std.specs.Prelude.{" + pick(prelude) + "}", True),
        ("use Rattle.std.specs.Borrow.{Bor}", has["text"]),
        (syntax + "declared.kind.Kind.TheVariants as kinds", True),
        (syntax + "declared.part.Part.{Part}", has[None]),
        (syntax + "declared.source.SourceRange.{SourceRange}", has["range"]),
        (syntax + "declared.source.SyntaxContext.{SyntaxContext}", has["scope"]),
        (syntax + "declared.tree.Tree.{" + pick(nodes) + "}", True),
        (syntax + "Part.{seen}", has[None]),
        (syntax + "Shape.{" + pick(shape) + "}", True),
    ]
    lines = [line for line, is_used in lines if is_used]
    for form in forms:
        name = f"{form.name} as {form.name}'" if form.name in PRELUDE_TYPES else form.name
        lines.append(f"use Rattle.fast_check_{file.crate}.specs.declared.{file.name}.{form.name}.{{{name}}}")
    return lines


def form_definition(form):
    lines = [f"-- {form.doc}"]
    for place, field in enumerate(form.fields):
        name = f"{form.name}-{field.name}"
        value = f"{ASKS[field.leaf]} (part {place} t)" if field.leaf else f"part {place} t"
        lines += [f"abbrev pub {name} : Tree → {GIVES[field.leaf]}", f"{name} t = {value}", ""]
    given = form.name + ("'" if form.name in PRELUDE_TYPES else "")
    given += (" Part" if form.has(None) else "") + (" (Bor (List ℕ))" if form.has("text") else "")
    lines.append(f"pub record Reads{form.name} (form : {given}) (t : Tree) : Type 0 where")
    for field in form.fields:
        before, behind = {None: ("seen ", ""), "text": ("", ".now")}.get(field.leaf, ("", ""))
        lines.append(f"  pub {field.name} : {before}form.{field.name}{behind} ≡ {form.name}-{field.name} t")
    return lines + [""] + form_node(form)


def form_node(form):
    head = " ".join([maker(form)] + [field.name for field in form.fields]) + " ="
    parts = [NODES[field.leaf] + field.name + " ∷" for field in form.fields] + ["[]"]
    parts[0] = f"node kinds.{form.name} (" + parts[0]
    types = [GIVES[field.leaf] + " →" for field in form.fields] + ["Tree"]
    lines = fill([f"abbrev pub {maker(form)} :"] + types, 0, WIDTH)
    lines[1:] = indented(lines[1:], 4)
    line = " ".join([head] + parts) + ")"
    if len(line) <= WIDTH:
        return lines + [line]
    heads = fill(head.split(" "), 0, WIDTH - 4, first=WIDTH)
    lines += heads[:1] + indented(heads[1:], 4) + fill(parts, 4, 105, first=109)
    lines[-1] += ")"
    return lines


def form_library(table, crate):
    """`src/lib.rt` of a crate of forms."""
    lines = [
        f"//! {table.crates[crate]}",
        "//!",
        "//! A form reads a node where its `N` is a `Part` and its `T` a `&str`, "
        "and makes one where they are a `Tree` and an `Atom`.",
        "//!",
        "//! `of` reads a node by the places of its fields, whatever its kind is. "
        "A field that is not there is absent, false, empty or",
        "//! `DUMMY_SP`. `into_tree` fails only if memory runs out.",
        "#![tactic(auto)]",
        "",
    ]
    files = sorted(table.files_of(crate), key=lambda file: file.name)
    lines += [f"mod {file.name};" for file in files] + [""]
    for file in files:
        names = sorted(form.name for form in table.forms_of(file))
        lines += use_list(f"pub use {file.name}::{{", names, "};")
    return lines


def searched_answer(table, file, method):
    """The proof of a reading or a making that is found by a search."""
    name, function = method.split(".")
    form = table.forms[name]
    given = {"of": ("Part", "ref+str"), "into_tree": ("Tree", "Atom")}[function]
    given = "".join("+" + word for word, leaf in zip(given, (None, "text")) if form.has(leaf))
    path = f"{file.name}/{name}{given}/{function}"
    return path, [
        "use Rattle.std.proofs.Common.{rules}",
        f"use Rattle.fast_check_{file.crate}.proofs.{path.replace('/', '.')}.Goals as goal",
        "",
        "pub returns : goal.returns",
        "returns c = search rules",
    ]


def write_form_crates(table, out):
    for crate in table.form_crates():
        base = f"crates/fast_check_{crate}"
        out.whole(f"{base}/src/lib.rt", form_library(table, crate))
        out.whole(f"{base}/specs/Lib.antt", [f"pub mod {camel(file.name)}" for file in table.files_of(crate)])
        for file in table.files_of(crate):
            out.whole(f"{base}/src/{file.name}.rt", form_code(table, file))
            out.whole(f"{base}/specs/{camel(file.name)}.antt", form_definitions(table, file))
            for method in file.searched:
                path, lines = searched_answer(table, file, method)
                out.whole(f"{base}/proofs/{path}/Answers.antt", lines)
