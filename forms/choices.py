"""The choices between forms (fast_check_tree_forms)."""
from layout import PROOF_WIDTH, WIDTH, camel, fill, ghost_use, indented, snake


def nested(table, choice):
    """The variants that hold a choice: it is asked next, where the kind is none of the choice's own."""
    return [(variant, content) for variant, content in choice.variants if content in table.choices]


def own(table, choice):
    """The variants that hold a form or a mark."""
    return [(variant, content) for variant, content in choice.variants if content in table.forms]


def is_asked(table, name):
    """Whether a choice stands within another one."""
    return any(content == name for choice in table.choices.values() for _, content in choice.variants)


def choice_code(table, file):
    """`src/FILE.rt` of the choices."""
    choices = table.choices_of(file)
    asked = [content for choice in choices for _, content in nested(table, choice)]
    asked = {name for name in asked if table.choices[name].file != file.name}
    lines = [
        f"//! {file.doc}",
        "",
        "ghost use Rattle.std.specs.Prelude.{◌≡◌};",
        "ghost use Rattle.fast_check_tree_syntax.specs.Part.{seen};",
        "ghost use Rattle.fast_check_tree_syntax.specs.Shape.{kind_of};",
    ]
    cited = [snake(choice.name) + "_of" for choice in choices]
    lines += ghost_use(f"Rattle.fast_check_tree_forms.specs.{camel(file.name)}", cited)
    lines += [""] + sorted(f"use crate::{table.choices[name].file}::{name};" for name in asked)
    lines += ["use fast_check_tree_syntax::{Kind, Part};"]
    for choice in choices:
        lines += [""] + choice_enum(choice) + [""] + choice_impl(table, choice)
    return lines


def choice_enum(choice):
    lines = [f"/// {choice.doc}", "#[derive(Clone, Copy, Debug)]", f"pub enum {choice.name} {{"]
    lines += [f"    {variant}," for variant, _ in choice.variants]
    return lines + ["    /// A node of none of these forms.", "    Other,", "}"]


def choice_impl(table, choice):
    name = choice.name
    lines = [
        f"impl {name} {{",
        "    /// Which of the forms a node has.",
        "    pub fn of(node: Part) -> Self",
        f"        ensures {{ result ≡ {snake(name)}_of (kind_of (seen node.entry)) }}",
        "    {",
    ]
    arms = [f"Kind::{content} => {name}::{variant}," for variant, content in own(table, choice)]
    rest = choice_rest(name, nested(table, choice))
    if arms:
        lines += indented(["match node.kind() {"] + indented(arms + [f"_ => {rest[0]}"] + rest[1:], 4) + ["}"], 8)
        lines[-2] += ","
    else:
        lines += indented(rest, 8)
    return lines + ["    }", "}"]


def choice_rest(name, asked):
    """What stands for a kind that the choice itself has not: the choices within it, one after another."""
    if not asked:
        return [f"{name}::Other"]
    (variant, content), rest = asked[0], choice_rest(name, asked[1:])
    lines = [f"{content}::Other => {rest[0]}"] + rest[1:]
    lines[-1] += ","
    return [f"match {content}::of(node) {{"] + indented(lines + [f"_ => {name}::{variant},"], 4) + ["}"]


def choice_definitions(table, file):
    """`specs/FILE.antt` of the choices."""
    choices = table.choices_of(file)
    asked = {}
    for choice in choices:
        for _, content in nested(table, choice):
            if table.choices[content].file != file.name:
                asked.setdefault(table.choices[content].file, []).append(content)
    lines = [
        f"-- {file.doc}",
        "-- Each choice goes by the kind of the node: `Other` stands for a kind of none of its forms.",
        "use Rattle.fast_check_tree_syntax.specs.declared.kind.Kind.{Kind}",
        "use Rattle.fast_check_tree_syntax.specs.declared.kind.Kind.TheVariants as kinds",
    ]
    for other in sorted(asked):
        names = ", ".join(f"{snake(name)}_of, if_{snake(name)}" for name in dict.fromkeys(asked[other]))
        lines.append(f"use Rattle.fast_check_tree_forms.specs.{camel(other)}.{{{names}}}")
    lines += [declared_choice(choice) for choice in choices]
    for choice in choices:
        lines += [""] + choice_definition(table, choice)
    return lines


def declared_choice(choice):
    return f"use Rattle.fast_check_tree_forms.specs.declared.{choice.file}.{choice.name}.{{{choice.name}}}"


def choice_definition(table, choice):
    name, call = choice.name, snake(choice.name)
    lines = [f"-- {choice.doc}", f"abbrev pub {call}_of : Kind → {name}"]
    lines += [f"{call}_of kinds.{content} = {name}.{variant}" for variant, content in own(table, choice)]
    asked = nested(table, choice)
    tests = [f"if_{snake(content)} ({snake(content)}_of kind) {name}.{variant}" for variant, content in asked]
    if not tests:
        lines.append(f"{call}_of _ = {name}.Other")
    else:
        steps = tests[:1] + ["(" + test for test in tests[1:]]
        steps[-1] += f" {name}.Other" + ")" * (len(steps) - 1)
        line = f"{call}_of kind = " + " ".join(steps)
        if len(line) <= WIDTH:
            lines.append(line)
        else:
            lines.append(f"{call}_of kind =")
            lines += [part for step in steps for part in fill(step.split(" "), 4, WIDTH)]
    if is_asked(table, name):
        lines += [
            "",
            "-- the first where it is one of these, else the second",
            f"abbrev pub if_{call} : {{A : Type 0}} → {name} → A → A → A",
            f"if_{call} {name}.Other one other = other",
            f"if_{call} _ one other = one",
        ]
    return lines


def within_choices(table):
    """The choices whose `of` is proved by cases: those of their own kinds, and then of the choice within."""
    return [table.choices[name] for file in table.files.values() for name in file.within]


def within_lemmas(table):
    """`proofs/Within.antt` of the choices."""
    choices = within_choices(table)
    asked = list(dict.fromkeys(nested(table, choice)[0][1] for choice in choices))
    cited = {}
    for choice in choices:
        inner = table.choices[nested(table, choice)[0][1]]
        cited.setdefault(choice.file, {})[snake(choice.name) + "_of"] = True
        for name in (snake(inner.name) + "_of", "if_" + snake(inner.name)):
            cited.setdefault(inner.file, {})[name] = True
    lines = [
        "-- What a choice is where its own kinds are ruled out: another choice, asked next.",
        "use Rattle.std.specs.Prelude.{◌≡◌, refl}",
        "use Rattle.fast_check_tree_syntax.specs.declared.kind.Kind.{Kind}",
        "use Rattle.fast_check_tree_syntax.specs.declared.kind.Kind.TheVariants as kinds",
    ]
    for file, names in cited.items():
        lines.append(f"use Rattle.fast_check_tree_forms.specs.{camel(file)}.{{{', '.join(names)}}}")
    lines += [declared_choice(choice) for choice in choices + [table.choices[name] for name in asked]]
    for name in asked:
        call = snake(name)
        lines += [
            "",
            f"pub is_{call} : {{A : Type 0}} (this : {name}) (one other : A) → (this ≡ {name}.Other → ⊥) → "
            f"if_{call} this one other ≡ one",
            f"is_{call} {name}.Other one other known = absurd (known refl)",
            f"is_{call} _ one other known = refl",
        ]
    for choice in choices:
        lines += [""] + within_lemma(table, choice)
    return lines


def within_lemma(table, choice):
    call, kinds = snake(choice.name), [content for _, content in own(table, choice)]
    (variant, content), count = nested(table, choice)[0], len(kinds)
    ruled_out = "".join(f" → (kind ≡ kinds.{kind} → ⊥)" for kind in kinds)
    lines = [
        f"pub {call}_else : (kind : Kind){ruled_out} →",
        f"    {call}_of kind ≡ if_{snake(content)} ({snake(content)}_of kind) {choice.name}.{variant} "
        f"{choice.name}.Other",
    ]
    for place, kind in enumerate(kinds):
        known = " ".join("own" if at == place else "_" for at in range(count))
        lines.append(f"{call}_else kinds.{kind} {known} = absurd (own refl)")
    return lines + [f"{call}_else _ {' '.join('_' * count)} = refl"]


def within_answer(table, choice):
    """`proofs/FILE/CHOICE/of/Answers.antt` of the choices."""
    name, call = choice.name, snake(choice.name)
    (variant, content), inner = nested(table, choice)[0], snake(nested(table, choice)[0][1])
    known = " ".join(f"(λ p. c.in_default.not-{kind} (c.kind.ensures ∙ p))" for _, kind in own(table, choice))
    before = f"    sym ({call}_else _ {known} ∙"
    step = f"    ap (λ this. if_{inner} this {name}.{variant} {name}.Other) (sym c.of.ensures"
    told = [step + ") ∙", f"is_{inner} c.of.result _ _ c.in_default-of.not-Other)"]
    told = [" ".join(told)] if len(" ".join(told)) <= PROOF_WIDTH else [told[0], "    " + told[1]]
    return [
        "use Rattle.std.proofs.Common.{sym, ◌∙◌, ap}",
        f"use Rattle.fast_check_tree_forms.specs.{camel(table.choices[content].file)}.{{if_{inner}}}",
        declared_choice(choice),
        f"use Rattle.fast_check_tree_forms.proofs.Within.{{is_{inner}, {call}_else}}",
        f"use Rattle.fast_check_tree_forms.proofs.{choice.file}.{name}.of.Goals as goal",
        "",
        "pub returns-in-Other : goal.returns-in-Other",
        "returns-in-Other c =",
        before,
        step + " ∙ c.in-Other.is))",
        "",
        "pub returns-in_default-of : goal.returns-in_default-of",
        "returns-in_default-of c =",
        before,
    ] + told


def offered(table):
    """The paths of all forms and choices, and of what gives the range of any."""
    paths = [f"fast_check_{table.files[form.file].crate}::{form.name}" for form in table.forms.values()]
    paths += [f"{choice.file}::{choice.name}" for choice in table.choices.values()]
    return sorted(paths + ["fast_check_tree_helpers::ranges::range_of_node"])


def write_choices(table, out):
    base, files = "crates/fast_check_tree_forms", table.files_of("tree_forms")
    lines = [""] + sorted(f"mod {file.name};" for file in files) + [""]
    lines += [f"pub use {path};" for path in offered(table)]
    out.between(f"{base}/src/lib.rt", "#![tactic(auto)]", None, lines)
    out.whole(f"{base}/specs/Lib.antt", [f"pub mod {camel(file.name)}" for file in files])
    out.whole(f"{base}/proofs/Lib.antt", ["pub mod Within"])
    out.whole(f"{base}/proofs/Within.antt", within_lemmas(table))
    for file in files:
        out.whole(f"{base}/src/{file.name}.rt", choice_code(table, file))
        out.whole(f"{base}/specs/{camel(file.name)}.antt", choice_definitions(table, file))
    for choice in within_choices(table):
        out.whole(f"{base}/proofs/{choice.file}/{choice.name}/of/Answers.antt", within_answer(table, choice))
