"""How an expression stays slot by slot: its row, what is refused beside it, and the proofs that go by the slots."""
from layout import PROOF_WIDTH, WIDTH, fill, indented

SIGNATURES = "crates/fast_check_meaning_signatures/"
ROWS = "Rattle.fast_check_meaning_signatures.specs.Rows"
BINDINGS = "crates/fast_check_transform_nodes/"
KINDS = "Rattle.fast_check_tree_syntax.specs.declared.kind.Kind.TheVariants"
# of each slot: the name under which two forms agree in it, and why they are seen alike there
AGREES = {
    "Span": ("a", "range_alike r ok _ _ a"),
    "Scope": ("n", "scope_alike r ok _ _ n"),
    "Written": ("e", "same_written r ok e"),
    "Value": ("x", "expr_alike x None None refl"),
    "Never": (None, "never_alike"),
}


def forms_of(table):
    """Each form with its row and the name of its rule."""
    return [(row, form, rule) for row in table.rows for form, rule in row.forms]


def defined(row):
    """The name of a row in the definitions."""
    return row.name.lower() + "_row"


def definitions(table):
    """The rows of `specs/Rows.antt`."""
    lines = []
    for row in table.rows:
        slots = " ∷ ".join([f"slots.{slot}" for slot in row.slots] + ["[]"])
        lines += [f"-- {row.doc.removesuffix('.')}", f"abbrev pub {defined(row)} : List Slot", f"{defined(row)} = {slots}", ""]
    return lines


def constants(table):
    """The rows of `src/rows.rt`, behind the imports."""
    lines, note = [], " A row has a slot for each field of its form, in their order."
    for row in table.rows:
        slots = ", ".join(f"Slot::{slot}" for slot in row.slots)
        lines += ["", f"/// {row.doc}{note}", f"const {row.name}: [Slot; {len(row.slots)}] = [{slots}];"]
        note = ""
    return lines + [""]


def in_two(head, tail, indent):
    """A statement of a proof in a line if it fits, else in two."""
    line = f"{head} {tail}"
    return [line] if len(line) <= PROOF_WIDTH else [head, indent + tail]


def alike(table):
    """The lines of `expr_alike`: what agrees in each slot is seen alike."""
    lines = []
    for row, form, rule in forms_of(table):
        given = " ".join(["b"] + [name for slot in row.slots if (name := AGREES[slot][0])])
        each = "tt"
        for slot in reversed(row.slots):
            each = f"({AGREES[slot][1]}, {each})"
        lines.append(f"    expr_alike (s.{rule} {{t = t}} {{u = u}} {given}) p q f =")
        lines += in_two(f"        by_kind t u p q kinds.{form} (slotted {defined(row)}) b refl refl", each, "        ")
    return lines


def both_present(table):
    """The lines of `expr_absent`: of two that agree neither is absent."""
    lines = []
    for row, form, rule in forms_of(table):
        given = "xyzuvw"[: sum(slot != "Never" for slot in row.slots)]
        head = f"  expr_absent (v.SameExpr.{rule} {{t = t}} {{u = u}} d {' '.join(given)}) ="
        lines += in_two(head, f"both_there {form} t u d (λ l. cc)", "      ")
    return lines


def other_kinds_agree(table):
    """The lines of `no_agreement`: two of another kind are no calls of a class."""
    lines = []
    for row, _, rule in forms_of(table):
        given = " ".join("xyzwmoq"[: 1 + sum(slot != "Never" for slot in row.slots)])
        lines.append(f"no_agreement c d k e n (v.SameExpr.{rule} {given}) = let j = sym k ∙ x.left in cc")
    return lines


def stays(table):
    """The lines of `kind_stays`: what stays by a row is in the grammar, by its one slot that has a rule there."""
    lines = []
    for row, form, rule in forms_of(table):
        held = [place for place, slot in enumerate(row.slots) if slot in ("Value", "Never")]
        fits = " ".join("h" + ".1" * place + ".0" for place in held)
        made = f"(λ u e h. IsLeavable.{rule} e {fits})"
        head = f"    kind_stays kinds.{form} b t place f = slotted_stays {defined(row)} kinds.{form} t place"
        lines += in_two(head, made, "        ")
    return lines


def write_rules(table, out):
    """The rows, and what is said by the kind of an expression."""
    forms, names = [form for _, form, _ in forms_of(table)], [defined(row) for row in table.rows]
    path = SIGNATURES + "specs/Rows.antt"
    out.as_it_stands(path, "use Rattle.fast_check_meaning_signatures.specs.declared.rules.Slot.TheVariants as slots", "-- a function expression", [""] + definitions(table))
    path = SIGNATURES + "specs/Expressions.antt"
    kinds = [f"kinds.{form} ∷" for form in forms + ["FnExpr", "ArrowExpr"]]
    kinds = fill(["other_kinds ="] + kinds + ["[]"], 0, WIDTH - 4, first=WIDTH)
    out.as_it_stands(path, "abbrev pub other_kinds : List Kind", "", kinds[:1] + indented(kinds[1:], 4))
    rules = [f"other_rule kinds.{form} known = slotted {defined(row)}" for row, form, _ in forms_of(table)]
    out.as_it_stands(path, "abbrev pub other_rule : Kind → Bool → Rule", "other_rule kinds.CallExpr true = slotted arguments_row", rules)
    out.imported(path, ROWS, names + ["fn_expr_row", "arguments_row"], WIDTH)
    path = BINDINGS + "src/rows.rt"
    out.as_it_stands(path, "use std::alloc::{AllocError, Global};", "/// A function expression.", constants(table))
    rows = [f"        {' | '.join('Kind::' + form for form, _ in row.forms)} => Some(&{row.name})," for row in table.rows]
    out.as_it_stands(path, "    match kind {", "        Kind::FnExpr => Some(&FN_EXPR),", rows)


def write_proofs(table, out):
    """The proofs that go by the slots of a row."""
    forms, names = [form for _, form, _ in forms_of(table)], [defined(row) for row in table.rows]
    first = "refused_by : (k : Kind) (known : Bool) → row_of k known ≡ None → (k ≡ kinds.ArrowExpr → ⊥) → other_rule k known ≡ not_at_all"
    refused = [f"refused_by kinds.{form} known e n = cc" for form in forms]
    out.as_it_stands("crates/fast_check_transform_expressions/proofs/Looked.antt", first, "refused_by kinds.FnExpr known e n = cc", refused)
    path = "crates/fast_check_meaning_skeleton/proofs/AlikePresent.antt"
    first = "  expr_absent (v.SameExpr.compound {t = t} {u = u} k d e xs) = both_there k t u d (compound_there k e)"
    last = "  expr_absent (v.SameExpr.frozen {t = t} {u = u} e f x y z w m) = frozen_there c t e ∙ sym (frozen_there d u f)"
    out.as_it_stands(path, first, last, both_present(table))
    out.imported(path, KINDS, ["Leaf", "CallExpr", "NewExpr"] + forms + ["FnExpr", "ArrowExpr"], PROOF_WIDTH)
    path = "crates/fast_check_meaning_skeleton/proofs/PrivateClassExample.antt"
    first = "    not_kind kinds.NewExpr is_compound t k refl (ap is_compound x.left ∙ y)"
    last = "no_agreement c d k e n (v.SameExpr.frozen {t = t} {u = u} x y z w m o q) ="
    out.as_it_stands(path, first, last, other_kinds_agree(table))
    path = "crates/fast_check_meaning_skeleton/proofs/Alike.antt"
    first = "        by_form t u p q (compound_alike r ok c d (expr_seen c) (expr_seen d) t u p q k b e (exprs_alike xs))"
    out.as_it_stands(path, first, "    expr_alike (s.frozen {t = t} {u = u} b b' a n callee x types) p q f =", alike(table))
    out.imported(path, ROWS, names + ["fn_expr_row"], PROOF_WIDTH)
    path = "crates/fast_check_meaning_skeleton/proofs/Typed.antt"
    first = "        StaysLeavable (by_rule bindings (other_rule kind b) kind t look place)"
    out.as_it_stands(path, first, "    kind_stays kinds.CallExpr true t place f = slotted_stays arguments_row kinds.CallExpr t place", stays(table))
    out.imported(path, ROWS, names + ["fn_expr_row", "arguments_row"], PROOF_WIDTH)
