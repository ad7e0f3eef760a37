"""Random edits of what is hidden in a module: the trees of `random_modules`, of which each node with a range has a number under `#` that stays with it.

What an edit adds has no numbers, and so is never public. `edit` changes a module in place. What may be hidden is stated here by rules of this script alone:
where an edit stands in a list, whether a body is one of the same kind, and whether a value shows the same type.
"""
from bench.oracle.class_skeletons import is_hash_named
from bench.oracle.items import put
from bench.oracle.module_trees import export_all, import_, interface, named_export, named_import, namespace, property_signature
from bench.oracle.nodes import variant
from bench.oracle.skeletons import names_type, return_class, shown, single_return_arg
from bench.oracle.trees import (
    FREE, array_pattern, block, class_stmt, declarator, decorator, empty_member, exported, fn_stmt, form, hash_method, hash_prop, lit, name,
    named, object_pattern, paren, ref, returned, run, static_block, stmt, thrown, unexported, var_stmt,
)

SAME_KIND = {"Str": ['"a"', '"b"', '"é"'], "Bool": ["true", "false"], "Num": ["1", "2.5", "300"], "BigInt": ["10n", "7n"], "Regex": ["/a+/g", "/b/"]}
# what a class has with the keyword `private`, of which nothing is seen but a name
PRIVATE = ("Method", "ClassProp", "AutoAccessor")


def new_nodes(tree):
    """The same tree of nodes without numbers."""
    if isinstance(tree, dict):
        return {name: new_nodes(inside) for name, inside in tree.items() if name != "#"}
    return [new_nodes(each) for each in tree] if isinstance(tree, list) else tree


def naming_arg(body, is_generator):
    """The value by which a body names its return type, None where it names none."""
    arg = None if is_generator else single_return_arg(body)
    return arg if arg is not None and names_type(arg) and shown(False, arg, FREE) is not None else None


class Edits:
    """Makes the edits, each with the chance `part`, by a writer of random trees. `made` has how many of each kind there were."""

    def __init__(self, writer, part, impls):
        self.writer, self.part, self.impls = writer, part, impls
        self.made = {}

    def chance(self, kind):
        """Whether an edit of this kind is made here."""
        if not self.writer.chance(self.part):
            return False
        self.made[kind] = self.made.get(kind, 0) + 1
        return True

    def one(self, *choices):
        return self.writer.one(*choices)

    def insert(self, items, made):
        items.insert(self.writer.random.randint(0, len(items)), made)

    # -- items

    def items(self, items, is_ambient):
        """Items of a module or of a namespace."""
        for item in list(items):
            self.item(item, is_ambient)
        while self.chance("silent item"):
            self.insert(items, self.silent_item())

    def silent_item(self):
        """An item that is not public, or that is never seen."""
        inner = lambda: self.writer.value(2)
        item = self.one(
            lambda: unexported(fn_stmt("p", self.writer.params(1), *self.writer.body(1))), lambda: exported(fn_stmt("p", [], *self.writer.body(1))),
            lambda: unexported(class_stmt("H", *self.writer.class_parts()[1])), lambda: exported(class_stmt("H", super_class=inner())),
            lambda: exported(var_stmt(self.one("Const", "Let"), declarator(name("s", self.writer.maybe_type()), inner()))),
            lambda: unexported(interface("J", property_signature("x", self.writer.type()))), lambda: put("s", inner(), self.one("f", "g", "C")),
            lambda: unexported(run(self.one(lambda: ref("a"), lambda: lit("1"))())), lambda: unexported(stmt("If", test=ref("a"), cons=run(ref("b")), alt=None)),
            lambda: import_("./s", named_import("s")), lambda: export_all("./s"),
            lambda: unexported(namespace("S", *[unexported(fn_stmt("p", [], *self.writer.body(1)))])))
        return item()

    def item(self, item, is_ambient):
        kind, node = variant(item)
        if kind == "Stmt":
            if "Decl" in node:
                self.declaration(node["Decl"], is_ambient)
            elif "Assign" in node.get("Expr", {}).get("expr", {}):
                self.value(node["Expr"]["expr"]["Assign"]["right"])
            return
        kind, node = variant(node)
        if kind == "ExportDecl":
            self.declaration(node["decl"], is_ambient, node)
        elif kind == "Import" and self.chance("silent specifier"):
            self.insert(node["specifiers"], named_import("s", "t"))
        elif kind == "ExportNamed" and all("Named" in each for each in node["specifiers"]) and self.chance("silent specifier"):
            self.insert(node["specifiers"], named_export("s", "t"))
        elif kind == "ExportDefaultExpr" and not is_ambient:
            self.value(node["expr"])
        elif kind == "ExportDefaultDecl" and not is_ambient:
            self.default(node)

    def default(self, export):
        kind, node = variant(export["decl"])
        if kind == "Class":
            self.class_(node["class"])
        elif kind == "Fn":
            self.function(node["function"], export.get("#") in self.impls, "Method")

    def declaration(self, decl, is_ambient, export=None):
        kind, node = variant(decl)
        if kind == "Var":
            self.variables(node, is_ambient or node["declare"])
        elif kind == "Fn" and not is_ambient:
            self.function(node["function"], (export or node["function"]).get("#") in self.impls, "Method")
        elif kind == "Class" and not is_ambient and not node["declare"]:
            self.class_(node["class"])
        elif kind == "TsModule" and not node["global"] and "Str" not in node["id"] and node["body"] is not None:
            body = node["body"]
            while "TsNamespaceDecl" in body:
                body = body["TsNamespaceDecl"]["body"]
            self.items(body["TsModuleBlock"]["body"], is_ambient or node["declare"])

    def variables(self, node, is_ambient):
        if not is_ambient:
            for each in node["decls"]:
                self.declarator(each, node["kind"] == "Const")
        if self.chance("silent declarator"):
            self.insert(node["decls"], declarator(name("s", self.writer.maybe_type()), self.writer.value(2)))

    def declarator(self, node, is_const):
        bound = node["name"].get("Ident")
        if bound is not None and bound["type_ann"] is not None and node["init"] is not None:
            if self.chance("value behind a type"):
                node["init"] = self.writer.value(3)
        elif bound is not None and node["init"] is not None:
            node["init"] = self.shown_alike(node["init"], is_const)

    def shown_alike(self, value, is_const):
        """Another value of the same type, where a value shows one, and else the value with what is hidden in it edited."""
        if shown(is_const, value, FREE) is None:
            self.value(value)
            return value
        kind, node = variant(variant(value)[1]) if "Lit" in value else (None, None)
        if kind in SAME_KIND and (not is_const or kind == "Regex") and self.chance("value that shows one type"):
            return lit(self.one(*SAME_KIND[kind]))
        if not self.chance("value that shows one type"):
            return value
        # a literal may be seen itself, and what is asserted has its type
        return paren(value if is_const or kind is None else new_nodes(value))

    # -- values that may stay by their parts

    def value(self, value):
        """What is hidden inside of a value, wherever the value may stay by its parts."""
        kind, node = variant(value)
        if kind in ("TsAs", "TsTypeAssertion"):
            if self.chance("asserted value"):
                node["expr"] = self.writer.value(2)
        elif kind == "Arrow":
            self.arrow(node)
        elif kind == "Fn":
            self.function(node["function"], False, None)
        elif kind == "Array":
            for each in node["elems"]:
                if each is not None:
                    self.value(each["expr"])
        elif kind == "Object":
            for each in node["props"]:
                inside = each.get("Prop", {}).get("KeyValue")
                if inside is not None:
                    self.value(inside["value"])
        elif kind in ("Paren", "TsNonNull", "TsConstAssertion", "TsSatisfies"):
            self.value(node["expr"])
        elif kind == "Cond":
            for part in ("test", "cons", "alt"):
                self.value(node[part])

    # -- functions

    def body_like(self, old, is_any, is_generator):
        """Another body: any, or one that returns as the old one does. Where the old one names its return type its statements stay, and what it returns shows
        the same type; where it names none the new one names none."""
        if not is_any and naming_arg(old, is_generator) is not None:
            last = old["stmts"][-1]["Return"]
            last["arg"] = self.shown_alike(last["arg"], False)
            return old
        for _ in range(20):
            made = block(*self.writer.body(2))
            if is_any or return_class(made) == return_class(old) and naming_arg(made, is_generator) is None:
                return made
        return old

    def arrow(self, node):
        for pat in node["params"]:
            self.pattern(pat)
        kind, body = variant(node["body"])
        if kind == "BlockStmt":
            if self.chance("body"):
                node["body"] = {kind: self.body_like(body, node["return_type"] is not None, node["is_generator"])}
        elif node["return_type"] is None:
            node["body"] = {kind: self.shown_alike(body, False)}

    def function(self, node, is_implementation, how):
        """A function; `how` is the kind of a method, or None for an expression."""
        if node["body"] is not None and self.chance("body"):
            is_any = node["return_type"] is not None or how == "Setter" or is_implementation
            node["body"] = self.body_like(node["body"], is_any, node["is_generator"])
        if is_implementation:
            if self.chance("parameters of an implementation"):
                node["params"] = [self.param_like(param) for param in node["params"]]
            return
        for param in node["params"]:
            if self.chance("decorator"):
                param["decorators"] = [] if param["decorators"] else [decorator()]
            self.pattern(param["pat"])

    def param_like(self, param):
        """Another parameter, in its place."""
        pat = {"Rest": form(dot3_token=None, arg=name("z"), type_ann=None)} if "Rest" in param["pat"] else self.writer.pattern(0)
        return form(decorators=[], pat=pat)

    def pattern(self, pat):
        """What is hidden in a parameter's pattern: what it takes apart, and a default behind a written type."""
        kind, node = variant(pat)
        if kind == "Assign":
            left, inside = variant(node["left"])
            if left in ("Ident", "Array", "Object") and inside["type_ann"] is not None:
                if self.chance("value behind a type"):
                    node["right"] = self.writer.value(2)
            elif left == "Ident":
                node["right"] = self.shown_alike(node["right"], False)
            self.pattern(node["left"])
        elif kind == "Array" and self.chance("pattern"):
            node["elems"] = array_pattern(*self.writer.some(2, lambda: self.writer.pattern(0)))["Array"]["elems"]
        elif kind == "Object" and self.chance("pattern"):
            node["props"] = object_pattern(*self.writer.some(2, lambda: self.one("x", "y", "z")))["Object"]["props"]

    # -- classes

    def class_(self, node):
        if self.chance("decorator"):
            node["decorators"] = [] if node["decorators"] else [decorator()]
        for member in node["body"]:
            self.member(*variant(member))
        while self.chance("silent member"):
            self.insert(node["body"], self.silent_member(any(map(is_hash_named, node["body"]))))

    def silent_member(self, is_marked):
        """A member of which nothing is seen. One with a hash name is silent where the class has another one."""
        choices = [lambda: static_block(*self.writer.body(1)), empty_member]
        if is_marked:
            choices += [lambda: hash_method("s", *self.writer.body(1)), lambda: hash_prop("s", self.writer.maybe_type(), lit("1"))]
        return self.one(*choices)()

    def member(self, kind, node):
        if kind == "PrivateMethod" or kind == "PrivateProp" or kind == "AutoAccessor" and "Private" in node["key"]:
            return
        if kind in PRIVATE and node["accessibility"] == "Private":
            self.private_member(kind, node)
        elif kind == "Method":
            if self.chance("decorator"):
                node["function"]["decorators"] = [] if node["function"]["decorators"] else [decorator()]
            self.function(node["function"], node.get("#") in self.impls, node["kind"])
        elif kind == "Constructor":
            self.constructor(node)
        elif kind in ("ClassProp", "AutoAccessor"):
            self.property(kind, node)

    def private_member(self, kind, node):
        if not self.chance("private member"):
            return
        if kind == "Method":
            decorators, has_body = node["function"]["decorators"], node["function"]["body"] is not None
            made = self.writer.function_of(lambda params, *body, **more: fn_stmt("m", params, *body, **more))["Decl"]["Fn"]["function"]
            if has_body != (made["body"] is not None):
                made["body"] = block() if has_body else None
            node["function"].update({part: made[part] for part in ("params", "body", "is_generator", "is_async", "type_params", "return_type")})
            node["function"]["decorators"] = decorators
        else:
            node["type_ann"] = None if node["type_ann"] is not None else form(type_ann=named("T"))
            node["value"] = self.one(None, lit("1"), ref("a"))

    def property(self, kind, node):
        if self.chance("decorator"):
            node["decorators"] = [] if node["decorators"] else [decorator()]
        if node["type_ann"] is not None:
            if self.chance("value behind a type"):
                node["value"] = self.one(None, self.writer.value(2))
        elif node["value"] is not None:
            node["value"] = self.shown_alike(node["value"], kind == "ClassProp" and node["readonly"])

    def constructor(self, node):
        is_implementation = node.get("#") in self.impls
        if node["body"] is not None and self.chance("body of a constructor"):
            calls = [each for each in node["body"]["stmts"] if "Super" in each.get("Expr", {"expr": {}})["expr"].get("Call", {"callee": {}})["callee"]]
            for each in calls:
                for arg in each["Expr"]["expr"]["Call"]["args"]:
                    arg["expr"] = self.writer.value(1)
            others = [self.one(run(ref("a")), thrown(lit("1")), returned()) for _ in range(self.writer.random.randint(0, 2))]
            node["body"]["stmts"] = others + calls
        is_private = node["accessibility"] == "Private"
        for place, param in enumerate(node["params"]):
            kind, inside = variant(param)
            if kind == "TsParamProp":
                continue
            if (is_private or is_implementation) and self.chance("parameters of an implementation"):
                node["params"][place] = {kind: self.param_like(inside)}
            elif not is_private and not is_implementation:
                self.pattern(inside["pat"])
