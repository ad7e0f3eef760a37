"""What a class is in a skeleton, by rules of its own. `Skeleton` of `skeletons` has the rest."""
from bench.oracle.nodes import EMPTY_ARRAY, NEVER, annotated, keyword, new, variant
from bench.oracle.trees import DUMMY

NEVER_ARRAY_IN_PARENTHESES = new("Paren", expr=new("TsAs", expr=EMPTY_ARRAY, type_ann=new("TsArrayType", elem_type=keyword("never"))))
HASH_MARK = new("PrivateProp", ctxt=0, key={"span": DUMMY, "name": "private"}, value=None, type_ann=annotated(keyword("unknown")), is_static=False,
                decorators=[], accessibility=None, is_optional=False, is_override=False, readonly=False, definite=True)
KEPT = ("Constructor", "Method", "ClassProp", "AutoAccessor", "TsIndexSignature")


def is_hash_named(member):
    kind, node = variant(member)
    return kind in ("PrivateMethod", "PrivateProp") or kind == "AutoAccessor" and "Private" in node["key"]


def key_of(kind, node):
    return node["key"].get("Public") if kind == "AutoAccessor" else node["key"]


def is_computed_and_private(kind, node):
    return kind in ("Method", "ClassProp", "AutoAccessor") and node["accessibility"] == "Private" and "Computed" in (key_of(kind, node) or {})


def range_of_key(key):
    return variant(key)[1]["span"]


def text_of_key(key):
    kind, node = variant(key)
    return node[{"Ident": "sym", "Str": "value"}.get(kind, "raw")]


def is_reference(value):
    """Whether an expression is an identifier, or a chain of members on one."""
    kind, node = variant(value)
    if kind == "Ident":
        return True
    if kind != "Member" or not is_reference(node["obj"]):
        return False
    kind, named = variant(node["prop"])
    return kind == "Ident" or kind == "Computed" and is_reference(named["expr"])


def range_of(value):
    """The range of an expression."""
    kind, node = variant(value)
    if kind in ("Lit", "JSXMember"):
        kind, node = variant(node)
    if kind in ("Class", "Fn"):
        node = node["class" if kind == "Class" else "function"]
    return node["span"]


def property_of(span, key, type_ann, **more):
    made = {"span": span, "key": key, "value": None, "type_ann": type_ann, "is_static": False, "decorators": [], "accessibility": None, "is_abstract": False,
            "is_optional": False, "is_override": False, "readonly": False, "declare": True, "definite": False}
    return {"ClassProp": dict(made, **more)}


class Classes:
    """The part of a skeleton that makes classes."""

    def class_(self, class_, is_ambient):
        if is_ambient:
            return dict(class_, body=[member for member in class_["body"] if not is_computed_and_private(*variant(member))])
        superclass = class_["super_class"]
        if superclass is not None and not is_reference(superclass):
            self.fault("unsupported-super-class-expr", range_of(superclass))
        marks = [HASH_MARK] if any(map(is_hash_named, class_["body"])) else []
        members, declared = [], []
        for member in self.members_that_stay(class_["body"]):
            members.append(self.member(member, declared))
        return dict(class_, decorators=[], body=marks + declared + members)

    @staticmethod
    def members_that_stay(members):
        names, has_constructor = set(), False
        for member in members:
            kind, node = variant(member)
            if kind not in KEPT or is_hash_named(member) or is_computed_and_private(kind, node):
                continue
            if node.get("accessibility") == "Private" and kind == "Constructor":
                if node["body"] is None or has_constructor:
                    continue
                has_constructor = True
            if node.get("accessibility") == "Private" and kind == "Method":
                name = text_of_key(node["key"])
                if name in names:
                    continue
                names.add(name)
            yield member

    def member(self, member, declared):
        kind, node = variant(member)
        if kind == "Constructor":
            return {kind: self.constructor(node, declared)}
        if kind == "Method":
            return self.method(node)
        if kind == "ClassProp":
            return self.property(node)
        if kind == "AutoAccessor":
            return self.accessor(node)
        return member

    # -- constructors

    def constructor(self, node, declared):
        params = []
        for param in node["params"]:
            kind, inside = variant(param)
            if kind == "TsParamProp":
                prop = self.parameter_property(inside)
                if prop is None:
                    return node
                declared.append(prop)
                inside = {"span": inside["span"], "decorators": [], "pat": inside["param"]}
            params.append(inside)
        if node["accessibility"] == "Private":
            params = []
        elif node["span"] in self.impls:
            params = [self.overloaded(number, param) for number, param in enumerate(params)]
        else:
            params = [dict(param, decorators=[], pat=pat) for param, pat in zip(params, self.params([param["pat"] for param in params]))]
        body = node["body"] and {"span": DUMMY, "ctxt": 0, "stmts": list(filter(None, map(self.super_call, node["body"]["stmts"])))}
        return dict(node, params=[{"Param": param} for param in params], body=body)

    @staticmethod
    def super_call(stmt):
        call = stmt.get("Expr", {"expr": {}})["expr"].get("Call")
        if call is None or "Super" not in call["callee"]:
            return None
        args = [dict(arg, expr=NEVER_ARRAY_IN_PARENTHESES if arg["spread"] else NEVER) for arg in call["args"]]
        return {"Expr": dict(stmt["Expr"], expr={"Call": dict(call, args=args)})}

    def parameter_property(self, node):
        kind, inside = variant(node["param"])
        bound = inside
        if kind == "Assign":
            left, bound = variant(inside["left"])
            if left != "Ident":
                self.fault("unsupported-destructuring", bound["span"])
                return None
        written, ident = bound["type_ann"], bound["id"]
        if node["accessibility"] == "Private":
            written = annotated(keyword("any"))
        elif written is None and kind == "Assign":
            of_value = self.shown(node["readonly"], inside["right"])
            written = of_value and annotated(of_value)
        key = {"Ident": {"span": ident["span"], "sym": ident["sym"]}}
        shown = None if node["accessibility"] == "Public" else node["accessibility"]
        return property_of(node["span"], key, written, accessibility=shown, readonly=node["readonly"], is_optional=kind == "Ident" and ident["optional"])

    # -- methods, properties and accessors

    def method(self, node):
        if node["accessibility"] == "Private":
            return property_of(node["span"], node["key"], annotated(keyword("any")), accessibility="Private", is_static=node["is_static"],
                               is_abstract=node["is_abstract"], is_optional=node["is_optional"])
        return {"Method": dict(node, function=self.function(node["function"], range_of_key(node["key"]), node["kind"], node["span"] in self.impls))}

    def property(self, node):
        written = node["type_ann"]
        if node["accessibility"] == "Private":
            written = annotated(keyword("any"))
        elif written is None and node["value"] is not None:
            of_value = self.shown(node["readonly"], node["value"])
            written = of_value and annotated(of_value)
        if written is not None:
            return {"ClassProp": dict(node, value=None, type_ann=written, decorators=[], is_override=False, declare=True, definite=False)}
        value = node["value"] and self.left(node["value"], range_of_key(node["key"]))
        if value is None:
            self.fault("missing-explicit-type", range_of_key(node["key"]))
        return {"ClassProp": dict(node, value=value, decorators=[], declare=False, definite=False)}

    def accessor(self, node):
        written, key = node["type_ann"], node["key"]["Public"]
        if node["accessibility"] == "Private":
            written = annotated(keyword("any"))
        elif written is None and node["value"] is not None:
            of_value = self.shown(False, node["value"])
            written = of_value and annotated(of_value)
        if written is None:
            self.fault("missing-explicit-type", range_of_key(key))
        return property_of(node["span"], key, written, accessibility=node["accessibility"], is_static=node["is_static"])
