"""The skeleton of a module, by rules of its own: what `fast-check transform` has to answer.

Trees are JSON as `trees` makes them. No tree is changed: what is answered is made anew, of parts of the source.
"""
from bench.oracle.class_skeletons import Classes
from bench.oracle.expando_skeletons import Expandos
from bench.oracle.module_skeletons import Modules, range_of_default
from bench.oracle.nodes import EMPTY_OBJECT, NEVER, NEVER_ARRAY, NEVER_IN_PARENTHESES, annotated, keyword, new, variant
from bench.oracle.trees import DUMMY


def name_of(text):
    return {"span": DUMMY, "ctxt": 0, "sym": text, "optional": False}


def reference(name, *params):
    return new("TsTypeRef", type_name={"Ident": name_of(name)}, type_params={"span": DUMMY, "params": list(params)} if params else None)


# ---- types that values show

SIMPLE_PARTS = {"TsArrayType": ["elem_type"], "TsOptionalType": ["type_ann"], "TsRestType": ["type_ann"], "TsParenthesizedType": ["type_ann"],
    "TsTypeOperator": ["type_ann"]}


def is_simple(written):
    kind, node = variant(written)
    if kind in ("TsKeywordType", "TsThisType", "TsTypeLit"):
        return True
    if kind == "TsLitType":
        return "Tpl" not in node["lit"]
    if kind == "TsTypeRef":
        return all(is_simple(param) for param in (node["type_params"] or {"params": []})["params"])
    if kind == "TsTupleType":
        return all(is_simple(element["ty"]) for element in node["elem_types"])
    if kind == "TsUnionOrIntersectionType":
        return all(is_simple(part) for part in variant(node)[1]["types"])
    return kind in SIMPLE_PARTS and all(is_simple(node[part]) for part in SIMPLE_PARTS[kind])


WIDE = {"Str": "string", "Bool": "boolean", "Num": "number", "BigInt": "bigint", "Null": "null"}


def literal_shows(is_const, kind, node):
    if kind == "JSXText":
        return None
    if kind == "Regex":
        return reference("RegExp")
    if is_const and kind != "Null":
        return new("TsLitType", lit={"Number" if kind == "Num" else kind: node})
    return keyword(WIDE[kind])


def is_symbol(call, unresolved):
    kind, callee = variant(call["callee"])
    if kind != "Expr":
        return False
    kind, named = variant(callee)
    if kind == "Member" and named["prop"].get("Ident", {}).get("sym") == "for":
        kind, named = variant(named["obj"])
    if kind != "Ident" or named["sym"] != "Symbol" or named["ctxt"] != unresolved:
        return False
    args = call["args"]
    return not args or len(args) == 1 and "Str" in args[0]["expr"].get("Lit", {})


def shown(is_const, value, unresolved):
    """The type that a value shows, as of a constant or of what may change. None where it shows none."""
    kind, node = variant(value)
    if kind in ("TsAs", "TsTypeAssertion"):
        return node["type_ann"] if is_simple(node["type_ann"]) else None
    if kind in ("Paren", "TsSatisfies"):
        return shown(is_const, node["expr"], unresolved)
    if kind == "Lit":
        return literal_shows(is_const, *variant(node))
    if kind == "Tpl":
        is_text = is_const and not node["exprs"] and node["quasis"] and node["quasis"][0]["cooked"] is not None
        return new("TsLitType", lit=new("Str", value=node["quasis"][0]["cooked"], raw=None)) if is_text else keyword("string")
    if kind == "Call" and is_symbol(node, unresolved):
        return new("TsTypeOperator", op="Unique", type_ann=reference("symbol"))
    return None


# ---- how bodies return


def returned(stmt):
    """Of each return statement that belongs to the function, in order of the text, whether it has an argument."""
    kind, node = variant(stmt)
    if kind == "Return":
        return [node["arg"] is not None]
    if kind == "Block":
        return all_returned(node["stmts"])
    if kind == "If":
        return returned(node["cons"]) + (returned(node["alt"]) if node["alt"] else [])
    if kind == "Switch":
        return [has for case in node["cases"] for has in all_returned(case["cons"])]
    if kind == "Try":
        blocks = [node["block"], node["handler"] and node["handler"]["body"], node["finalizer"]]
        return [has for block in blocks if block for has in all_returned(block["stmts"])]
    if kind in ("With", "Labeled", "While", "DoWhile", "For", "ForIn", "ForOf"):
        return returned(node["body"])
    return []


def all_returned(stmts):
    return [has for stmt in stmts for has in returned(stmt)]


def return_class(body):
    found = all_returned(body["stmts"])
    if not body["stmts"]:
        return "Void"
    if not found:
        return "None"
    if True not in found:
        return "Void"
    return "Single" if found.index(True) == len(found) - 1 else "Multiple"


def single_return_arg(body):
    """The argument of the only return statement of a body, where that is its last statement. None where it is not."""
    stmts = body["stmts"]
    if not stmts or "Return" not in stmts[-1] or all_returned(stmts) != [True]:
        return None
    return stmts[-1]["Return"]["arg"]


def names_type(value):
    """A value may name the type of a function that returns it: a literal, a template or an assertion, but no call."""
    kind, node = variant(value)
    return names_type(node["expr"]) if kind in ("Paren", "TsSatisfies") else kind in ("Lit", "Tpl", "TsAs", "TsTypeAssertion")


# ---- skeletons

ALL_PARTS = {"Unary": ["arg"], "Update": ["arg"], "Await": ["arg"], "Paren": ["expr"], "TsNonNull": ["expr"], "TsConstAssertion": ["expr"],
    "TsSatisfies": ["expr"],
             "Bin": ["left", "right"], "Cond": ["test", "cons", "alt"]}
NEW_BLOCK = {"span": DUMMY, "ctxt": 0, "stmts": []}


def range_of_pattern(pattern):
    kind, node = variant(pattern)
    if kind == "Ident":
        return node["id"]["span"]
    if kind == "Expr":
        kind, node = variant(node)
    return node["span"]


def is_optional(pattern):
    kind, node = variant(pattern)
    if kind == "Ident":
        return node["id"]["optional"]
    return kind in ("Assign", "Rest") or kind in ("Array", "Object") and node["optional"]


def is_void(written):
    return written["type_ann"].get("TsKeywordType", {}).get("kind") == "TsVoidKeyword"


class Skeleton(Classes, Expandos, Modules):
    """The items that a skeleton has, and the faults in making them, each a code, a range and two flags.

    `resolved` has what the texts of sources in the module resolve to, and `plain_classes` the names with scope numbers of classes without type
    parameters."""

    def __init__(self, body, ranges, impls=(), media_type="TypeScript", unresolved=1, specifier="file:///p/mod.ts", resolved=None,
                 plain_classes=(), exports=None, keyworded=()):
        self.ranges, self.impls, self.unresolved = ranges, impls, unresolved
        self.specifier, self.resolved, self.plain_classes = specifier, resolved or {}, plain_classes
        self.exports, self.keyworded = exports or {}, keyworded
        self.is_ambient = media_type in ("Dts", "Dmts", "Dcts")
        self.faults = []
        self.items = self.items_of(body)

    def fault(self, code, place, is_definitely=None, is_async=None):
        self.faults.append((code, place, is_definitely, is_async))

    def shown(self, is_const, value):
        return shown(is_const, value, self.unresolved)

    # -- items

    def items_of(self, body):
        """What stays of the items of a module, or of a namespace."""
        items, properties = [], {}
        for item in body:
            if "Assign" in item.get("Stmt", {}).get("Expr", {}).get("expr", {}):
                self.assignment(item["Stmt"]["Expr"]["expr"]["Assign"], properties)
            else:
                items.append(self.item(item))
        return [item for item in items if item is not None] + [self.namespace_of(key, decls) for key, decls in properties.items()]

    def item(self, item):
        kind, node = variant(item)
        if kind == "ModuleDecl":
            kind, export = variant(node)
            if kind != "ExportDecl":
                return self.module_item(kind, export)
            decl = self.declaration(export["decl"], export["span"])
            return decl and {"ModuleDecl": {"ExportDecl": dict(export, decl=decl)}}
        decl = "Decl" in node and self.declaration(node["Decl"], None)
        return {"Stmt": {"Decl": decl}} if decl else None

    def declaration(self, decl, exported):
        kind, node = variant(decl)
        if kind == "Var":
            return self.statement(node)
        if kind == "Using":
            return self.using(node, exported or node["span"])
        if kind == "TsModule":
            return self.namespace(node, exported or node["span"])
        place = exported or range_of_default(decl)
        if place not in self.ranges:
            return None
        if kind in ("TsInterface", "TsTypeAlias", "TsEnum"):
            return decl
        if kind == "Class":
            return {"Class": dict(node, **{"class": self.class_(node["class"], node["declare"] or self.is_ambient)})}
        if self.is_ambient:
            return decl
        return {"Fn": dict(node, function=self.function(node["function"], node["ident"]["span"], "Method", place in self.impls))}

    def statement(self, var):
        decls = [decl for decl in var["decls"] if decl["span"] in self.ranges]
        if not decls:
            return None
        if not var["declare"] and not self.is_ambient:
            decls = [self.declarator(decl, var["kind"] == "Const") for decl in decls]
        return {"Var": dict(var, decls=decls)}

    def declarator(self, decl, is_const):
        kind, bound = variant(decl["name"])
        if kind != "Ident":
            self.fault("unsupported-destructuring", range_of_pattern(decl["name"]))
            return decl
        written = bound["type_ann"]
        if written is None and decl["init"] is not None:
            of_value = self.shown(is_const, decl["init"])
            written = of_value and annotated(of_value)
        if written is not None:
            return dict(decl, name={"Ident": dict(bound, type_ann=written)}, init=NEVER)
        left = decl["init"] and self.left(decl["init"], bound["id"]["span"])
        if left is None:
            self.fault("missing-explicit-type", bound["id"]["span"])
        return dict(decl, init=left)

    # -- functions

    def function(self, function, place, how, is_overloaded=False):
        """A function that is declared or a method (`Method`), a `Getter`, a `Setter`, or an expression (None)."""
        params, written = function["params"], function["return_type"]
        if is_overloaded:
            params = [self.overloaded(number, param) for number, param in enumerate(params)]
            written = annotated(keyword("any"))
        if written is None and how != "Setter":
            if function["is_generator"]:
                self.fault("missing-explicit-return-type", place, False, function["is_async"])
            elif function["body"] is not None:
                written = self.of_body(function, function["body"], place, how)
        body = function["body"] and NEW_BLOCK
        if body and written is not None and not is_void(written):
            body = dict(NEW_BLOCK, stmts=[new("Return", arg=NEVER)])
        pats = self.params([param["pat"] for param in params])
        params = [dict(param, decorators=[], pat=pat) for param, pat in zip(params, pats)]
        return dict(function, params=params, decorators=[], body=body, is_generator=False, is_async=False, return_type=written)

    def overloaded(self, number, param):
        bound = lambda optional, type_: {"Ident": {"id": dict(name_of(f"param{number}"), optional=optional), "type_ann": type_}}
        some = annotated(keyword("any"))
        pat = new("Rest", dot3_token=DUMMY, arg=bound(False, None), type_ann=some) if "Rest" in param["pat"] else bound(True, some)
        return {"span": DUMMY, "decorators": [], "pat": pat}

    def of_body(self, function, body, place, how):
        """The return type that a body shows. A fault and None where it shows none."""
        arg = None if function["is_generator"] else single_return_arg(body)
        named = self.shown(False, arg) if arg is not None and names_type(arg) else None
        if named is not None:
            return annotated(self.promised(named) if function["is_async"] else named)
        returns = return_class(body)
        if how != "Getter" and (returns == "Void" or returns == "None" and how == "Method"):
            return annotated(reference("Promise", keyword("void")) if function["is_async"] else keyword("void"))
        self.fault("missing-explicit-return-type", place, returns == "None" and how is None, function["is_async"])
        return None

    def arrow(self, arrow, place):
        body, written, is_async = arrow["body"], arrow["return_type"], arrow["is_async"]
        if written is None and "BlockStmt" in body:
            # what a body says is hidden, also where its type is missing
            written, body = self.of_body(arrow, body["BlockStmt"], place, None), {"BlockStmt": NEW_BLOCK}
        elif written is None:
            of_value = self.shown(False, body["Expr"])
            if of_value is not None:
                written = annotated(self.promised(of_value) if is_async else of_value)
            else:
                left = self.left(body["Expr"])
                if left is None:
                    self.fault("missing-explicit-return-type", place, False, is_async)
                body = {"Expr": left}
        if written is not None:
            body, is_async = {"BlockStmt": NEW_BLOCK} if is_void(written) else {"Expr": NEVER_IN_PARENTHESES}, False
        return dict(arrow, params=self.params(arrow["params"]), body=body, is_async=is_async, return_type=written)

    def promised(self, written):
        kind, node = variant(written)
        if kind == "TsTypeRef" and "Ident" in node["type_name"] and node["type_params"] and len(node["type_params"]["params"]) == 1:
            name = node["type_name"]["Ident"]
            if name["sym"] == "Promise" and name["ctxt"] == self.unresolved:
                return written
        return reference("Promise", written)

    # -- parameters

    def params(self, pats):
        return [self.param(pat, all(is_optional(later) for later in pats[place:])) for place, pat in enumerate(pats)]

    def param(self, pat, may_be_left_out):
        kind, node = variant(pat)
        if kind in ("Invalid", "Expr"):
            self.fault("unsupported-destructuring", range_of_pattern(pat))
            return pat
        if kind == "Assign":
            return self.defaulted(pat, may_be_left_out)
        if node["type_ann"] is None:
            self.fault("missing-explicit-type", range_of_pattern(pat))
        if kind == "Rest":
            return {"Rest": dict(node, arg=self.rest_of(node["arg"]))}
        return emptied(pat)

    def rest_of(self, pat):
        return {"Expr": EMPTY_OBJECT} if variant(pat)[0] in ("Rest", "Assign", "Expr") else emptied(pat)

    def defaulted(self, pat, may_be_left_out):
        assigned = pat["Assign"]
        kind, node = variant(assigned["left"])
        if kind == "Ident":
            return self.defaulted_name(assigned, node, may_be_left_out)
        if kind not in ("Array", "Object"):
            self.fault("unsupported-destructuring", assigned["span"])
            return pat
        right = NEVER_ARRAY if kind == "Array" else NEVER
        if node["type_ann"] is None:
            right = self.left(assigned["right"])
            if right is None:
                self.fault("missing-explicit-type", node["span"])
        return {"Assign": dict(assigned, left=emptied(assigned["left"]), right=right)}

    def defaulted_name(self, assigned, bound, may_be_left_out):
        written = bound["type_ann"]
        if written is None:
            of_value = self.shown(False, assigned["right"])
            written = of_value and annotated(of_value)
        if written is None:
            left = self.left(assigned["right"], bound["id"]["span"])
            if left is None:
                self.fault("missing-explicit-type", bound["id"]["span"])
            return {"Assign": dict(assigned, right=left)}
        if not may_be_left_out:
            either = new("TsUnionType", types=[written["type_ann"], keyword("undefined")])
            written = dict(written, type_ann={"TsUnionOrIntersectionType": either})
        return {"Ident": {"id": dict(bound["id"], optional=may_be_left_out), "type_ann": written}}

    # -- values that are left

    def left(self, value, place=None):
        """A value as it is left, or None where it can not be. `place` is the name's of which it is the whole value."""
        kind, node = variant(value)
        if kind in ("This", "Ident"):
            return value
        if kind == "Lit":
            return None if "JSXText" in node else value
        if kind in ("TsAs", "TsTypeAssertion"):
            return {kind: dict(node, expr=NEVER_IN_PARENTHESES)}
        if kind == "Fn":
            return {kind: dict(node, function=self.function(node["function"], place or node["function"]["span"], None))}
        if kind == "Arrow":
            return {kind: self.arrow(node, place or node["span"])}
        if kind in ALL_PARTS:
            return self.left_parts(kind, node, ALL_PARTS[kind])
        if kind in ("Array", "Object", "Tpl", "Member", "Call", "New"):
            return getattr(self, "left_" + kind.lower())(node)
        return None

    def left_parts(self, kind, node, parts):
        made = dict(node)
        for part in parts:
            made[part] = self.left(node[part])
            if made[part] is None:
                return None
        return {kind: made}

    def left_all(self, parts, left):
        made = []
        for part in parts:
            made.append(part and left(part))
            if part is not None and made[-1] is None:
                return None
        return made

    def left_element(self, element):
        left = self.left(element["expr"])
        return left and dict(element, expr=left)

    def left_array(self, node):
        elems = self.left_all(node["elems"], self.left_element)
        return None if elems is None else {"Array": dict(node, elems=elems)}

    def left_tpl(self, node):
        exprs = self.left_all(node["exprs"], self.left)
        return None if exprs is None else {"Tpl": dict(node, exprs=exprs)}

    def left_object(self, node):
        props = self.left_all(node["props"], self.left_property)
        return None if props is None else {"Object": dict(node, props=props)}

    def left_property(self, prop):
        kind, node = variant(prop)
        if kind == "Spread":
            left = self.left(node["expr"])
            return left and {"Spread": dict(node, expr=left)}
        kind, node = variant(node)
        if kind == "Shorthand":
            return prop
        if kind not in ("KeyValue", "Assign"):
            return None
        made = dict(node)
        if kind == "KeyValue" and "Computed" in node["key"]:
            left = self.left(node["key"]["Computed"]["expr"])
            if left is None:
                return None
            made["key"] = {"Computed": dict(node["key"]["Computed"], expr=left)}
        made["value"] = self.left(node["value"])
        return made["value"] and {"Prop": {kind: made}}

    def left_member(self, node):
        obj = self.left(node["obj"])
        kind, named = variant(node["prop"])
        if obj is None or kind == "PrivateName":
            return None
        if kind == "Computed":
            left = self.left(named["expr"])
            if left is None:
                return None
            return {"Member": dict(node, obj=obj, prop={kind: dict(named, expr=left)})}
        return {"Member": dict(node, obj=obj)}

    def left_call(self, node):
        """`Object.freeze` of one thing alone, where `Object` is bound nowhere."""
        callee = node["callee"].get("Expr", {}).get("Member", {"obj": {}, "prop": {}})
        obj, prop, args = callee["obj"].get("Ident"), callee["prop"].get("Ident"), node["args"]
        if not obj or obj["sym"] != "Object" or obj["ctxt"] != self.unresolved or not prop or prop["sym"] != "freeze":
            return None
        if len(args) != 1 or args[0]["spread"] is not None:
            return None
        arg = self.left_element(args[0])
        return arg and {"Call": dict(node, args=[arg])}

    def left_new(self, node):
        """`new` of a class without type parameters, by its name and without type arguments."""
        named = node["callee"].get("Ident")
        if not named or (named["sym"], named["ctxt"]) not in self.plain_classes or node["type_args"] is not None:
            return None
        if node["args"] is None:
            return {"New": node}
        args = self.left_all(node["args"], self.left_element)
        return None if args is None else {"New": dict(node, args=args)}


def emptied(pat):
    kind, node = variant(pat)
    field = {"Array": "elems", "Object": "props"}.get(kind)
    return {kind: dict(node, **{field: []})} if field else pat
