"""Trees of TypeScript: a constructor for each form, and a layout that writes a tree as text and gives each node its range.

A constructor answers the JSON of a node, with all fields, under the name of its variant where it stands in a choice. Its
ranges are None until it is laid out. Names have the scope number 2 unless they are `free`, which have 1.
"""
import json

FREE, MODULE, FUNCTION, BLOCK, ARROW = 1, 2, 3, 4, 5
DUMMY = [0, 0]


class Source:
    """A text that grows."""

    def __init__(self):
        self.text = ""

    def here(self):
        return len(self.text.encode()) + 1

    def write(self, text):
        start = self.here()
        self.text += text
        return [start, self.here()]


def form(**fields):
    return {"span": None, **fields}


# ---- names and literals


def ident(name, ctxt=MODULE, optional=False):
    return form(ctxt=ctxt, sym=name, optional=optional)


def ref(name, ctxt=MODULE):
    return {"Ident": ident(name, ctxt)}


def free(name):
    return ref(name, FREE)


def ident_name(name):
    return form(sym=name)


def text(value):
    return form(value=value, raw=json.dumps(value))


def lit(source):
    """The literal that TypeScript writes so."""
    if source.startswith('"'):
        return {"Lit": {"Str": text(json.loads(source))}}
    if source in ("true", "false"):
        return {"Lit": {"Bool": form(value=source == "true")}}
    if source == "null":
        return {"Lit": {"Null": form()}}
    if source.startswith("/"):
        exp, flags = source[1:].rsplit("/", 1)
        return {"Lit": {"Regex": form(exp=exp, flags=flags)}}
    if source.startswith("<"):
        return {"Lit": {"JSXText": form(raw=source)}}
    return {"Lit": {"BigInt" if source.endswith("n") else "Num": form(raw=source)}}


# ---- types

KEYWORDS = {"any": "TsAnyKeyword", "unknown": "TsUnknownKeyword", "number": "TsNumberKeyword", "object": "TsObjectKeyword",
            "boolean": "TsBooleanKeyword", "bigint": "TsBigIntKeyword", "string": "TsStringKeyword", "symbol": "TsSymbolKeyword",
            "void": "TsVoidKeyword", "undefined": "TsUndefinedKeyword", "null": "TsNullKeyword", "never": "TsNeverKeyword"}


def type_(written):
    """A keyword type by its word, or a type as it is."""
    return {"TsKeywordType": form(kind=KEYWORDS[written])} if isinstance(written, str) else written


def named(name, *params, ctxt=MODULE):
    return {"TsTypeRef": form(type_name={"Ident": ident(name, ctxt)}, type_params=instantiation(*params) if params else None)}


def instantiation(*params):
    return form(params=[type_(param) for param in params])


def array_of(of):
    return {"TsArrayType": form(elem_type=type_(of))}


def union(*types):
    return {"TsUnionOrIntersectionType": {"TsUnionType": form(types=[type_(type) for type in types])}}


def intersection(*types):
    return {"TsUnionOrIntersectionType": {"TsIntersectionType": form(types=[type_(type) for type in types])}}


def tuple_type(*types):
    return {"TsTupleType": form(elem_types=[form(label=None, ty=type_(type)) for type in types])}


def optional_type(of):
    return {"TsOptionalType": form(type_ann=type_(of))}


def rest_type(of):
    return {"TsRestType": form(type_ann=type_(of))}


def type_operator(op, of):
    return {"TsTypeOperator": form(op=op, type_ann=type_(of))}


def function_type(result):
    return {"TsFnOrConstructorType": {"TsFnType": form(params=[], type_params=None, type_ann=ann(result), is_abstract=False)}}


def literal_type(source):
    return {"TsLitType": form(lit={{"Num": "Number"}.get(kind, kind): node for kind, node in lit(source)["Lit"].items()})}


def ann(written):
    return None if written is None else form(type_ann=type_(written))


def type_params(*names):
    return form(params=[form(name=ident(name, FUNCTION), is_in=False, is_out=False, is_const=False, constraint=None, default=None) for name in names])


# ---- expressions


def expr(variant, **fields):
    return {variant: form(**fields)}


def element(item):
    return item if item is None or "expr" in item else {"spread": None, "expr": item}


def spread(value):
    return {"spread": None, "expr": value, "is_spread": True}


def array(*elems):
    return expr("Array", elems=[element(elem) for elem in elems])


def object_(*props):
    return expr("Object", props=list(props))


def pair(key, value):
    return {"Prop": {"KeyValue": {"key": key if isinstance(key, dict) else {"Ident": ident_name(key)}, "value": value}}}


def shorthand(name):
    return {"Prop": {"Shorthand": ident(name)}}


def computed(value):
    return {"Computed": form(expr=value)}


def key_literal(source):
    return dict(lit(source)["Lit"])


def assigned(name, value):
    return {"Prop": {"Assign": form(key=ident(name), value=value)}}


def spread_of(value):
    return {"Spread": {"dot3_token": None, "expr": value}}


def getter(name, *stmts):
    return {"Prop": {"Getter": form(key={"Ident": ident_name(name)}, type_ann=None, body=block(*stmts))}}


def setter(name, param):
    return {"Prop": {"Setter": form(key={"Ident": ident_name(name)}, param=param, body=block())}}


def method(name, *stmts, ret=None):
    return {"Prop": {"Method": {"key": {"Ident": ident_name(name)}, "function": fn([], *stmts, ret=ret)}}}


def unary(op, arg):
    return expr("Unary", op=op, arg=arg)


def update(op, arg, prefix=False):
    return expr("Update", op=op, prefix=prefix, arg=arg)


def binary(left, op, right):
    return expr("Bin", op=op, left=left, right=right)


def assign(name, value):
    return expr("Assign", op="=", left={"Simple": ref(name)}, right=value)


def assign_to(target, value, op="="):
    return expr("Assign", op=op, left={"Simple": target}, right=value)


def computed_of(obj, key):
    return expr("Member", obj=obj, prop=computed(key))


def member(obj, name):
    return expr("Member", obj=obj, prop={"Ident": ident_name(name)})


def index(obj, at):
    return expr("Member", obj=obj, prop=computed(at))


def hash_member(obj, name):
    return expr("Member", obj=obj, prop={"PrivateName": form(name=name)})


def cond(test, cons, alt):
    return expr("Cond", test=test, cons=cons, alt=alt)


def call(callee, *args):
    return expr("Call", ctxt=0, callee={"Expr": callee}, args=[element(arg) for arg in args], type_args=None)


def optional_call(callee, *args):
    return chain(Call=form(ctxt=0, callee={"Expr": callee}, args=[element(arg) for arg in args], type_args=None))


def optional_member(obj, name):
    return chain(Member=form(obj=obj, prop={"Ident": ident_name(name)}))


def chain(**base):
    return expr("OptChain", optional=True, base=base)


def freeze(*args, obj=None):
    return call(member(obj or free("Object"), "freeze"), *args)


def new(callee, *args, type_args=None):
    return expr("New", ctxt=0, callee=callee, args=[element(arg) for arg in args], type_args=type_args)


def new_bare(callee):
    """`new` without a list of arguments."""
    return expr("New", ctxt=0, callee=callee, args=None, type_args=None)


def tpl(*parts):
    """A template of texts with expressions between them."""
    texts = parts[::2]
    quasis = [form(tail=place == len(texts) - 1, cooked=part, raw=part) for place, part in enumerate(texts)]
    return form(exprs=list(parts[1::2]), quasis=quasis)


def template(*parts):
    return {"Tpl": tpl(*parts)}


def paren(value):
    return expr("Paren", expr=value)


def as_(value, written):
    return expr("TsAs", expr=value, type_ann=type_(written))


def angle(written, value):
    return expr("TsTypeAssertion", expr=value, type_ann=type_(written))


def satisfies(value, written):
    return expr("TsSatisfies", expr=value, type_ann=type_(written))


def as_const(value):
    return expr("TsConstAssertion", expr=value)


def non_null(value):
    return expr("TsNonNull", expr=value)


def arrow(params, body, ret=None, is_async=False, generics=None):
    body = {"BlockStmt": body} if "stmts" in body else {"Expr": body}
    return expr("Arrow", ctxt=ARROW, params=list(params), body=body, is_async=is_async, is_generator=False, type_params=generics, return_type=ann(ret))


def fn(params, *stmts, ret=None, is_async=False, is_generator=False, generics=None, body=True):
    """A function as a part of what declares it."""
    params = [param if "decorators" in param else form(decorators=[], pat=param) for param in params]
    return form(params=params, decorators=[], ctxt=FUNCTION, body=block(*stmts) if body else None, is_generator=is_generator, is_async=is_async,
        type_params=generics, return_type=ann(ret))


def function(params, *stmts, name=None, **more):
    return {"Fn": {"ident": ident(name, FUNCTION) if name else None, "function": fn(params, *stmts, **more)}}


# ---- classes


def class_(super_class=None, *members, decorators=(), is_abstract=False, generics=None):
    return form(ctxt=FUNCTION, decorators=list(decorators), body=list(members), super_class=super_class, is_abstract=is_abstract, type_params=generics,
        super_type_params=None, implements=[])


def class_stmt(name, *members, super_class=None, declare=False, **more):
    return {"Decl": {"Class": {"ident": ident(name), "declare": declare, "class": class_(super_class, *members, **more)}}}


def decorator(name="d"):
    return form(expr=ref(name))


def member_key(key):
    """A key by its text, as a name, or as it is."""
    return {"Ident": ident_name(key)} if isinstance(key, str) else key


def hash_key(name):
    return form(name=name)


def word_of(access):
    return access and access.capitalize()


def prop(key, written=None, value=None, access=None, **flags):
    """A property; the flags are decorators, static, abstract, optional, override, readonly, declare and definite."""
    is_ = lambda flag: flags.get(flag, False)
    return {"ClassProp": form(key=member_key(key), value=value, type_ann=ann(written), is_static=is_("static"), decorators=list(flags.get("decorators", ())),
        accessibility=word_of(access), is_abstract=is_("abstract"), is_optional=is_("optional"), is_override=is_("override"), readonly=is_("readonly"),
        declare=is_("declare"), definite=is_("definite"))}


def hash_prop(name, written=None, value=None, static=False, readonly=False):
    return {"PrivateProp": form(ctxt=0, key=hash_key(name), value=value, type_ann=ann(written), is_static=static, decorators=[], accessibility=None,
        is_optional=False, is_override=False, readonly=readonly, definite=False)}


def accessor(key, written=None, value=None, access=None, **flags):
    """An accessor; a key `#x` is a hash name."""
    key = {"Private": hash_key(key[1:])} if isinstance(key, str) and key.startswith("#") else {"Public": member_key(key)}
    is_ = lambda flag: flags.get(flag, False)
    return {"AutoAccessor": form(key=key, value=value, type_ann=ann(written), is_static=is_("static"), decorators=list(flags.get("decorators", ())),
        accessibility=word_of(access), is_abstract=is_("abstract"), is_override=is_("override"), definite=is_("definite"))}


def class_method(key, params=(), *stmts, kind="Method", access=None, static=False, abstract=False, optional=False, override=False, decorators=(), **more):
    function = fn(params, *stmts, **more)
    function["decorators"] = list(decorators)
    return {"Method": form(key=member_key(key), function=function, kind=kind, is_static=static, accessibility=word_of(access), is_abstract=abstract,
        is_optional=optional, is_override=override)}


def hash_method(name, *stmts, kind="Method"):
    return {"PrivateMethod": form(key=hash_key(name), function=fn([], *stmts), kind=kind, is_static=False, accessibility=None, is_abstract=False,
        is_optional=False, is_override=False)}


def constructor(params=(), *stmts, access=None, body=True):
    params = [param if "TsParamProp" in param else {"Param": param if "decorators" in param else form(decorators=[], pat=param)} for param in params]
    return {"Constructor": form(ctxt=FUNCTION, key={"Ident": ident_name("constructor")}, params=params, body=block(*stmts) if body else None,
        accessibility=word_of(access), is_optional=False)}


def param_prop(pattern, access=None, readonly=False, override=False, decorators=()):
    (variant, node), = pattern.items()
    return {"TsParamProp": form(decorators=list(decorators), accessibility=word_of(access), is_override=override, readonly=readonly, param={variant: node})}


def super_call(*args, type_args=None):
    return run(expr("Call", ctxt=0, callee={"Super": form()}, args=[element(arg) for arg in args], type_args=type_args))


def index_signature(name, of, written, static=False, readonly=False):
    param = {"Ident": {"id": ident(name, FUNCTION), "type_ann": ann(of)}}
    return {"TsIndexSignature": form(params=[param], type_ann=ann(written), readonly=readonly, is_static=static)}


def static_block(*stmts):
    return {"StaticBlock": form(body=block(*stmts))}


def empty_member():
    return {"Empty": form()}


# ---- patterns


def name(name, written=None, optional=False):
    return {"Ident": {"id": ident(name, FUNCTION, optional), "type_ann": ann(written)}}


def rest(of, written=None):
    return {"Rest": form(dot3_token=None, arg=of, type_ann=ann(written))}


def array_pattern(*elems, written=None, optional=False):
    return {"Array": form(elems=list(elems), optional=optional, type_ann=ann(written))}


def object_pattern(*names, written=None, optional=False):
    props = [{"Assign": form(key={"id": ident(each, FUNCTION), "type_ann": None}, value=None)} for each in names]
    return {"Object": form(props=props, optional=optional, type_ann=ann(written))}


def default(of, value):
    return {"Assign": form(left=of, right=value)}


def decorated(pattern):
    return form(decorators=[form(expr=ref("d"))], pat=pattern)


# ---- statements


def block(*stmts):
    return form(ctxt=BLOCK, stmts=list(stmts))


def stmt(variant, **fields):
    return {variant: form(**fields)}


def returned(value=None):
    return stmt("Return", arg=value)


def run(value):
    return stmt("Expr", expr=value)


def thrown(value):
    return stmt("Throw", arg=value)


def declarator(pattern, value=None):
    return form(name=pattern if isinstance(pattern, dict) else {"Ident": {"id": ident(pattern), "type_ann": None}}, init=value, definite=False)


def variables(kind, *declarators, declare=False):
    return form(ctxt=0, kind=kind, declare=declare, decls=list(declarators))


def var_stmt(kind, *declarators, declare=False):
    return {"Decl": {"Var": variables(kind, *declarators, declare=declare)}}


def fn_stmt(name, params, *stmts, declare=False, **more):
    return {"Decl": {"Fn": {"ident": ident(name), "declare": declare, "function": fn(params, *stmts, **more)}}}


def exported(stmt):
    return {"ModuleDecl": {"ExportDecl": form(decl=stmt["Decl"])}}


def unexported(stmt):
    return {"Stmt": stmt}


# ---- layout: for each form the pieces of its text, and each choice a table of its variants


def lay(source, pieces, node):
    start = source.here()
    for piece in pieces:
        source.write(piece) if isinstance(piece, str) else piece(source, node)
    if "span" in node:
        node["span"] = [start, source.here()]


def lay_as(source, kind, node):
    if node is None:
        return
    layout = LAYOUTS[kind]
    if isinstance(layout, dict):
        (variant, node), = node.items()
        layout = layout[variant]
    if isinstance(layout, str):
        lay_as(source, layout, node)
    elif isinstance(layout, list):
        lay(source, layout, node)
    else:
        layout(source, node)


def one(field, kind):
    return lambda source, node: lay_as(source, kind, node[field])


def many(field, kind, between=", "):
    def piece(source, node):
        for place, part in enumerate(node[field] or []):
            if place:
                source.write(between)
            lay_as(source, kind, part)
    return piece


def word(field):
    return lambda source, node: source.write(node[field])


def when(field, text):
    return lambda source, node: source.write(text) if node[field] else None


def braces(field, kind, between):
    inside = many(field, kind, between)

    def piece(source, node):
        if not node[field]:
            source.write("{}")
            return
        source.write("{ ")
        inside(source, node)
        source.write(" }")
    return piece


def keyword_text(source, node):
    source.write({kind: text for text, kind in KEYWORDS.items()}[node["kind"]])


def operator(source, node):
    source.write(node["op"] + (" " if node["op"].isalpha() else ""))


def updated(source, node):
    pieces = [word("op"), one("arg", "expr")]
    for piece in pieces if node["prefix"] else reversed(pieces):
        piece(source, node)


def lay_element(source, node):
    if node.pop("is_spread", False):
        node["spread"] = source.write("...")
    elif node["spread"]:
        source.write("...")
    lay_as(source, "expr", node["expr"])


def dots(source, node):
    node["dot3_token"] = source.write("...")


def lay_template(source, node):
    source.write("`")
    for place, quasi in enumerate(node["quasis"]):
        if place:
            source.write("${")
            lay_as(source, "expr", node["exprs"][place - 1])
            source.write("}")
        quasi["span"] = source.write(quasi["raw"])
    source.write("`")


def lay_function(source, node, name):
    lay(source, [when("is_async", "async "), "function", when("is_generator", "*"), " ", lambda source, _: lay_as(source, "ident", name),
                 *SIGNATURE], node)


def lay_declared(source, node):
    function = node["function"]
    start = source.here()
    source.write("declare " if node["declare"] else "")
    lay_function(source, function, node["ident"])
    function["span"] = [start, source.here()]


def lay_declared_class(source, node):
    lay_class(source, node, "declare " * node["declare"] + "abstract " * node["class"]["is_abstract"])


def lay_class(source, node, words):
    """A class behind its name. Its range takes in its decorators where no other word stands before `class`."""
    is_bare = not words and not source.text.endswith(("export ", "default "))
    start = source.here()
    lay(source, [*DECORATORS], {"decorators": node["class"]["decorators"]})
    name = lambda source, _: (source.write(" "), lay_as(source, "ident", node["ident"])) if node["ident"] else None
    lay(source, [words, "class", name, *HERITAGE], node["class"])
    if is_bare:
        node["class"]["span"][0] = start


def accessibility(source, node):
    source.write(f"{node['accessibility'].lower()} " if node["accessibility"] else "")


def lay_class_method(source, node):
    function, start = node["function"], source.here()
    lay(source, [*DECORATORS], {"decorators": function["decorators"]})
    for piece in [accessibility, *when_all("static", "abstract", "override")]:
        piece(source, node)
    source.write({"Getter": "get ", "Setter": "set "}.get(node["kind"], ""))
    source.write("async " * function["is_async"] + "*" * function["is_generator"])
    lay_as(source, "hash_name" if "name" in node["key"] else "key", node["key"])
    source.write("?" if node["is_optional"] else "")
    lay(source, SIGNATURE, function)
    function["span"] = [start, source.here()]


def lay_index_parameters(source, node):
    """The parameter of an index signature, whose name takes in its type."""
    many("params", "pattern")(source, node)
    node["params"][0]["Ident"]["id"]["span"][1] = source.here()


def when_all(*flags):
    return [when(f"is_{flag}", f"{flag} ") for flag in flags]


def lay_method(source, node):
    lay(source, [lambda source, _: lay_as(source, "key", node["key"]), *SIGNATURE], node["function"])


def after_dot(kind):
    """A name after a dot: its range has no dot."""
    def layout(source, node):
        source.write(".")
        lay_as(source, kind, node)
    return layout


def lay_arguments(source, node):
    """The arguments of `new`, in parentheses unless there is no list of them."""
    if node["args"] is not None:
        lay(source, ["(", many("args", "element"), ")"], node)


OPTIONAL = {
    "Member": [one("obj", "expr"), "?", one("prop", "property")],
    "Call": [one("callee", "callee"), "?.", one("type_args", "instantiation"), "(", many("args", "element"), ")"]}


def lay_chain(source, node):
    (variant, base), = node["base"].items()
    lay(source, OPTIONAL[variant], base)


SIGNATURE = [one("type_params", "type_params"), "(", many("params", "param"), ")", one("return_type", "ann"),
             lambda source, node: source.write(" " if node["body"] else ";"), one("body", "block")]
DECORATORS = [many("decorators", "decorator", " "), when("decorators", " ")]
HERITAGE = [one("type_params", "type_params"), when("super_class", " extends "), one("super_class", "expr"), one("super_type_params", "instantiation"),
            when("implements", " implements "), many("implements", "implemented"), " ", braces("body", "member", " ")]
MARKS = [when("definite", "!"), one("type_ann", "ann"), when("value", " = "), one("value", "expr"), ";"]
MEMBERS = {
    "Constructor": [accessibility, one("key", "key"), "(", many("params", "constructor_param"), ")",
                    lambda source, node: source.write(" " if node["body"] else ";"), one("body", "block")],
    "Method": [lay_class_method], "PrivateMethod": [lay_class_method],
    "ClassProp": [*DECORATORS, when("declare", "declare "), accessibility, *when_all("static", "abstract", "override"), when("readonly", "readonly "),
                  one("key", "key"), when("is_optional", "?"), *MARKS],
    "PrivateProp": [*DECORATORS, accessibility, *when_all("static", "override"), when("readonly", "readonly "), one("key", "hash_name"),
                    when("is_optional", "?"), *MARKS],
    "AutoAccessor": [*DECORATORS, accessibility, *when_all("static", "abstract", "override"), "accessor ", one("key", "accessor_key"), *MARKS],
    "TsIndexSignature": [when("is_static", "static "), when("readonly", "readonly "), "[", lay_index_parameters, "]", one("type_ann", "ann"), ";"],
    "StaticBlock": ["static ", one("body", "block")], "Empty": [";"]}
JSX = [word("raw")]
LAYOUTS = {
    "ident": [word("sym")],
    "ident_name": [word("sym")],
    "hash_name": ["#", word("name")],
    "literal": {"Str": [lambda source, node: source.write(node["raw"] or json.dumps(node["value"]))], "Bool": [lambda source, node: source.write("true" if node["value"] else "false")], "Null": ["null"], "Num": [word("raw")],
                "Number": [word("raw")], "BigInt": [word("raw")], "Regex": ["/", word("exp"), "/", word("flags")], "JSXText": JSX},
    "ann": [": ", one("type_ann", "type")],
    "result": ["=> ", one("type_ann", "type")],
    "type": {"TsKeywordType": [keyword_text], "TsTypeRef": [one("type_name", "entity"), one("type_params", "instantiation")],
             "TsArrayType": [one("elem_type", "type"), "[]"], "TsTupleType": ["[", many("elem_types", "tuple_element"), "]"],
             "TsUnionOrIntersectionType": "union", "TsFnOrConstructorType": "function_type",
             "TsOptionalType": [one("type_ann", "type"), "?"], "TsRestType": ["...", one("type_ann", "type")],
             "TsLitType": [one("lit", "literal")], "TsTypeOperator": [lambda source, node: source.write(f"{node['op'].lower()} "), one("type_ann", "type")]},
    "tuple_element": [one("ty", "type")],
    "union": {"TsUnionType": [many("types", "type", " | ")], "TsIntersectionType": [many("types", "type", " & ")]},
    "function_type": {"TsFnType": ["(", many("params", "pattern"), ") ", one("type_ann", "result")]},
    "entity": {"Ident": "ident"},
    "instantiation": ["<", many("params", "type"), ">"],
    "type_params": ["<", many("params", "type_param"), ">"],
    "type_param": [one("name", "ident")],
    "expr": {
        "This": ["this"], "Array": ["[", many("elems", "element"), "]"], "Object": [braces("props", "prop", ", ")],
        "Fn": [lambda source, node: lay_function(source, node["function"], node["ident"])], "Unary": [operator, one("arg", "expr")], "Update": [updated],
        "Bin": [one("left", "expr"), " ", word("op"), " ", one("right", "expr")], "Assign": [one("left", "target"), " ", word("op"), " ", one("right", "expr")],
        "Member": [one("obj", "expr"), one("prop", "property")], "SuperProp": ["super", one("prop", "property")],
        "Cond": [one("test", "expr"), " ? ", one("cons", "expr"), " : ", one("alt", "expr")],
        "Call": [one("callee", "callee"), one("type_args", "instantiation"), "(", many("args", "element"), ")"],
        "New": ["new ", one("callee", "expr"), one("type_args", "instantiation"), lay_arguments],
        "Seq": [many("exprs", "expr")], "Ident": "ident", "Lit": "literal", "Tpl": [lay_template], "TaggedTpl": [one("tag", "expr"), one("tpl", "tpl")],
        "Arrow": [when("is_async", "async "), one("type_params", "type_params"), "(", many("params", "pattern"), ")", one("return_type", "ann"), " => ",
            one("body", "body")],
        "Class": [one("class", "class")], "Yield": ["yield", when("delegate", "*"), " ", one("arg", "expr")], "MetaProp": [word("kind")],
        "Await": ["await ", one("arg", "expr")],
        "Paren": ["(", one("expr", "expr"), ")"], "JSXMember": JSX, "JSXNamespacedName": JSX, "JSXEmpty": JSX, "JSXElement": JSX, "JSXFragment": JSX,
        "TsTypeAssertion": ["<", one("type_ann", "type"), ">", one("expr", "expr")], "TsConstAssertion": [one("expr", "expr"), " as const"],
        "TsNonNull": [one("expr", "expr"), "!"], "TsAs": [one("expr", "expr"), " as ", one("type_ann", "type")],
        "TsInstantiation": [one("expr", "expr"), one("type_args", "instantiation")],
        "TsSatisfies": [one("expr", "expr"), " satisfies ", one("type_ann", "type")],
        "PrivateName": "hash_name", "OptChain": [lay_chain], "Invalid": ["@"]},
    "class": ["class", *HERITAGE],
    "member": MEMBERS,
    "accessor_key": {"Private": "hash_name", "Public": "key"},
    "constructor_param": {"Param": "param", "TsParamProp": [*DECORATORS, accessibility, when("is_override", "override "), when("readonly", "readonly "),
        one("param", "pattern")]},
    "implemented": [one("expr", "expr"), one("type_args", "instantiation")],
    "tpl": [lay_template],
    "element": [lay_element],
    "callee": {"Super": ["super"], "Import": ["import"], "Expr": "expr"},
    "target": {"Simple": "expr", "Pat": "pattern"},
    "property": {"Ident": after_dot("ident_name"), "PrivateName": after_dot("hash_name"), "Computed": ["[", one("expr", "expr"), "]"]},
    "key": {"Ident": "ident_name", "Str": [word("raw")], "Num": [word("raw")], "BigInt": [word("raw")], "Computed": ["[", one("expr", "expr"), "]"]},
    "prop": {"Prop": "own_prop", "Spread": [dots, one("expr", "expr")]},
    "own_prop": {"Shorthand": "ident", "KeyValue": [one("key", "key"), ": ", one("value", "expr")],
        "Assign": [one("key", "ident"), " = ", one("value", "expr")],
                 "Getter": ["get ", one("key", "key"), "() ", one("body", "block")],
                 "Setter": ["set ", one("key", "key"), "(", one("param", "pattern"), ") ", one("body", "block")],
                 "Method": [lay_method]},
    "body": {"BlockStmt": "block", "Expr": "expr"},
    "pattern": {"Ident": "binding", "Array": ["[", many("elems", "pattern"), "]", when("optional", "?"), one("type_ann", "ann")],
                "Rest": [dots, one("arg", "pattern"), one("type_ann", "ann")],
                "Object": [braces("props", "pattern_prop", ", "), when("optional", "?"), one("type_ann", "ann")],
                "Assign": [one("left", "pattern"), " = ", one("right", "expr")], "Invalid": ["@"], "Expr": "expr"},
    "binding": [one("id", "ident"), lambda source, node: source.write("?" if node["id"]["optional"] else ""), one("type_ann", "ann")],
    "pattern_prop": {"Assign": [one("key", "binding")]},
    "param": [many("decorators", "decorator", " "), when("decorators", " "), one("pat", "pattern")],
    "decorator": ["@", one("expr", "expr")],
    "block": [braces("stmts", "stmt", " ")],
    "stmt": {
        "Block": "block", "Empty": [";"], "Debugger": ["debugger;"], "With": ["with (", one("obj", "expr"), ") ", one("body", "stmt")],
        "Return": ["return", when("arg", " "), one("arg", "expr"), ";"], "Labeled": [one("label", "ident"), ": ", one("body", "stmt")],
        "Break": ["break;"], "Continue": ["continue;"],
        "If": ["if (", one("test", "expr"), ") ", one("cons", "stmt"), when("alt", " else "), one("alt", "stmt")],
        "Switch": ["switch (", one("discriminant", "expr"), ") ", braces("cases", "case", " ")], "Throw": ["throw ", one("arg", "expr"), ";"],
        "Try": ["try ", one("block", "block"), when("handler", " "), one("handler", "handler"), when("finalizer", " finally "), one("finalizer", "block")],
        "While": ["while (", one("test", "expr"), ") ", one("body", "stmt")], "DoWhile": ["do ", one("body", "stmt"), " while (", one("test", "expr"), ");"],
        "For": ["for (;;) ", one("body", "stmt")], "ForIn": ["for (", one("left", "head"), " in ", one("right", "expr"), ") ", one("body", "stmt")],
        "ForOf": ["for (", one("left", "head"), " of ", one("right", "expr"), ") ", one("body", "stmt")], "Decl": "decl", "Expr": [one("expr", "expr"), ";"]},
    "case": [lambda source, node: source.write("case " if node["test"] else "default"), one("test", "expr"), ":", when("cons", " "), many("cons", "stmt", " ")],
    "handler": ["catch ", one("body", "block")],
    "head": {"VarDecl": "head_variables", "Pat": "pattern"},
    "head_variables": [lambda source, node: source.write(node["kind"].lower() + " "), many("decls", "declarator")],
    "decl": {"Var": [when("declare", "declare "), lambda source, node: source.write(node["kind"].lower() + " "), many("decls", "declarator"), ";"],
             "Fn": [lay_declared], "Class": [lay_declared_class], "Using": ["using ", many("decls", "declarator"), ";"],
             "TsModule": ["namespace ", one("id", "entity"), " ", one("body", "namespace_body")]},
    "namespace_body": {"TsModuleBlock": [braces("body", "item", " ")]},
    "declarator": [one("name", "pattern"), when("init", " = "), one("init", "expr")],
    "item": {"ModuleDecl": "module_decl", "Stmt": "stmt"},
    "module_decl": {"ExportDecl": ["export ", one("decl", "decl")]},
}


def lay_items(items):
    """Items with the range of each node, one blank between items, and their text."""
    items, source = unshared(items), Source()
    for place, item in enumerate(items):
        if place:
            source.write(" ")
        lay_as(source, "item", item)
    return items, source.text


def unshared(items):
    """The same trees, each node in one place only."""
    return json.loads(json.dumps(items))
