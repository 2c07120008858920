"""Changes of the reference's own modules in one place at a time, by Python's syntax trees."""
import ast
import dataclasses
import pathlib

MODULES = [
    "digests", "strip", "paths", "texts", "times", "zones", "armed", "files", "key", "recorded",
    "preprocessor_key", "entry", "markers", "walk", "wrapper", "arguments", "store", "calls", "mini",
    "script", "program", "errors",
]  # fmt: skip

COMPARISONS = {
    ast.Eq: [ast.NotEq],
    ast.NotEq: [ast.Eq],
    ast.Lt: [ast.LtE, ast.GtE],
    ast.LtE: [ast.Lt, ast.Gt],
    ast.Gt: [ast.GtE, ast.LtE],
    ast.GtE: [ast.Gt, ast.Lt],
    ast.In: [ast.NotIn],
    ast.NotIn: [ast.In],
    ast.Is: [ast.IsNot],
    ast.IsNot: [ast.Is],
}
OPERATORS = {
    ast.Add: [ast.Sub],
    ast.Sub: [ast.Add],
    ast.Mult: [ast.FloorDiv],
    ast.FloorDiv: [ast.Mult, ast.Mod],
    ast.Mod: [ast.FloorDiv],
    ast.Pow: [ast.Mult],
}
SYMMETRIC = {"max", "min"}
NAMES = {
    "any": "all",
    "all": "any",
    "min": "max",
    "max": "min",
    "sorted": "list",
    "startswith": "endswith",
    "endswith": "startswith",
    "find": "rfind",
    "rfind": "find",
    "modified": "changed",
    "changed": "modified",
    "common_args": "arch_args",
    "arch_args": "common_args",
    "preprocessor_args": "common_args",
}


@dataclasses.dataclass
class Change:
    """A change: the module, the line, the function, the text before and after, and the tree after it."""

    module: str
    line: int
    function: str
    before: str
    after: str
    tree: ast.Module

    def name(self):
        """The change as `equal.txt` names it."""
        return f"{self.module}.{self.function}: {self.before} -> {self.after}"


def short(text):
    """A text in one line."""
    return " ".join(text.split())


# ---- what a node may be changed to: each function gives other nodes


def of_compare(node):
    """Another comparison."""
    for other in COMPARISONS.get(type(node.ops[0]), []):
        yield ast.Compare(node.left, [other()] + node.ops[1:], node.comparators)
    if len(node.ops) > 1:
        yield ast.Compare(node.left, node.ops[:-1], node.comparators[:-1])
        yield ast.Compare(node.comparators[0], node.ops[1:], node.comparators[1:])
        for other in COMPARISONS.get(type(node.ops[1]), []):
            yield ast.Compare(node.left, [node.ops[0], other()], node.comparators)


def of_bool(node):
    """The other connective, or one operand left out."""
    yield ast.BoolOp(ast.And() if isinstance(node.op, ast.Or) else ast.Or(), node.values)
    for at in range(len(node.values)):
        rest = node.values[:at] + node.values[at + 1 :]
        yield rest[0] if len(rest) == 1 else ast.BoolOp(node.op, rest)


def of_unary(node):
    """Without the operator."""
    yield node.operand


def of_binary(node):
    """Another operator, or one operand alone."""
    for other in OPERATORS.get(type(node.op), []):
        yield ast.BinOp(node.left, other(), node.right)
    if isinstance(node.op, ast.Add):
        yield node.left
        yield node.right


def of_constant(node):
    """Another value."""
    value = node.value
    if isinstance(value, bool):
        yield ast.Constant(not value)
    elif isinstance(value, int):
        yield ast.Constant(value + 1)
        yield ast.Constant(value - 1)
    elif isinstance(value, bytes):
        yield ast.Constant(value + b"!" if value else b"!")
        if len(value) > 1:
            yield ast.Constant(value[:-1])
    elif isinstance(value, str):
        yield ast.Constant(value + "!")


def of_choice(node):
    """One branch of an expression, or the two the other way round."""
    yield node.body
    yield node.orelse
    yield ast.IfExp(node.test, node.orelse, node.body)


def of_call(node):
    """Two arguments swapped, a keyword left out, or an argument or a method's object alone."""
    if any(isinstance(argument, ast.Starred) for argument in node.args):
        return
    is_symmetric = isinstance(node.func, ast.Name) and node.func.id in SYMMETRIC
    for at in range(0 if is_symmetric else len(node.args) - 1):
        swapped = node.args[:at] + [node.args[at + 1], node.args[at]] + node.args[at + 2 :]
        yield ast.Call(node.func, swapped, node.keywords)
    for at in range(len(node.keywords)):
        yield ast.Call(node.func, node.args, node.keywords[:at] + node.keywords[at + 1 :])
    for at in range(len(node.keywords) - 1):
        yield ast.Call(node.func, node.args, swapped_values(node.keywords, at))
    if isinstance(node.func, ast.Attribute) and not node.args and not node.keywords:
        yield node.func.value
    if isinstance(node.func, ast.Name) and len(node.args) >= 1:
        yield node.args[0]


def swapped_values(keywords, at):
    """Keywords, two of them with each other's value."""
    first, second = keywords[at], keywords[at + 1]
    pair = [ast.keyword(first.arg, second.value), ast.keyword(second.arg, first.value)]
    return keywords[:at] + pair + keywords[at + 2 :]


def of_elements(node):
    """One element left out, or two swapped."""
    if isinstance(node.ctx, ast.Store):
        return
    for at in range(len(node.elts)):
        yield type(node)(node.elts[:at] + node.elts[at + 1 :], ast.Load())
    for at in range(len(node.elts) - 1):
        swapped = node.elts[:at] + [node.elts[at + 1], node.elts[at]] + node.elts[at + 2 :]
        yield type(node)(swapped, ast.Load())


def of_set(node):
    """One element left out."""
    if len(node.elts) > 1:
        for at in range(len(node.elts)):
            yield ast.Set(node.elts[:at] + node.elts[at + 1 :])


def of_dict(node):
    """One row left out, or the values of two swapped."""
    for at in range(len(node.keys)):
        yield ast.Dict(node.keys[:at] + node.keys[at + 1 :], node.values[:at] + node.values[at + 1 :])
    for at in range(len(node.keys) - 1):
        values = node.values[:at] + [node.values[at + 1], node.values[at]] + node.values[at + 2 :]
        yield ast.Dict(node.keys, values)


def of_slice(node):
    """Without one of its bounds."""
    if node.lower is not None:
        yield ast.Slice(None, node.upper, node.step)
    if node.upper is not None:
        yield ast.Slice(node.lower, None, node.step)


def of_name(node):
    """A function's counterpart."""
    if isinstance(node.ctx, ast.Load) and node.id in NAMES:
        yield ast.Name(NAMES[node.id], ast.Load())


def of_attribute(node):
    """A method's or a field's counterpart."""
    if isinstance(node.ctx, ast.Load) and node.attr in NAMES:
        yield ast.Attribute(node.value, NAMES[node.attr], ast.Load())


def of_comprehension(node):
    """Without a condition."""
    for at in range(len(node.ifs)):
        rest = node.ifs[:at] + node.ifs[at + 1 :]
        yield ast.comprehension(node.target, node.iter, rest, node.is_async)


def of_if(node):
    """The branch always or never."""
    yield ast.If(ast.Constant(True), node.body, node.orelse)
    yield ast.If(ast.Constant(False), node.body, node.orelse)


def of_statement(node):
    """Left out."""
    if not (isinstance(node, ast.Expr) and isinstance(node.value, ast.Constant)):
        yield ast.Pass()


def of_return(node):
    """Returns nothing."""
    if node.value is not None and not isinstance(node.value, ast.Constant):
        yield ast.Return(ast.Constant(None))


KINDS = {
    ast.Compare: of_compare,
    ast.BoolOp: of_bool,
    ast.UnaryOp: of_unary,
    ast.BinOp: of_binary,
    ast.Constant: of_constant,
    ast.IfExp: of_choice,
    ast.Call: of_call,
    ast.List: of_elements,
    ast.Tuple: of_elements,
    ast.Set: of_set,
    ast.Dict: of_dict,
    ast.Slice: of_slice,
    ast.Name: of_name,
    ast.Attribute: of_attribute,
    ast.comprehension: of_comprehension,
    ast.If: of_if,
    ast.Expr: of_statement,
    ast.AugAssign: of_statement,
    ast.Raise: of_statement,
    ast.Return: of_return,
}


# ---- where a module may be changed


@dataclasses.dataclass
class Place:
    """A node in a tree: its parent's field, the place in it where that is a list, and its function."""

    parent: ast.AST
    field: str
    at: int | None
    node: ast.AST
    function: str

    def put(self, node):
        """Puts another node there."""
        if self.at is None:
            setattr(self.parent, self.field, node)
        else:
            getattr(self.parent, self.field)[self.at] = node


SKIPPED_FIELDS = ("annotation", "returns", "decorator_list", "type")


def is_text_of_a_definition(parent, field, at, node):
    """Whether a node is the text that documents a module, a class or a function."""
    documented = isinstance(parent, (ast.Module, ast.ClassDef, ast.FunctionDef))
    return documented and field == "body" and at == 0 and isinstance(node, ast.Expr)


def places_of(parent, function="module"):
    """The places of a tree, from the top, in order."""
    for field, value in ast.iter_fields(parent):
        if field in SKIPPED_FIELDS:
            continue
        pairs = list(enumerate(value)) if isinstance(value, list) else [(None, value)]
        for at, node in pairs:
            if not isinstance(node, ast.AST) or isinstance(node, (ast.Import, ast.ImportFrom)):
                continue
            if is_text_of_a_definition(parent, field, at, node):
                continue
            yield Place(parent, field, at, node, function)
            yield from places_of(node, function_of(node, function))


def function_of(node, function):
    """The name of the function or class that a node is, or that of the one it is in."""
    if not isinstance(node, (ast.FunctionDef, ast.ClassDef)):
        return function
    return node.name if function == "module" else f"{function}.{node.name}"


def source_of(module):
    """The text of a module."""
    return (pathlib.Path(__file__).parent / f"{module}.py").read_text(encoding="utf-8")


def line_of(place):
    """The line of a place; a node without one has that of its parent."""
    return getattr(place.node, "lineno", getattr(place.parent, "lineno", 0))


def changes_of(module):
    """Each change of a module, in order. Its tree is made when it is asked for."""
    tree = ast.parse(source_of(module))
    for number, place in enumerate(list(places_of(tree))):
        for kind, node in enumerate(KINDS.get(type(place.node), lambda _: [])(place.node)):
            before, after = text_of(place.node), text_of(node)
            if before != after:
                yield Change(module, line_of(place), place.function, before, after, (number, kind))


def text_of(node):
    """A node in one line; of a branch its condition alone."""
    if isinstance(node, ast.If):
        return "if " + short(ast.unparse(node.test))
    if isinstance(node, ast.comprehension):
        return "for .." + "".join(" if " + short(ast.unparse(test)) for test in node.ifs)
    if isinstance(node, ast.Raise):
        return short(ast.unparse(node)).split(" from ")[0]
    return short(ast.unparse(ast.fix_missing_locations(node)))


def changed_tree(change):
    """The tree of the module after a change."""
    tree = ast.parse(source_of(change.module))
    number, kind = change.tree
    place = list(places_of(tree))[number]
    place.put(list(KINDS[type(place.node)](place.node))[kind])
    return ast.fix_missing_locations(tree)


def all_changes(modules):
    """The changes of several modules. Those of one name are distinguished by a number after it."""
    changes, seen = [], {}
    for module in modules:
        for change in changes_of(module):
            name = change.name()
            seen[name] = seen.get(name, 0) + 1
            if seen[name] > 1:
                change.after += f" #{seen[name]}"
            changes.append(change)
    return changes
