"""Checks that the file of a lock is in the language of the exercises: a part of Python that reaches nothing except the registers of
the lock. It has no imports except those of `IMPORTS`, no attributes except `METHODS`, and no built-in functions except `FUNCTIONS`.
The file is only parsed here. Nothing of it runs before it has passed.
"""

import ast
import builtins

from driver import Mistake

IMPORTS = {"cells": ("register", "shared", "leaving", "until"), "locks": ("others",)}
METHODS = ("get", "set", "swap", "add", "cas", "append")
FUNCTIONS = ("range", "len", "max", "min", "sum", "any", "all", "abs", "sorted", "reversed", "enumerate", "zip", "list", "tuple", "int", "bool")
STATEMENTS = (ast.Expr, ast.FunctionDef, ast.Return, ast.Assign, ast.AugAssign, ast.For, ast.While, ast.If, ast.Pass, ast.Break, ast.Continue)
EXPRESSIONS = (
    *(ast.Yield, ast.YieldFrom, ast.NamedExpr, ast.BoolOp, ast.BinOp, ast.UnaryOp, ast.IfExp, ast.Compare, ast.Call, ast.Constant),
    *(ast.Name, ast.Attribute, ast.Subscript, ast.Slice, ast.Tuple, ast.List, ast.Starred, ast.ListComp, ast.GeneratorExp),
    *(ast.JoinedStr, ast.FormattedValue),
)
PARTS = (ast.arguments, ast.arg, ast.keyword, ast.comprehension, ast.expr_context, ast.boolop, ast.operator, ast.unaryop, ast.cmpop)
CONSTANTS = (str, int, bool, type(None))


def check(source):
    """Raises a mistake if the bytes of a file are not in the language, which names the first line that is not."""
    try:
        tree = ast.parse(source)
    except SyntaxError as error:
        raise Mistake(f"line {error.lineno}: {error.msg}") from None
    except (ValueError, RecursionError, MemoryError) as error:
        raise Mistake(f"the file is not Python: {type(error).__name__}") from None
    for node in ast.walk(tree):
        found = fault_of(node)
        if found:
            raise Mistake(f"line {getattr(node, 'lineno', 1)}: {found} is not in the language of the exercises")


def fault_of(node):
    """Returns what is not in the language, or None."""
    if isinstance(node, ast.ImportFrom):
        return fault_of_import(node)
    if isinstance(node, (ast.Import, ast.alias)):
        return None if isinstance(node, ast.alias) else f"`import {node.names[0].name}`"
    if isinstance(node, ast.FunctionDef) and node.decorator_list:
        return "a decorator"
    if isinstance(node, ast.Attribute) and not (node.attr in METHODS and isinstance(node.ctx, ast.Load)):
        return f"`.{node.attr}`"
    if isinstance(node, ast.Constant) and not isinstance(node.value, CONSTANTS):
        return f"the value {node.value!r}"
    if isinstance(node, (ast.Module, *STATEMENTS, *EXPRESSIONS, *PARTS)):
        return fault_of_name(node)
    return f"`{type(node).__name__}`"


def fault_of_import(node):
    """Returns what is wrong with an import, or None."""
    for it in node.names:
        if node.level or it.name not in IMPORTS.get(node.module, ()) or (it.asname or it.name).startswith("_"):
            return f"`from {'.' * node.level}{node.module or ''} import {it.name}`"
    return None


def fault_of_name(node):
    """Returns what is wrong with a name, or None."""
    name = {ast.Name: "id", ast.arg: "arg", ast.FunctionDef: "name", ast.keyword: "arg"}.get(type(node))
    name = name and getattr(node, name) or ""
    is_hidden = name.startswith("_") and name != "_"
    is_other_function = isinstance(node, ast.Name) and hasattr(builtins, name) and name not in FUNCTIONS
    return f"`{name}`" if is_hidden or is_other_function else None
