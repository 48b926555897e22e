"""Values in words, and words as values: what a prompt and a fault say."""
from __future__ import annotations

import ast
import decimal
import html
import typing

from .faults import WrongValue
from .values import CELLS, EMPTY, INTEGERS, MISSING, NULL_BSTR, VT, Array, Currency, SCode, Value

_SHORT = 60


def words_of(value: object) -> str:
    """A value in the words that `value_of` takes."""
    if value is None:
        return "null"
    if isinstance(value, bool):
        return "true" if value else "false"
    return repr(value)


def short_words(value: object) -> str:
    """A value in words that fit a line: of a long text or array its beginning."""
    if isinstance(value, (str, bytes, bytearray)) and len(value) > _SHORT:
        return f"{value[: _SHORT // 2]!r}.. ({len(value)})"
    if isinstance(value, Array) and len(value.cells) > _SHORT // 4:
        return f"an array of {len(value.cells)} cells"
    if isinstance(value, (list, tuple, range)) and len(value) > _SHORT // 4:
        return f"{type(value).__name__} of {len(value)}"
    told = words_of(value)
    return told if len(told) <= 2 * _SHORT else f"{told[:_SHORT]}.."


def html_table(
    title: str,
    heads: typing.Sequence[str],
    rows: typing.Iterable[typing.Sequence[object]],
    left_out: str = "",
) -> str:
    """A table as a notebook shows it. Texts of a server are escaped."""

    def cells(word: str, row: typing.Sequence[object]) -> str:
        return "".join(f"<{word}>{html.escape(str(it))}</{word}>" for it in row)

    head = f"<thead><tr>{cells('th', heads)}</tr></thead>" if heads else ""
    body = "".join(f"<tr>{cells('td', row)}</tr>" for row in rows)
    behind = f"<p>{html.escape(left_out)}</p>" if left_out else ""
    caption = f"<caption>{html.escape(title)}</caption>"
    return f"<table>{caption}{head}<tbody>{body}</tbody></table>{behind}"


_NAMES = {
    "true": True,
    "false": False,
    "null": None,
    "empty": EMPTY,
    "null_bstr": NULL_BSTR,
    "missing": MISSING,
}
_CALLS: dict[str, typing.Callable[..., object]] = {
    it.__name__: it for it in (*INTEGERS.values(), SCode, Currency, Array, decimal.Decimal)
}
# (as a number of VT_ERROR was called before)
_CALLS["Error"] = SCode
_TYPES: dict[str, object] = {
    **{it.__name__: it for it in (*INTEGERS.values(), Currency, bool, str, object)},
    **{vt.name: vt for vt in VT if int(vt) in CELLS},
}


def value_of(text: str) -> Value:
    """The value of words: a Python literal, `2.50` (a Decimal), true, false, null, empty,
    null_bstr, missing, `I2(5)`, `Currency("2.5")`, `SCode(0x80004005)`, `[[1, 2], [3, 4]]`,
    `Array(I2, [(2, -1)], [1, 2])`. Raises ValueError for anything else."""

    def read(node: ast.AST) -> object:
        if isinstance(node, ast.Constant) and isinstance(node.value, (int, str, bytes, type(None))):
            return node.value
        if isinstance(node, ast.Constant) and isinstance(node.value, float):
            return decimal.Decimal(ast.get_source_segment(text, node) or "")
        if isinstance(node, ast.UnaryOp) and isinstance(node.op, ast.USub):
            value = read(node.operand)
            if isinstance(value, decimal.Decimal):
                return value.copy_negate()
            if type(value) is int:
                return -value
        if isinstance(node, (ast.List, ast.Tuple)):
            return (
                [read(it) for it in node.elts]
                if isinstance(node, ast.List)
                else tuple(read(it) for it in node.elts)
            )
        if isinstance(node, ast.Name) and node.id.lower() in _NAMES:
            return _NAMES[node.id.lower()]
        if isinstance(node, ast.Name) and node.id in _TYPES:
            return _TYPES[node.id]
        if (
            isinstance(node, ast.Call)
            and isinstance(node.func, ast.Name)
            and node.func.id in _CALLS
            and not node.keywords
        ):
            return _CALLS[node.func.id](*[read(it) for it in node.args])
        raise WrongValue(f"no value: {text}")

    text = text.strip()
    try:
        return read(ast.parse(text, mode="eval").body)
    except (
        SyntaxError,
        ArithmeticError,
        TypeError,
        LookupError,
        MemoryError,
        RecursionError,
    ) as error:
        raise WrongValue(f"no value: {text}") from error
