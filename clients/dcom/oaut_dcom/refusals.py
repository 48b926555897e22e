"""Refusals in words, as clients/com/refusals.c has them. tests/tables/refusals.txt has the table
that both are compared with."""
from __future__ import annotations

import typing

from .codes import DISP_E_BADVARTYPE, DISP_E_OVERFLOW, DISP_E_TYPEMISMATCH
from .numbers import FLOATING, exact_type, scalar_of
from .variants import (
    ARRAY,
    BYREF,
    VT_CY,
    VT_DATE,
    VT_DECIMAL,
    VT_DISPATCH,
    VT_I4,
    VT_I8,
    VT_UNKNOWN,
    objref_of,
    type_of,
)

# of each code the number that VBScript, JScript and VBA have for it, or 0, its name, and the words
REFUSALS: typing.Dict[int, typing.Tuple[int, str, str]] = {
    0x80020006: (438, "DISP_E_UNKNOWNNAME", "there is no such name"),
    0x80020003: (
        438,
        "DISP_E_MEMBERNOTFOUND",
        "there is no such member, or not in this form: a put of a readonly one, a get of one that"
        " is only put",
    ),
    0x80020001: (438, "DISP_E_UNKNOWNINTERFACE", "the riid of a call has to be IID_NULL"),
    0x80020005: (13, "DISP_E_TYPEMISMATCH", "the value is of another type"),
    0x8002000A: (6, "DISP_E_OVERFLOW", "the number is too large or too small"),
    0x80020008: (458, "DISP_E_BADVARTYPE", "values of this type are not supported"),
    0x8002000F: (449, "DISP_E_PARAMNOTOPTIONAL", "a required argument is missing"),
    0x8002000E: (450, "DISP_E_BADPARAMCOUNT", "the number of arguments is wrong"),
    0x80020007: (446, "DISP_E_NONAMEDARGS", "its arguments have no names"),
    0x80020004: (
        448,
        "DISP_E_PARAMNOTFOUND",
        "no parameter has the name of an argument",
    ),
    0x8002000B: (9, "DISP_E_BADINDEX", "nothing has this index"),
    0x8002000D: (10, "DISP_E_ARRAYISLOCKED", "the array is locked"),
    0x80004001: (445, "E_NOTIMPL", "it is a method, and the library has no bodies of methods"),
    0x80004002: (430, "E_NOINTERFACE", "the object does not have this interface"),
    0x80070057: (
        5,
        "E_INVALIDARG",
        "an argument is given twice, or an array or the whole call is too large",
    ),
    0x8007000E: (7, "E_OUTOFMEMORY", "out of memory; nothing has changed"),
    0x80004003: (0, "E_POINTER", "a pointer is null"),
    0x8000FFFF: (
        0,
        "E_UNEXPECTED",
        "there is no lock to release, the array was never put, or the store cannot hold another"
        " object",
    ),
    0x80004005: (0, "E_FAIL", "the store's device has failed; nothing is written any more"),
    0x80010108: (
        0,
        "RPC_E_DISCONNECTED",
        "the store has no object with this number; it was released",
    ),
    0x800706F7: (0, "RPC_X_BAD_STUB_DATA", "the server refuses the call: a text is too long"),
    0x8003001D: (
        0,
        "STG_E_WRITEFAULT",
        "the store's device failed to write; the request was executed completely or not at all",
    ),
    0x80030070: (0, "STG_E_MEDIUMFULL", "the store is full; nothing has changed"),
    0x80040154: (429, "REGDB_E_CLASSNOTREG", "the library has no such coclass"),
    0x800706BA: (
        462,
        "RPC_S_SERVER_UNAVAILABLE",
        "the server was not reached; nothing was sent",
    ),
}
_WORDS = {
    **{0: "Empty", 1: "Null", 2: "short", 3: "long", 4: "float", 5: "double", 6: "CURRENCY"},
    **{7: "DATE", 8: "BSTR", 9: "object", 10: "SCODE", 11: "VARIANT_BOOL", 12: "VARIANT"},
    **{13: "object", 14: "DECIMAL", 16: "char", 17: "unsigned char", 18: "unsigned short"},
    **{19: "unsigned long", 20: "hyper", 21: "unsigned hyper", 22: "int", 23: "unsigned int"},
}
_MOST = 1_023  # units of a description


class Argument(typing.NamedTuple):
    """The argument at fault: its name, its declared type or 0, and its field if there is one."""

    name: str
    declared: int = 0
    given: typing.Optional[bytes] = None


def code_for_scripts(code: int) -> int:
    """The number that VBScript, JScript and VBA have for a code, as a code, or the code itself."""
    number = REFUSALS.get(code, (0,))[0]
    return 0x800A_0000 + number if number else code


def type_words(vt: int) -> str:
    """A type as a library's text has it."""
    word = _WORDS.get(vt & ~(ARRAY | BYREF), "another type")
    return f"SAFEARRAY({word})" if vt & ARRAY else word


def _advice(field: bytes) -> str:
    """Which type would hold a value that the server does not take."""
    vt = type_of(field)
    if vt in FLOATING:
        exact, is_large = exact_type(vt, scalar_of(field)[1])
        return {
            VT_I4: "as a whole number it is a long: CLng makes one",
            VT_I8: "as a whole number it is a hyper, which CURRENCY and DECIMAL hold too",
            VT_CY: "CURRENCY and DECIMAL hold this number",
            VT_DECIMAL: "DECIMAL holds this number, and CCur makes a CURRENCY that is near it",
        }.get(
            exact,
            "no type holds a number so large"
            if is_large
            else "no type holds this number; a text does",
        )
    if vt == VT_DATE:
        return "there are no dates; a text or a number of days holds one"
    if vt in (VT_DISPATCH, VT_UNKNOWN):
        there = objref_of(field) is not None
        return (
            "objects are not kept; the hub's NumberOf gives a number that is"
            if there
            else "Nothing is not kept; Null and Empty are"
        )
    if vt & ARRAY:
        return "an array holds scalars alone: no doubles, dates, objects and arrays"
    return ""


def describe(
    code: int, subject: str, member: str = "", argument: typing.Optional[Argument] = None
) -> str:
    """A refusal in words: object, member, what is wrong, the argument, the code."""
    _, name, words = REFUSALS.get(code, (0, "", "it is refused"))
    text = subject + (f", {member}" if member else "") + f": {words}"
    if argument is not None:
        of_value = code in (DISP_E_TYPEMISMATCH, DISP_E_OVERFLOW, DISP_E_BADVARTYPE)
        text += f": {argument.name}" if argument.name else ""
        if argument.name and of_value and argument.declared:
            text += f" is declared {type_words(argument.declared)}"
        given = argument.given
        if argument.name and of_value and given is not None:
            text += " and given as " if argument.declared else " is given as "
            text += type_words(type_of(given))
        if given is not None and (
            code == DISP_E_BADVARTYPE or code == DISP_E_OVERFLOW and type_of(given) in FLOATING
        ):
            advice = _advice(given)
            text += f"; {advice}" if advice else ""
    tail = f" ({name}, 0x{code:08X})" if name else f" (0x{code:08X})"
    return (text + tail)[:_MOST]
