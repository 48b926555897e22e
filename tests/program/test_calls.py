"""Calls: how arguments are bound, through which interface, and which form of a member the flags
name."""
from tests.support import wire
from tests.support.codes import (
    BAD_PARAM_COUNT,
    BAD_STUB,
    BAD_VAR_TYPE,
    DISCONNECTED,
    E_INVALIDARG,
    E_NOINTERFACE,
    E_NOTIMPL,
    MEMBER_NOT_FOUND,
    OVERFLOW,
    PARAM_NOT_FOUND,
    PARAM_NOT_OPTIONAL,
    TYPE_MISMATCH,
    UNKNOWN_INTERFACE,
)
from tests.support.codes import WORDS as CODES
from tests.support.playing import Played
from tests.support.running import FULL, rows_of
from tests.support.texts import coclass, interface, library_with
from tests.support.turns import (
    HALF,
    MISSED,
    NO_INDEX,
    NO_TEXT,
    NO_VALUE,
    bstr,
    calls,
    gets,
    i2,
    i4,
    reads,
    through,
)

CELL = 9  # of the full library
X, K = bstr("x"), bstr("k")
DITEM, DMORE, DNONE, CLASS_ITEM = 2, 4, 5, 3

# a put for each get, so that each key can be put
BOUND = b"""[uuid(11223344-5566-7788-99aa-bbccddeeff01)] library L {
[uuid(11223344-5566-7788-99aa-bbccddeeff02)] dispinterface D { properties: [id(1)] long Count; \
[id(2)] VARIANT Free; methods:
[id(9), propget] BSTR Cell([in] long Row, [in] BSTR Key, [in, optional, defaultvalue(1)] short \
Page);
[id(9), propput] void Cell([in] long Row, [in] BSTR Key, [in, optional, defaultvalue(1)] short \
Page, [in] BSTR Value);
[id(10), propget] long Any([in, optional] VARIANT V, [in, optional] long N);
[id(10), propput] void Any([in, optional] VARIANT V, [in, optional] long N, [in] long Value);
[id(11), propget] long Named([in, optional, defaultvalue("first")] BSTR Name, [in, \
defaultvalue(2)] VARIANT Rank);
[id(11), propput] void Named([in, optional, defaultvalue("first")] BSTR Name, [in, \
defaultvalue(2)] VARIANT Rank, [in] long Value);
[id(12), propget] long Both([in] long Row, [in, optional, defaultvalue("x")] BSTR Key);
[id(12), propput] void Both([in] long Row, [in, optional, defaultvalue("x")] BSTR Key, [in] long \
Value);
} [uuid(11223344-5566-7788-99aa-bbccddeeff03)] coclass C { [default] dispinterface D; } }"""
ARGUMENTS = {
    "i": lambda rest: wire.scalar(wire.I4, int(rest)),
    "s": lambda rest: wire.scalar(wire.I2, int(rest)),
    "c": lambda rest: wire.scalar(wire.CY, int(rest)),
    "t": lambda rest: wire.scalar(wire.BSTR, rest.encode()),
    "w": bstr,
    "n": lambda _: NO_TEXT,
    "m": lambda _: MISSED,
    "e": lambda _: NO_VALUE,
    "a": lambda _: wire.array(wire.I4, [(1, 0)], [0]),
}


def arguments_of(words):
    return [ARGUMENTS[word[0]](word[1:]) for word in words.split()]


def at_key(dispid, key, value=None):
    """A put of a value at a key, or a get, each parameter by its place."""
    given = arguments_of(key)[::-1]
    flags, named = (2, []) if value is None else (4, [-3])
    return lambda tag: wire.invoke(
        tag, 1, dispid, flags, named, given if value is None else [value] + given
    )


def bound():
    """The turns of calls.txt: each key has another value, so a get that is bound to another key
    tells another one."""
    filled, bound = {}, []
    for row in rows_of("calls.txt"):
        dispid, form_word, named, given, answer = row.split("|")
        dispid, names, given = (
            int(dispid),
            [int(name) for name in named.split()],
            arguments_of(given),
        )
        flags = 4 if form_word == "put" else 2
        ask = lambda tag, dispid=dispid, flags=flags, names=names, given=given: wire.invoke(
            tag, 1, dispid, flags, names, given
        )
        key, _, new = answer.partition(" = ") if " = " in answer else (answer, "", None)
        word, _, index = answer.partition(" ")
        if word in CODES:
            bound.append(
                (
                    ask,
                    lambda tag, code=CODES[word], index=int(index or NO_INDEX): wire.reply(
                        tag, code, index
                    ),
                )
            )
        elif new is not None:
            kept = arguments_of(new)[0]
            bound.append((ask, wire.reply))
            bound.append(
                (
                    at_key(dispid, key.strip()),
                    lambda tag, kept=kept: wire.reply(tag, fields=wire.field(kept)),
                )
            )
        else:
            number = len(filled)
            value = filled.setdefault(
                (dispid, key),
                bstr(str(number)) if dispid == 9 else wire.scalar(wire.I4, 100 + number),
            )
            bound.append((at_key(dispid, key, value), wire.reply))
            for (other, other_key), other_value in filled.items():
                bound.append((at_key(other, other_key, other_value), wire.reply))
            bound.append((ask, lambda tag, value=value: wire.reply(tag, fields=wire.field(value))))
    return bound


# of the full library: a DISPID, flags, and what is found
FORMS = """1 2 get
1 3 get
1 4 put
1 6 put
1 65533 put
1 1 none
1 8 none
1 0 none
6 2 get
6 4 none
6 6 none
10 1 method
10 3 method
10 65531 method
10 2 none
10 4 none
10 5 none
10 0 none
99 1 none
99 2 none"""
FOUND = {
    "get": ([], [], 0, wire.field(i4(0))),
    "put": ([-3], [i4(0)], 0, b""),
    "none": ([], [], MEMBER_NOT_FOUND, b""),
    "method": ([], [], E_NOTIMPL, b""),
}


def form(dispid, flags, found):
    named, values, code, fields = FOUND[found]
    return (
        lambda tag: wire.invoke(tag, 1, dispid, flags, named, values),
        lambda tag: wire.reply(tag, code, fields=fields),
    )


class Arguments(Played):
    def test_a_property_with_parameters(self):
        self.talk(
            "a property with parameters",
            FULL,
            [
                calls(CELL, 4, [-3, 1, 0], [X, K, i4(5)]),
                reads(CELL, [], [i2(1), K, i4(5)], X),
                reads(CELL, [], [K, i4(5)], X),
                reads(CELL, [1], [K, i4(5)], X),
                reads(CELL, [0, 1], [i4(5), K], X),
                reads(CELL, [2, 1, 0], [MISSED, K, wire.scalar(wire.CY, 50_000)], X),
                # other keys, of the same member and the same object
                reads(CELL, [], [i2(2), K, i4(5)], NO_TEXT),
                reads(CELL, [], [bstr("K"), i4(5)], NO_TEXT),
                reads(CELL, [], [K, i4(6)], NO_TEXT),
                # a new value may stand anywhere among the named ones, and says nothing by being the
                # missing one's error
                calls(CELL, 4, [1, -3], [K, bstr("y"), i4(6)]),
                calls(CELL, 4, [-3], [MISSED, K, i4(5)], TYPE_MISMATCH, 0),
                calls(CELL, 4, [-3], [NO_VALUE, bstr("z"), i4(5)]),
                reads(CELL, [], [K, i4(6)], bstr("y")),
                reads(CELL, [], [bstr("z"), i4(5)], NO_TEXT),
                reads(CELL, [], [NO_VALUE, NO_VALUE, NO_VALUE], NO_TEXT),
                reads(CELL, [], [K, i4(5)], X),
            ],
        )

    def test_arguments_that_are_refused(self):
        self.talk(
            "arguments that are refused",
            FULL,
            [
                calls(CELL, 4, [-3], [X, K, i4(5)]),
                # names that cannot stand so
                calls(CELL, 2, [0, 0], [i4(5), i4(5)], E_INVALIDARG),
                calls(CELL, 2, [0, 1, 2], [i4(5), K], E_INVALIDARG),
                calls(CELL, 2, [-3], [X, K, i4(5)], E_INVALIDARG),
                calls(CELL, 4, [], [K, i4(5)], E_INVALIDARG),
                calls(CELL, 4, [0], [X], E_INVALIDARG),
                calls(CELL, 2, [7, 7], [i4(1)] * 5, E_INVALIDARG),
                # more arguments than parameters
                calls(CELL, 2, [7], [i4(1)] * 4, BAD_PARAM_COUNT),
                calls(CELL, 4, [-3], [X] + [i4(1)] * 4, BAD_PARAM_COUNT),
                # the lowest name of no parameter, or of one that is given by its place too
                calls(CELL, 2, [7], [K, K, i4(5)], PARAM_NOT_FOUND, 0),
                calls(CELL, 2, [0], [i4(5), K, i4(5)], PARAM_NOT_FOUND, 0),
                calls(CELL, 4, [-3, 2, 3], [X, i2(1), K, i4(5)], PARAM_NOT_FOUND, 2),
                # a parameter that may not be left out
                calls(CELL, 2, [], [], PARAM_NOT_OPTIONAL),
                calls(CELL, 2, [], [bstr("a"), MISSED, i4(5)], PARAM_NOT_OPTIONAL),
                # what cannot be converted, by the places of the parameters, the new value last
                calls(CELL, 2, [], [K, bstr("a")], TYPE_MISMATCH, 1),
                calls(CELL, 2, [], [i2(2), K, bstr("a")], TYPE_MISMATCH, 2),
                calls(CELL, 2, [], [i4(40_000), K, bstr("a")], TYPE_MISMATCH, 2),
                calls(CELL, 2, [], [i4(40_000), K, i4(5)], OVERFLOW, 0),
                calls(CELL, 2, [0], [bstr("a")], PARAM_NOT_OPTIONAL),
                calls(CELL, 2, [1, 0], [K, bstr("a")], TYPE_MISMATCH, 1),
                calls(CELL, 4, [-3], [i4(1), K, bstr("a")], TYPE_MISMATCH, 2),
                calls(CELL, 4, [2, -3], [i4(40_000), i4(1), K, i4(5)], OVERFLOW, 0),
                calls(CELL, 4, [-3], [i4(1), K, i4(5)], TYPE_MISMATCH, 0),
                calls(CELL, 2, [], [wire.array(wire.I4, [(1, 0)], [5]), i4(5)], TYPE_MISMATCH, 0),
                # a value outside the profile and a broken field go before all of these, and before
                # the member
                calls(CELL, 2, [7], [K, HALF], BAD_VAR_TYPE, 1),
                calls(CELL, 2, [7], [K[:-1], HALF], BAD_STUB),
                calls(99, 2, [], [K, HALF], BAD_VAR_TYPE, 1),
                # the member goes before the arguments
                calls(99, 2, [7], [K], MEMBER_NOT_FOUND),
                calls(CELL, 1, [7], [K], MEMBER_NOT_FOUND),
                reads(CELL, [], [K, i4(5)], X),
            ],
        )

    def test_parameters_that_may_be_left_out(self):
        self.talk(
            "parameters that may be left out",
            library_with(
                interface(
                    b"2",
                    body=b"methods: [id(1), propget] long Any([in, optional] VARIANT V, [in, "
                    b"optional] long N); [id(1), propput] void Any([in, optional] VARIANT V, "
                    b"[in, optional] long N, [in] long New);",
                )
                + coclass(b"3")
            ),
            [
                calls(1, 4, [-3], [i4(1)]),
                reads(1, [], [], i4(1)),
                reads(1, [], [MISSED], i4(1)),
                reads(1, [], [i4(0), MISSED], i4(1)),
                reads(1, [], [NO_VALUE], i4(0)),
                reads(1, [], [i4(7)], i4(0)),
                calls(1, 4, [-3], [i4(2), i2(7)]),
                reads(1, [], [i2(7)], i4(2)),
                reads(1, [], [i4(7)], i4(0)),
                reads(1, [1], [i4(0), i2(7)], i4(2)),
                calls(1, 2, [], [wire.array(wire.I4, [(1, 0)], [5])], TYPE_MISMATCH, 0),
                calls(1, 2, [], [wire.array(wire.I4, [(1, 0)], [5]), i4(3)], TYPE_MISMATCH, 0),
            ],
        )

    def test_calls_that_are_bound_or_refused(self):
        self.talk("calls that are bound or refused", BOUND, bound())


class Members(Played):
    def test_two_interfaces_of_a_coclass(self):
        for marked, through_none in (("DItem", 7), ("DMore", 8)):
            entries = " ".join(
                f"{'[default]' if it == marked else ''} dispinterface {it};"
                for it in ("DItem", "DMore")
            )
            self.talk(
                f"two interfaces of a coclass, {marked} the default one",
                library_with(
                    interface(b"2")
                    + interface(b"4", name=b"DMore")
                    + interface(b"5", name=b"DNone")
                    + coclass(b"3", body=entries.encode())
                ),
                [
                    through(DITEM, 1, 1, 4, [-3], [i4(7)]),
                    through(DMORE, 1, 1, 2, [], [], value=i4(0)),
                    through(DMORE, 1, 1, 4, [-3], [i4(8)]),
                    through(DITEM, 1, 1, 2, [], [], value=i4(7)),
                    through(DMORE, 1, 1, 2, [], [], value=i4(8)),
                    gets(1, i4(through_none)),
                    # the object goes before the interface, and this before the member and the
                    # arguments
                    through(DNONE, 2, 99, 2, [7], [i4(7)], DISCONNECTED),
                    through(DNONE, 1, 99, 2, [7], [i4(7)], E_NOINTERFACE),
                    through(CLASS_ITEM, 1, 99, 2, [7], [i4(7)], E_NOINTERFACE),
                    (
                        lambda tag: wire.invoke(tag, 1, 99, 2, [], [])[:64]
                        + b"01"
                        + wire.invoke(tag, 1, 99, 2, [], [])[66:],
                        lambda tag: wire.reply(tag, UNKNOWN_INTERFACE),
                    ),
                ],
            )

    def test_the_form_of_a_member(self):
        self.talk(
            "the form of a member",
            FULL,
            [
                form(int(dispid), int(flags), found)
                for dispid, flags, found in map(str.split, FORMS.splitlines())
            ],
        )
