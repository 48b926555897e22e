"""A library to start from: `python3 -m oaut new NAME > my.idl`."""
from __future__ import annotations

import re
import uuid

from .faults import WrongValue

# words of the grammar that are no names (docs/reference/idl.md)
RESERVED = frozenset(
    "library importlib dispinterface interface coclass properties methods void unsigned SAFEARRAY "
    "char short long int hyper CURRENCY VARIANT_BOOL SCODE DECIMAL BSTR VARIANT".split()
)
_TEXT = """// The objects of {name}: `oaut check` reads this file, `oaut format` makes a store.
// The three GUIDs are new. Keep them: clients and stores know the library, the interface and the
// coclass by them.
// docs/reference/idl.md has what a library may have. Later versions have to keep all of this, and
// each new member needs an id of its own.
[uuid({0}), version(1.0)]
library {name}Library {{
    [uuid({1})]
    dispinterface D{name} {{
    properties:
        [id(1)] BSTR Name;
        [id(2)] long Count;
        [id(3)] CURRENCY Price;
        [id(4)] VARIANT Any;
        [id(5)] SAFEARRAY(long) Numbers;
    methods:
        [id(6), propget] BSTR Cell([in] long Row, [in] BSTR Column);
        [id(6), propput] void Cell([in] long Row, [in] BSTR Column, [in] BSTR Value);
    }}
    [uuid({2})]
    coclass {name} {{
        [default] dispinterface D{name};
    }}
}}
"""


def library_text(name: str) -> str:
    """The text of a library with one coclass of this name, whose GUIDs no other library has.
    ValueError of what is no name of a coclass."""
    # (the library's name is seven letters longer, and a name has 64 at most)
    if not re.fullmatch("[A-Za-z_][A-Za-z0-9_]{0,56}", name) or name in RESERVED:
        raise WrongValue(
            f"{name!r} cannot name a coclass: a letter or _, then letters, digits and _, 57 at "
            "most, and no word of the grammar"
        )
    return _TEXT.format(*(uuid.uuid4() for _ in range(3)), name=name)
