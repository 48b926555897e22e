"""A client of oaut, the server of OLE Automation objects.

    import oaut

    with oaut.play("examples/full.idl") as server:
        item = server.create("Item")
        item.Count = 7
        print(item.Count)

docs/guide/client.md is the page to read first; docs/reference/records.md and docs/reference/wire.md
say what goes over the wire. A package without dependencies, for Python 3.9 or later. A session
belongs to one thread at a time.

    python3 -m oaut talk LIB        a prompt over a session
    python3 -m oaut decode FILE     records in words
    python3 -m oaut stubs LIB       a library's members, for editors and type checkers
    python3 -m oaut store ..        what a store's file holds, its copies and dumps
"""
import importlib as _importlib
import typing as _typing
import warnings as _warnings

from .copies import backup
from .decode import decode
from .faults import RENAMED as _RENAMED
from .faults import (
    ArrayIsLocked,
    BadIndex,
    BadParamCount,
    BadStub,
    BadVarType,
    ClassNotRegistered,
    Disconnected,
    Error,
    IncompatibleLibrary,
    InvalidArg,
    LibraryDiffers,
    MediumFull,
    MemberNotFound,
    NoInterface,
    NoSuchFile,
    NotALibrary,
    NotImplementedHere,
    NotSent,
    OldFormat,
    OutOfMemory,
    Overflow,
    ParamNotFound,
    ParamNotOptional,
    ProgramNotFound,
    ProtocolError,
    ReadFault,
    Refused,
    SessionEnded,
    SessionInUse,
    StoreFailed,
    StoreInUse,
    SystemFailed,
    TimedOut,
    TlsFailed,
    TypeMismatch,
    Unexpected,
    UnknownInterface,
    UnknownName,
    WriteFault,
)
from .files import Unusable
from .library import Library
from .objects import ArrayProperty, BaseObject, Method, Object, Property
from .opening import open
from .programs import connect, make_store, play, serve, upgrade_store
from .protocol import Later
from .recorded import NoRecording, ReplayDiffers, record, replay
from .session import Atomic, Batch, Server
from .values import (
    EMPTY,
    I1,
    I2,
    I4,
    I8,
    INT,
    MISSING,
    NULL_BSTR,
    UI1,
    UI2,
    UI4,
    UI8,
    UINT,
    VT,
    Array,
    ArrayLike,
    Currency,
    Field,
    NumberLike,
    SCode,
    TextLike,
    Value,
    real,
)
from .wire import read_field, spell
from .words import value_of, words_of

__version__ = "0.2.0"


_SUBMODULES = (
    "aio",
    "faults",
    "frames",
    "framing",
    "library",
    "records",
    "values",
    "watching",
    "wire",
    "words",
)
# names that scripts of before take from here, by the submodule that has them
_MOVED = {
    "decode": "description_words reply_words request_words",
    "faults": "CODES refused",
    "framing": "FRAMING FRAMINGS Lines Raw",
    "library": (
        "Coclass DEFAULT_INTERFACE Form HAS_DEFAULT IN Interface KIND_COCLASS KIND_INTERFACE "
        "Member OPTIONAL Parameter READ_ONLY fold read_description type_word"
    ),
    "protocol": "GROUP_BYTES",
    "records": (
        "BODY_LIMIT CREATE DEFAULT GETELEM GETIDS INVOKE LIST LOCK METHOD NEW_VALUE NO_INDEX "
        "OPCODES PROPERTYGET PROPERTYPUT PROPERTYPUTREF PUTELEM REDIM RELEASE REPLACE Reply "
        "TYPEINFO UNLOCK ask_call ask_create ask_ids ask_invoke ask_list ask_release "
        "ask_replace ask_type_info indices_field read_ids read_lost read_nothing read_number "
        "read_objects read_reply read_text_value read_value string_field"
    ),
    "session": "BATCH",
    "values": (
        "ARRAY CELLS CELL_LIMIT INTEGERS Integer NUMBERS SCALARS TEXT_LIMIT VOID cell_type "
        "text_bytes text_of typed"
    ),
    "wire": "NULL_LENGTH REFERENT array_field padded scalar_field variant_field",
}
_PLACES = {name: place for place, names in _MOVED.items() for name in names.split()}

if not _typing.TYPE_CHECKING:  # (a checker is to report a name that is none)

    def __getattr__(name: str) -> object:
        if name in _SUBMODULES:
            return _importlib.import_module(f".{name}", __name__)
        if name in _RENAMED:
            told = f"oaut.{name} is oaut.{_RENAMED[name]} now"
            _warnings.warn(told, DeprecationWarning, stacklevel=2)
            return globals()[_RENAMED[name]]
        if name not in _PLACES:
            raise AttributeError(f"module {__name__!r} has no attribute {name!r}")
        return getattr(_importlib.import_module(f".{_PLACES[name]}", __name__), name)


def __dir__() -> list[str]:
    # what a prompt completes: what users need, and the submodules
    return sorted({*__all__, *_SUBMODULES})


def main(words: "_typing.Sequence[str] | None" = None) -> int:
    """`python3 -m oaut`. Gives the exit status."""
    from .__main__ import main as run

    return run(words)


# what users need; the codec is in the submodules
__all__ = [
    "Array",
    "ArrayIsLocked",
    "ArrayLike",
    "ArrayProperty",
    "Atomic",
    "BadIndex",
    "BadParamCount",
    "BadStub",
    "BadVarType",
    "BaseObject",
    "Batch",
    "ClassNotRegistered",
    "Currency",
    "Disconnected",
    "EMPTY",
    "Error",
    "Field",
    "I1",
    "I2",
    "I4",
    "I8",
    "INT",
    "IncompatibleLibrary",
    "InvalidArg",
    "Later",
    "Library",
    "LibraryDiffers",
    "MISSING",
    "MediumFull",
    "MemberNotFound",
    "Method",
    "NULL_BSTR",
    "NoInterface",
    "NoRecording",
    "NoSuchFile",
    "NotALibrary",
    "NotImplementedHere",
    "NotSent",
    "NumberLike",
    "Object",
    "OldFormat",
    "OutOfMemory",
    "Overflow",
    "ParamNotFound",
    "ParamNotOptional",
    "ProgramNotFound",
    "Property",
    "ProtocolError",
    "ReadFault",
    "Refused",
    "ReplayDiffers",
    "SCode",
    "Server",
    "SessionEnded",
    "SessionInUse",
    "StoreFailed",
    "StoreInUse",
    "SystemFailed",
    "TextLike",
    "TimedOut",
    "TlsFailed",
    "TypeMismatch",
    "UI1",
    "UI2",
    "UI4",
    "UI8",
    "UINT",
    "Unexpected",
    "UnknownInterface",
    "UnknownName",
    "Unusable",
    "VT",
    "Value",
    "WriteFault",
    "__version__",
    "backup",
    "connect",
    "make_store",
    "open",
    "play",
    "read_field",
    "real",
    "record",
    "replay",
    "serve",
    "spell",
    "upgrade_store",
    "value_of",
    "words_of",
]
