"""The exceptions of this package. Each of them is an Error, so `except oaut.Error` catches all. A
refusal by the server is Refused, with a class for each code. The end of a session is SessionEnded,
bytes that are not of the protocol are ProtocolError. A wrong use of the package is WrongType and
the like, a failed system call SystemFailed."""
from __future__ import annotations

import contextlib
import errno
import os
import typing
import uuid
import warnings

# the name of a file, line and column, and the line as it is shown
Place = tuple[str, int, int, str]


class _OfNumbers(type):
    """The former meaning of `Error`: a class of numbers, which is SCode now."""

    def __instancecheck__(cls, instance: object) -> bool:
        if type.__instancecheck__(cls, instance):
            return True
        if cls.__name__ == "Error" and isinstance(instance, int):
            from .values import SCode

            if isinstance(instance, SCode):
                _is_a_number_no_more()
                return True
        return False

    # (Any, so that a checker takes the class's own type for what its call gives)
    def __call__(cls, *values: typing.Any, **named: object) -> typing.Any:
        if cls.__name__ == "Error" and len(values) == 1 and hasattr(values[0], "__index__"):
            from .values import SCode

            _is_a_number_no_more()
            return SCode(values[0])
        return super().__call__(*values, **named)


def _is_a_number_no_more() -> None:
    told = "oaut.Error is the base of the client's exceptions: a number of VT_ERROR is oaut.SCode"
    warnings.warn(told, DeprecationWarning, stacklevel=3)


class Error(Exception, metaclass=_OfNumbers):
    """The base of all exceptions of this package. `Error(0x80020004)`, as a number of VT_ERROR was
    written before, gives an SCode and a DeprecationWarning."""

    def __reduce__(self) -> tuple[typing.Any, ...]:
        # (by its words, as they are: what it was made of are others)
        system = (self.errno, self.strerror, self.filename) if isinstance(self, OSError) else ()
        return _unpickled, (type(self), self.args, self.__dict__, system)


def _unpickled(
    kind: type[Error],
    words: tuple[object, ...],
    state: dict[str, object],
    system: tuple[typing.Any, ...],
) -> Error:
    """An exception of another process, as `multiprocessing` passes them on."""
    base = OSError if issubclass(kind, OSError) else BaseException
    made = base.__new__(kind, *words)
    made.args = words
    made.__dict__.update(state)
    if isinstance(made, OSError) and system != (None, None, None):
        made.errno, made.strerror, made.filename = system
    return made


class WrongType(Error, TypeError):
    """A value, or a call, of a type that is none of those that the package takes."""


class WrongValue(Error, ValueError):
    """A value outside of what the call takes, or a text that cannot be read."""


class OutOfRange(Error, OverflowError):
    """A number outside the range of its type."""


class NoSuchMember(Error, AttributeError):
    """An object's coclass has no member of that name."""


class NoSuchName(Error, LookupError):
    """The library has no coclass or interface of that name."""


class NoSuchIndex(Error, IndexError):
    """Indices outside the bounds of an array that is in this process."""


class WrongUse(Error, RuntimeError):
    """A call that is not possible now: within a batch, or with what a batch has not sent yet."""


class NotInTime(Error, TimeoutError):
    """The lock of an array, or a reply, did not come within the time that was given."""


class SystemFailed(Error, OSError):
    """A system call failed. The exception is also of the system's kind: FileExistsError,
    ConnectionRefusedError, PermissionError and so on."""


# the former names of exceptions, which warn
RENAMED = {
    "Failed": "StoreFailed",
    "Fault": "Error",
    "Malformed": "ProtocolError",
    "NotKept": "IncompatibleLibrary",
    "Stopped": "SessionEnded",
}

if not typing.TYPE_CHECKING:  # (a checker is to report a former name)

    def __getattr__(name: str) -> object:
        if name not in RENAMED:
            raise AttributeError(f"module {__name__!r} has no attribute {name!r}")
        told = f"oaut.{name} is oaut.{RENAMED[name]} now"
        warnings.warn(told, DeprecationWarning, stacklevel=2)
        return globals()[RENAMED[name]]


_FAILED: dict[type[OSError], type[SystemFailed]] = {OSError: SystemFailed}


def _failed_of(kind: type[OSError]) -> type[SystemFailed]:
    """The class of the system's failures that are also of a kind of OSError."""
    if kind not in _FAILED:
        methods = {
            "__module__": __name__,
            "__doc__": f"A {kind.__name__} that is an oaut.Error too.",
            # (so that it can be pickled, by its kind)
            "__reduce__": lambda self: (_again, (kind, self.args, self.filename)),
        }
        _FAILED[kind] = type(kind.__name__, (SystemFailed, kind), methods)
    return _FAILED[kind]


def _again(kind: type[OSError], values: tuple[object, ...], filename: str | None) -> SystemFailed:
    made = _failed_of(kind)(*values)
    made.filename = filename
    return made


def system_failed(kind: type[OSError], number: int, told: str, name: str | None = None) -> OSError:
    """An exception of a kind of OSError that is an Error too."""
    return _failed_of(kind)(number, told, name)


@contextlib.contextmanager
def system_failures() -> typing.Iterator[None]:
    """Raises an OSError of its block as one that is an Error too."""
    try:
        yield
    except Error:
        raise
    except OSError as error:
        failed = _failed_of(type(error))(*error.args)
        if error.filename is not None:
            failed.filename = error.filename
        raise failed.with_traceback(error.__traceback__) from error.__cause__


class SessionInUse(Error, RuntimeError):
    """Another thread uses the session, a request of it is under way, or another process began it:
    then `process` is that one's number. Nothing was sent."""

    def __init__(self, what: str, process: int | None = None) -> None:
        super().__init__(what)
        self.process = process


class NotSent(Error, RuntimeError):
    """Requests of a batch were not sent, or had no reply, because of an interrupt (Ctrl-C) or a
    `close()` within the batch. `count` is how many they are."""

    def __init__(self, count: int, what: str) -> None:
        super().__init__(what)
        self.count = count


class ProtocolError(Error, ValueError):
    """Bytes that encode no value, or no reply. `unknown_type` is true if the type of the value
    is outside the profile."""

    def __init__(self, what: str, unknown_type: bool = False) -> None:
        super().__init__(what)
        self.unknown_type = unknown_type


class SessionEnded(Error):
    """The session has ended. `fault` is the program's line on standard error, `cause` the system's
    message for a file that cannot be read or written, `status` the program's exit status (negative
    for a signal). All are None if no program was started here, `fault` if it wrote none, and
    `cause` if no file was at fault. If `may_stand` is true, a request was sent and has no reply: it
    was executed completely or not at all; check with a get in another session."""

    may_stand = False

    def __str__(self) -> str:
        told = super().__str__()
        return (
            f"{told}; a request without a reply was executed completely or not at all"
            if self.may_stand
            else told
        )

    def __init__(
        self,
        what: str,
        fault: str | None = None,
        status: int | None = None,
        cause: str | None = None,
    ) -> None:
        said = f"{fault}: {cause}" if cause else fault
        told = [it for it in (said, None if status is None else f"status {status}") if it]
        super().__init__(f"{what} ({', '.join(told)})" if told else what)
        self.fault = fault
        self.status = status
        self.cause = cause


class StoreInUse(SessionEnded):
    """Another process has the store open."""


class LibraryDiffers(SessionEnded):
    """The store is that of another library than the one that was named, or that was there
    before."""


class NoSuchFile(SessionEnded, FileNotFoundError):
    """The library or the store that a session was to begin with is not there: `filename` names
    it."""

    def __init__(self, path: str, fault: str | None = None, status: int | None = None) -> None:
        cause = os.strerror(errno.ENOENT)
        super().__init__(f"{path}: {cause}")
        self.fault, self.status, self.cause = fault, status, cause
        self.errno, self.strerror, self.filename = errno.ENOENT, cause, path

    def __str__(self) -> str:
        return str(self.args[0])


class OldFormat(SessionEnded):
    """The store is of a format that is upgraded before it is served."""


class NotALibrary(Error, ValueError):
    """A text that is not a library. `fault` is the program's message. `line` and `column` are its
    place in the text, both from 1, and `shown` is that line with a caret under the place. They are
    None, None and an empty text if the error has no place. `note` is the program's hint about a
    word that other compilers have. The message contains all of them."""

    fault: str | None
    note: str = ""
    line: int | None = None
    column: int | None = None
    shown: str = ""


class LibraryRefused(NotALibrary, SessionEnded):
    """A text that is no library, so that no session began with it, and no store was made."""

    def __init__(
        self,
        fault: str | None,
        status: int | None,
        place: Place | None = None,
        note: str = "",
    ) -> None:
        SessionEnded.__init__(self, f"no library{_where(place)}", fault, status)
        self.fault, self.status, self.note = fault, status, note
        if place is not None:
            _, self.line, self.column, self.shown = place

    def __str__(self) -> str:
        return _with_place(super().__str__(), self)


class TimedOut(SessionEnded, TimeoutError):
    """The server sent no reply, or did not read, within the given time. The session is over: a
    program that was started for it is killed, and a later session reads all acknowledged
    changes."""


class TlsFailed(Error, ConnectionError):
    """No session over TLS: what a URL `oauts://..` names is no certificate or key, or one of the
    faults below."""


class CertificateRefused(TlsFailed):
    """The server's certificate is signed by nobody that this client trusts, or is refused
    otherwise."""


class CertificateExpired(CertificateRefused):
    """The server's certificate is not valid any more, or not yet."""


class WrongHostName(CertificateRefused):
    """The server's certificate has another name, or the server knows no such name."""


class ClientCertificateRefused(TlsFailed):
    """The server refuses the client's certificate, or asks for one."""


class NoTls(TlsFailed):
    """The server has no TLS, or does not reply in time."""


class ProgramNotFound(SessionEnded, FileNotFoundError):
    """The program that was to be started is not there, or not on the path."""


class Refused(Error):
    """A reply with another code than S_OK. `name` and `code` are those of the HRESULT (MS-ERREF
    section 2.1). `index` is the position in rgvarg of the wrong argument or None, and `argument`
    describes it. `fields` are the reply's fields, `act` describes the request, `hint` is what the
    library says about it."""

    code: int = 0
    name: str = "a code without a name"

    def __init_subclass__(cls, code: int | None = None, hresult: str | None = None) -> None:
        if code is not None and hresult is not None:
            cls.code, cls.name = code, hresult
            CODES[code] = cls

    def __init__(
        self,
        index: int | None = None,
        argument: str | None = None,
        fields: bytes = b"",
        code: int | None = None,
        act: str = "",
        hint: str = "",
    ) -> None:
        if code is not None:
            self.code = code
        self.index = index
        self.argument = argument
        self.fields = fields
        self.act = act
        self.hint = hint
        where = (
            "" if index is None else f", argument {index}" + (f" ({argument})" if argument else "")
        )
        super().__init__(
            (f"{act}: " if act else "")
            + f"{self.name} (0x{self.code:08x}){where}"
            + (f": {hint}" if hint else "")
        )


# of each code its exception
CODES: dict[int, type[Refused]] = {}


class UnknownInterface(Refused, code=0x8002_0001, hresult="DISP_E_UNKNOWNINTERFACE"):
    """DISP_E_UNKNOWNINTERFACE: a riid that is not zero."""


class MemberNotFound(Refused, code=0x8002_0003, hresult="DISP_E_MEMBERNOTFOUND"):
    """DISP_E_MEMBERNOTFOUND: the interface has no such member, or not in this form: a put of a
    read-only property."""


class ParamNotFound(Refused, code=0x8002_0004, hresult="DISP_E_PARAMNOTFOUND"):
    """DISP_E_PARAMNOTFOUND: a named argument is of no parameter."""


class TypeMismatch(Refused, TypeError, code=0x8002_0005, hresult="DISP_E_TYPEMISMATCH"):
    """DISP_E_TYPEMISMATCH: a value becomes none of the declared type, or there is no array."""


class UnknownName(Refused, code=0x8002_0006, hresult="DISP_E_UNKNOWNNAME"):
    """DISP_E_UNKNOWNNAME: a name has no DISPID; `fields` hold those of the others."""


class BadVarType(Refused, TypeError, code=0x8002_0008, hresult="DISP_E_BADVARTYPE"):
    """DISP_E_BADVARTYPE: a type outside the server's profile."""


class Overflow(Refused, OverflowError, code=0x8002_000A, hresult="DISP_E_OVERFLOW"):
    """DISP_E_OVERFLOW: a number outside the declared type's range."""


class BadIndex(Refused, IndexError, code=0x8002_000B, hresult="DISP_E_BADINDEX"):
    """DISP_E_BADINDEX: indices outside an array's bounds, or an index that no description has."""


class ArrayIsLocked(Refused, code=0x8002_000D, hresult="DISP_E_ARRAYISLOCKED"):
    """DISP_E_ARRAYISLOCKED: the array has locks."""


class BadParamCount(Refused, TypeError, code=0x8002_000E, hresult="DISP_E_BADPARAMCOUNT"):
    """DISP_E_BADPARAMCOUNT: more arguments than parameters."""


class ParamNotOptional(Refused, TypeError, code=0x8002_000F, hresult="DISP_E_PARAMNOTOPTIONAL"):
    """DISP_E_PARAMNOTOPTIONAL: a parameter that may not be left out has no argument."""


class NotImplementedHere(Refused, NotImplementedError, code=0x8000_4001, hresult="E_NOTIMPL"):
    """E_NOTIMPL: a method, of which a library has no body."""


class NoInterface(Refused, code=0x8000_4002, hresult="E_NOINTERFACE"):
    """E_NOINTERFACE: an interface that the object's coclass has not."""


class StoreFailed(Refused, code=0x8000_4005, hresult="E_FAIL"):
    """E_FAIL: the store has stopped after a fault of its device."""


class Unexpected(Refused, code=0x8000_FFFF, hresult="E_UNEXPECTED"):
    """E_UNEXPECTED: objects or their numbers are used up, or a cell has no lock to take away."""


class OutOfMemory(Refused, MemoryError, code=0x8007_000E, hresult="E_OUTOFMEMORY"):
    """E_OUTOFMEMORY: the server had no memory for it; nothing was changed."""


class InvalidArg(Refused, ValueError, code=0x8007_0057, hresult="E_INVALIDARG"):
    """E_INVALIDARG: arguments that are none of a call, or an array that would be too large."""


class Disconnected(Refused, code=0x8001_0108, hresult="RPC_E_DISCONNECTED"):
    """RPC_E_DISCONNECTED: there is no such object, or no more."""


class BadStub(Refused, code=0x8007_06F7, hresult="bad stub data"):
    """0x800706F7, bad stub data: the request's bytes are none."""


class ClassNotRegistered(Refused, code=0x8004_0154, hresult="REGDB_E_CLASSNOTREG"):
    """REGDB_E_CLASSNOTREG: the library has no such coclass."""


class WriteFault(Refused, code=0x8003_001D, hresult="STG_E_WRITEFAULT"):
    """STG_E_WRITEFAULT: the store's device failed. The store has all changes of the group, or
    none."""


class ReadFault(Refused, code=0x8003_001E, hresult="STG_E_READFAULT"):
    """STG_E_READFAULT: a read of the store's device failed."""


class MediumFull(Refused, code=0x8003_0070, hresult="STG_E_MEDIUMFULL"):
    """STG_E_MEDIUMFULL: the objects would be larger than a store may hold."""


class IncompatibleLibrary(InvalidArg):
    """The new library is incompatible with the old one. `guid` is that of the interface or the
    coclass that is lost or changed, `dispid` the member's, or None if it is the whole interface or
    coclass. `lost` describes it."""

    def __init__(self, refusal: Refused, guid: uuid.UUID, dispid: int | None, lost: str) -> None:
        super().__init__(
            None, None, refusal.fields, None, refusal.act, f"the new library does not keep {lost}"
        )
        self.guid = guid
        self.dispid = dispid
        self.lost = lost


class LibraryNotTaken(NotALibrary, BadStub):
    """A text that is no library, so that it took no other one's place."""

    def __init__(
        self,
        refusal: Refused,
        fault: str | None,
        place: Place | None,
        note: str = "",
    ) -> None:
        hint = f"no library{_where(place)}: {(fault or '').removeprefix('oaut: ')}"
        BadStub.__init__(self, None, None, b"", None, refusal.act, hint)
        self.fault, self.note = fault, note
        if place is not None:
            _, self.line, self.column, self.shown = place

    def __str__(self) -> str:
        return _with_place(super().__str__(), self)


def _with_place(told: str, fault: NotALibrary) -> str:
    """A message, and below it the line with its caret, and the note."""
    return "\n".join(it for it in (told, fault.shown, fault.note) if it)


def _where(place: Place | None) -> str:
    return "" if place is None else f" at {place[0]}:{place[1]}:{place[2]}"


def refused(
    code: int,
    index: int | None = None,
    argument: str | None = None,
    fields: bytes = b"",
    act: str = "",
    hint: str = "",
) -> Refused:
    """The exception of a code."""
    if code in CODES:
        return CODES[code](index, argument, fields, None, act, hint)
    return Refused(index, argument, fields, code, act, hint)
