"""Objects of a server: their members are attributes."""
from __future__ import annotations

import contextlib
import functools
import random
import struct
import time
import typing
import weakref

from .faults import (
    BadIndex,
    BadParamCount,
    Disconnected,
    Error,
    MediumFull,
    MemberNotFound,
    NoSuchIndex,
    NoSuchMember,
    NotInTime,
    OutOfRange,
    ParamNotOptional,
    Refused,
    SessionInUse,
    Unexpected,
    WrongType,
    WrongUse,
    WrongValue,
)
from .library import (
    HAS_DEFAULT,
    OPTIONAL,
    Coclass,
    Library,
    Member,
    QuickPut,
    Which,
    close_to,
    fold,
)
from .protocol import FULL, Act, Asked, Asker, Later, Read, Session, act_words
from .records import (
    CALL,
    DEFAULT,
    GETELEM,
    INVOKE,
    LOCK,
    METHOD,
    NEW_VALUE,
    PROPERTYGET,
    PROPERTYPUT,
    PUTELEM,
    REDIM,
    UNLOCK,
    ask_ids,
    ask_release,
    indices_field,
    read_ids,
    read_nothing,
    read_number,
    read_value,
)
from .values import (
    ARRAY,
    INTEGERS,
    VT_VARIANT,
    Array,
    Bounds,
    Fetched,
    Row,
    Value,
    indices_of,
    plain,
    whole,
)
from .wire import number_layout, variant_of
from .words import html_table, short_words

Positional = typing.Sequence[object]
Named = typing.Mapping[str, object]


class Table(typing.Protocol):
    """A table whose `to_dict("records")` gives its rows, as a `pandas.DataFrame`."""

    @property
    def to_dict(self) -> typing.Callable[..., object]:
        """A source of its rows."""


# the rows of a table: of each row its values, by the names of its columns
Rows = typing.Union[typing.Iterable[typing.Mapping[str, object]], Table]


class BaseObject:
    """The common base of objects, independent of the library. The classes that `python3 -m oaut
    stubs` writes derive from it, so that a type checker knows their members and no others."""

    __slots__ = (
        "_server",
        "_number",
        "_coclass",
        "_interface",
        "_library",
        "_members",
        "_guid",
        "_quick",
    )
    _server: Asker
    _number: int
    _coclass: Coclass
    _guid: bytes
    _library: Library
    _members: dict[str, Member]
    _interface: Which | None
    # what most uses of an attribute need, as one slot: each slot of a class with `__getattr__` is
    # slow to read
    _quick: tuple[Asker, Library, dict[str, Member], bytes, int]

    def __init__(
        self, server: Asker, number: int, coclass: Coclass, interface: Which | None = None
    ) -> None:
        own = object.__setattr__
        own(self, "_server", server)
        own(self, "_number", number)
        own(self, "_coclass", coclass)
        own(self, "_interface", interface)
        self._follow(server.library)

    def _follow(self, library: Library) -> None:
        """Takes the members of a library, the first one or one that has come in its place."""
        own = object.__setattr__
        own(self, "_coclass", library.coclass(self._coclass.guid))
        which = self._interface
        found = library.interface(self._coclass, which)
        own(self, "_interface", None if which is None else found.guid)
        own(self, "_members", library.members(found))
        own(self, "_guid", DEFAULT if which is None else found.guid.bytes_le)
        spelled = library.spelled(found, OWN_WORDS)
        own(self, "_quick", (self._server, library, spelled, self._guid, self._number))
        own(self, "_library", library)

    @property
    def number(self) -> int:
        """The object's number in its server."""
        return self._number

    @property
    def coclass(self) -> str:
        """The name of its coclass."""
        return self._coclass.name

    def interface(self, which: Which) -> Object:
        """Returns the same object through another interface of its coclass, by name or GUID."""
        return Object(self._server, self._number, self._coclass, which)

    def release(self) -> None:
        """Gives the object up; its number is never used again."""
        release_of(self)

    def dispids(self, *names: str) -> list[int]:
        """The DISPIDs of a member's name and of its parameters' names, as the server says. If one
        is not known UnknownName is raised, whose `fields` hold them with -1 there
        (`records.read_ids`)."""
        found: list[int] = dispids_of(self, names)
        return found

    def property(self, name: str) -> Property:
        """A property by itself: what `item.Cell` is if it has parameters."""
        return Property(self, member_of(self, name))

    def compare_and_put(
        self,
        name: str,
        old: object,
        new: object,
        /,
        *positional: object,
        lock: ArrayProperty,
        timeout: float | None = None,
    ) -> bool:
        """Puts a property if it has the value `old`, and returns whether it did. During the call
        it holds the lock of an array, as `lock=item.Grid`. Clients that use the same lock never
        overwrite each other's puts; others may. Raises TimeoutError after this many seconds."""
        member = member_of(self, name)
        with Locked(lock, timeout, (self, member, positional)) as held:
            if held.value != old:
                return False
            held.put_last(new)
            return True

    def update(
        self,
        name: str,
        step: typing.Callable[[Value], Value],
        /,
        *positional: object,
        lock: ArrayProperty,
        timeout: float | None = None,
    ) -> Value:
        """Puts what `step` returns for a property's value, and returns that too, as in
        `item.update("Count", lambda count: count + 1, lock=item.Grid)`. It holds the lock
        meanwhile, like `compare_and_put`. If `step` raises, nothing is put."""
        member = member_of(self, name)
        with Locked(lock, timeout, (self, member, positional)) as held:
            new = step(held.value)
            held.put_last(new)
            return new

    def array(self, name: str, /, *positional: object, **named: object) -> ArrayProperty:
        """The array in a property, also of one that is declared as VARIANT."""
        return ArrayProperty(self, member_of(self, name), positional, named)


class Object(BaseObject):
    """An object of a server. Its members are its attributes, in any case of their letters:
    `item.Count`, `item.Count = 7`, `item.Cell[5, "k"]`, `item.Grid[0, 7]`. A member whose name is
    one of this class's own words is reached by another case of it."""

    __slots__ = ()

    def __getattr__(self, name: str) -> Value:
        if name in OWN_WORDS:
            raise NoSuchMember(name)
        # (what most uses need is looked up here, a call less)
        server, library, spelled, _, _ = self._quick
        member = spelled.get(name) if library is server.described else None
        if member is None:
            if name.startswith("__"):
                raise NoSuchMember(name)
            member = member_of(self, name)
        if member.is_plain:
            return get_of(self, member)
        if member.is_method:
            return Method(self, member)
        if member.parameters:
            return Property(self, member)
        return ArrayProperty(self, member, (), {})

    def __setattr__(self, name: str, value: object) -> None:
        server, library, spelled, guid, number = self._quick
        member = spelled.get(name) if library is server.described else None
        if member is None:
            if name in OWN_WORDS:
                told = "is no member; if the library has one of this name, write it in another"
                raise NoSuchMember(f"{name} {told} case")
            member = member_of(self, name)
            guid = self._guid
        if type(value) is int:
            # (what `put_of` does with a whole number, a call less)
            pack, rest, low, high = member.puts.get(guid) or _quick_put(member, guid)
            if low <= value <= high:
                request, act = pack(INVOKE, number, rest, value), (_put, self, member, value)
                batch = server.in_batch
                if batch is None or not batch.put(request, _NEW, act):
                    server.ask(request, read_nothing, _NEW, act)
                return
        put_of(self, member, value)

    def __dir__(self) -> list[str]:
        return sorted({*object.__dir__(self), *(it.name for it in self._members.values())})

    def __eq__(self, other: object) -> bool:
        if not isinstance(other, Object):
            return NotImplemented
        return self._server is other._server and self._number == other._number

    def __hash__(self) -> int:
        return hash((id(self._server), self._number))

    def __repr__(self) -> str:
        return f"<{self._coclass.name} {self._number}>"

    def _repr_html_(self) -> str:
        """HTML for notebooks: the members with their values, which are read in one batch; without
        values inside a batch, and after the session has ended."""
        found = shown_values(self)
        heads = ("member", "value", "type", "DISPID") if found else ("member", "type", "DISPID")
        rows = []
        for it in self._members.values():
            value = (found.get(it.name, ""),) if found else ()
            rows.append((it.name, *value, it.type_words(), it.dispid))
        return html_table(repr(self), heads, rows)

    def __copy__(self) -> Object:
        return Object(self._server, self._number, self._coclass, self._interface)

    def __deepcopy__(self, _: object) -> Object:
        # one object of the server has one number: what is copied is the name for it
        return self.__copy__()

    def __reduce_ex__(self, _: typing.SupportsIndex) -> typing.NoReturn:
        told = f"belongs to its session and cannot be pickled: keep its number, {self._number}"
        raise WrongType(f"{self!r} {told}")


OWN_WORDS = frozenset(dir(Object))
_NONE: dict[str, object] = {}
_NEW = ("the new value",)
# the DISPID of a put's new value alone, with its padding
_NEW_NAMED = struct.pack("<i4x", NEW_VALUE)


# a request: its opcode, the object's number, and all that follows
_ASK = struct.Struct(f"<II{CALL.size - 8}s").pack


def _quick_get(member: Member, guid: bytes) -> bytes:
    """The bytes of a get without arguments after the object's number."""
    head = CALL.pack(INVOKE, 0, 0, member.dispid, guid, 0, PROPERTYGET, 0, 0, 0)
    return member.gets.setdefault(guid, head[8:])


def _quick_put(member: Member, guid: bytes) -> QuickPut:
    """How a put of a whole number is packed; if the member takes none the range is empty."""
    if member.vt not in INTEGERS:
        return member.puts.setdefault(guid, (_ASK, b"", 1, 0))
    form, before = number_layout(member.vt)
    head = CALL.pack(INVOKE, 0, 0, member.dispid, guid, 0, PROPERTYPUT, 0, 1, 1)
    rest = head[8:] + _NEW_NAMED + before
    pack = struct.Struct(f"<II{len(rest)}s{form[form.index('s') + 1:]}").pack
    of = INTEGERS[member.vt]
    return member.puts.setdefault(guid, (pack, rest, of.low, of.high))


# --- requests of an object and of a member: they return what the session returns for them


def member_of(item: BaseObject, name: str) -> Member:
    """The member of this name, in any case. Raises AttributeError if there is none."""
    if item._library is not item._server.described:
        item._follow(item._server.library)
    found = item._members.get(name)
    if found is None:
        found = item._members.get(fold(name))
        if found is None:
            meant = close_to(name, [it.name for it in item._members.values()])
            raise NoSuchMember(f"{item._coclass.name} has no member {name}{meant}")
    return found


def number_of(given: typing.SupportsIndex) -> int:
    """The number of an object. Raises ValueError or TypeError for what is none."""
    number = whole(given)
    if not 0 <= number < 1 << 32:
        raise WrongValue(f"{number} is no object's number: these have 32 bits")
    return number


def columns_of(library: Library, of: Coclass, names: typing.Sequence[str]) -> list[Member]:
    """The members of a coclass that are the columns of a table: those of these names, or if there
    are none all that are read without arguments."""
    members = library.members(library.interface(of))
    if not names:
        return [it for it in members.values() if it.can_get and not it.parameters]
    found = []
    for name in names:
        if fold(name) not in members:
            meant = close_to(name, [it.name for it in members.values()])
            raise NoSuchMember(f"{of.name} has no member {name}{meant}")
        found.append(members[fold(name)])
    return found


def column_name(member: Member) -> str:
    """Returns the name of a member's column. A member called `number` has a column in another
    case, since `number` is the object's own."""
    return "Number" if member.name == "number" else member.name


def shown_values(item: BaseObject) -> dict[str, str]:
    """Returns the values of the members that are read without arguments, in words, by their
    names. A member whose get is refused has the name of the error. Empty if no request can be
    sent now."""
    batch = getattr(item._server, "batch", None)
    asked: dict[str, Later] = {}
    if batch is None:
        return {}
    try:
        with batch():
            for it in item._members.values():
                if it.can_get and not it.parameters:
                    asked[it.name] = get_of(item, it)
    except Refused:
        pass
    except (Error, RuntimeError):
        return {}
    return {name: _shown(later) for name, later in asked.items()}


def _shown(later: Later) -> str:
    """Returns a reply in words that fit a line, or the name of its error."""
    try:
        return short_words(later.value)
    except Refused as refusal:
        return refusal.name


def rows_of(
    found: typing.Sequence[Object],
    columns: typing.Sequence[Member],
    asked: typing.Sequence[typing.Sequence[Later]],
) -> list[dict[str, Value]]:
    """The rows of a table of objects, but for those of objects that are no more."""
    rows: list[dict[str, Value]] = []
    for item, laters in zip(found, asked):
        try:
            values = {column_name(it): plain(later.value) for it, later in zip(columns, laters)}
        except Disconnected:
            continue
        rows.append({"number": item.number, **values})
    return rows


# the number of the object of a row, and the values that its members get
_Puts = list[tuple[typing.Optional[int], list[tuple[Member, object]]]]


def puts_of(library: Library, of: Coclass, rows: Rows) -> _Puts:
    """The puts of a table's rows. Raises AttributeError for a column that is not a member, and the
    exception of a value that cannot be sent: before anything is made or put."""
    told = typing.cast(Table, rows).to_dict("records") if hasattr(rows, "to_dict") else rows
    found: _Puts = []
    given_rows = typing.cast(typing.Iterable[typing.Mapping[str, object]], told)
    for place, row in enumerate(given_rows, 1):
        given = dict(row)
        number = typing.cast("float | None", given.pop("number", None))
        members = columns_of(library, of, list(given)) if given else []
        values = [
            (member, value)
            for member, value in zip(members, given.values())
            # (what is no number is what a table has in an empty place)
            if member.can_put and value is not None and not _is_nan(value)
        ]
        for member, value in values:
            _can_be_sent(value, member, place)
        found.append(
            (None if number is None or _is_nan(number) else _object_number(number), values)
        )
    return found


def _can_be_sent(value: object, member: Member, place: int) -> None:
    """Raises the exception of a value that a put of a row cannot send."""
    if isinstance(value, Fetched):  # (it is read when it is put)
        return
    try:
        variant_of(value, member.vt)
    except (TypeError, ValueError, ArithmeticError) as error:
        kind = _NAMED.get(type(error))
        raise error if kind is None else kind(f"row {place}, {member.name}: {error}") from None


def _object_number(given: float) -> int:
    """The number in a row's column, which a table with an empty place has as a float."""
    number = int(given)
    if isinstance(given, float) and number != given:
        raise WrongValue(f"{given} is no object's number")
    return number


def _is_nan(value: object) -> bool:
    """Whether a value is what tables have in an empty place: a NaN, or pandas' NA and NaT."""
    if isinstance(value, float):
        return value != value
    return type(value).__name__ in ("NAType", "NaTType")


def release_of(item: BaseObject) -> Asked:
    """Gives an object up."""
    return item._server.ask(ask_release(item._number), read_nothing, act=(_released, item))


def dispids_of(item: BaseObject, names: typing.Sequence[str]) -> Asked:
    """Asks for the DISPIDs of names."""
    request = ask_ids(item._number, names, item._guid)
    return item._server.ask(request, read_ids, act=(_looked_up, item, names))


def get_of(
    item: BaseObject, member: Member, positional: Positional = (), named: Named = _NONE
) -> Asked:
    """Asks for a property's value, an array whole."""
    act = (_called, "get", item, member, positional, named)
    if not positional and not named:
        rest = member.gets.get(item._guid) or _quick_get(member, item._guid)
        # the same bytes as below, in one step
        return item._server.ask(_ASK(INVOKE, item._number, rest), member.read, (), act)
    fields, told = _bound(act, member, positional, named)
    head = CALL.pack(
        INVOKE, 0, item._number, member.dispid, item._guid, 0, PROPERTYGET, 0, len(told), len(named)
    )
    return item._server.ask(head + fields, member.read, told, act)


def place_bytes(
    item: BaseObject, member: Member, positional: Positional = (), named: Named = _NONE
) -> bytes:
    """The bytes that say which value a get returns: equal ones are of the same value."""
    act = (_called, "get", item, member, positional, named)
    fields, _ = _bound(act, member, positional, named)
    return struct.pack("<Ii", item._number, member.dispid) + item._guid + fields


def put_of(
    item: BaseObject,
    member: Member,
    value: object,
    positional: Positional = (),
    named: Named = _NONE,
) -> Asked:
    """Puts a property's value."""
    act, guid = (_called, "put", item, member, positional, named, value), item._guid
    if type(value) is int and not positional and not named:
        pack, rest, low, high = member.puts.get(guid) or _quick_put(member, guid)
        if low <= value <= high:
            # the same bytes as below, in one step
            request = pack(INVOKE, item._number, rest, value)
            return item._server.ask(request, read_nothing, _NEW, act)
    number, dispid = item._number, member.dispid
    fields, told = _bound(act, member, positional, named, (value,))
    head = CALL.pack(INVOKE, 0, number, dispid, guid, 0, PROPERTYPUT, 0, len(told), len(named) + 1)
    return item._server.ask(head + fields, read_nothing, told, act)


def call_of(
    item: BaseObject, member: Member, positional: Positional = (), named: Named = _NONE
) -> Asked:
    """Calls a method."""
    act = (_called, "call", item, member, positional, named)
    fields, told = _bound(act, member, positional, named)
    head = CALL.pack(
        INVOKE, 0, item._number, member.dispid, item._guid, 0, METHOD, 0, len(told), len(named)
    )
    return item._server.ask(head + fields, _answer_of_method, told, act)


def _answer_of_method(fields: bytes) -> Value:
    return read_value(fields) if fields else None


class ArrayCalls:
    """The requests on the array in a property."""

    __slots__ = ("_object", "_member", "_positional", "_named")

    def __init__(
        self, object: BaseObject, member: Member, positional: Positional, named: Named
    ) -> None:
        self._object, self._member = object, member
        self._positional, self._named = positional, named

    def ask_value(self) -> Asked:
        """Asks for all of it."""
        return self._call("get", INVOKE, b"", self._member.read)

    def ask_element(self, indices: object) -> Asked:
        """Asks for an element."""
        found = indices_of(indices)
        return self._call("get", GETELEM, indices_field(found), self._member.read, _bracket(found))

    def ask_put(self, indices: object, value: object) -> Asked:
        """Puts an element."""
        declared = self._member.vt - ARRAY if self._member.vt & ARRAY else VT_VARIANT
        found = indices_of(indices)
        try:
            field = variant_of(value, declared)
        except (TypeError, ValueError, ArithmeticError) as error:
            told = f"{_bracket(found)} = {short_words(value)}"
            raise _named(error, self._act("put", told)) from None
        rest = indices_field(found) + field
        return self._call("put", PUTELEM, rest, read_nothing, _bracket(found), value)

    def ask_redim(self, count: int, lower: int) -> Asked:
        """Replaces the first bound."""
        count, lower = whole(count), whole(lower)
        if not 0 <= count < 1 << 32 or not -(1 << 31) <= lower < 1 << 31:
            raise WrongValue("a count is below 2^32, and a lowest index has 32 signed bits")
        rest = struct.pack("<Ii", count, lower)
        return self._call("redim", REDIM, rest, read_nothing, f" to {count} from {lower}")

    def ask_lock(self) -> Asked:
        """Adds a lock."""
        self._object._server.note_lock()
        return self._call("lock", LOCK, b"", read_number)

    def ask_unlock(self) -> Asked:
        """Takes a lock away."""
        server = self._object._server

        def given_back(fields: bytes) -> int:
            server.note_lock(-1)
            return read_number(fields)

        return self._call("unlock", UNLOCK, b"", given_back)

    def __repr__(self) -> str:
        return f"<array {self._member.name} of {self._object!r}>"

    def _act(self, word: str, rest: str = "", *value: object) -> Act:
        own = self._object, self._member, self._positional, self._named
        return (_used, word, rest, *own, *value)

    def _call(
        self,
        word: str,
        opcode: int,
        rest: bytes,
        read: Read,
        behind: str = "",
        *value: object,
    ) -> Asked:
        item, named, act = self._object, self._named, self._act(word, behind, *value)
        number, dispid, guid = item._number, self._member.dispid, item._guid
        fields, told = _bound(act, self._member, self._positional, named)
        head = CALL.pack(opcode, 0, number, dispid, guid, 0, PROPERTYGET, 0, len(told), len(named))
        return item._server.ask(head + fields + rest, read, told, act)


# --- what an attribute is


class Method:
    """A method of an object. Libraries have no bodies of methods, so a call raises
    NotImplementedHere, which is a NotImplementedError."""

    __slots__ = ("_object", "_member")

    def __init__(self, object: BaseObject, member: Member) -> None:
        self._object = object
        self._member = member

    def __call__(self, /, *positional: object, **named: object) -> Value:
        return call_of(self._object, self._member, positional, named)

    def __repr__(self) -> str:
        return f"<method {self._member.name} of {self._object!r}>"


class Property:
    """A property with parameters: `item.Cell[5, "k"]`, `item.Cell[5, "k"] = "x"`,
    `item.Cell(5, Key="k")`, `item.Cell.put("x", 5, Key="k")`."""

    __slots__ = ("_object", "_member")

    def __init__(self, object: BaseObject, member: Member) -> None:
        self._object = object
        self._member = member

    def get(self, /, *positional: object, **named: object) -> Value:
        """Its value for these arguments."""
        if self._member.vt & ARRAY:
            return ArrayProperty(self._object, self._member, positional, named)
        return get_of(self._object, self._member, positional, named)

    def put(self, value: object, /, *positional: object, **named: object) -> None:
        """Puts its value for these arguments."""
        put_of(self._object, self._member, value, positional, named)

    __call__ = get

    def keys(self) -> list[tuple[Value, ...]]:
        """The arguments of all values that were put, in the store's order: `list(item.Cell)` and
        `len(item.Cell)` are of these. They are read from the store's file, so the session has to
        know it: `oaut.open`, `oaut.serve`, or `connect(.., store=PATH)`; or the gateway's socket of
        `--watch`, as `connect(.., watch=ADDRESS)`. Each call reads all of the file that is in
        use."""
        from .keys import keys_from

        server, of = self._object._server, self._member
        path, watch = getattr(server, "store", None), getattr(server, "_watch_at", None)
        return keys_from(path, watch, self._object.number, of.interface.guid.bytes_le, of.dispid)

    def __iter__(self) -> typing.Iterator[Value]:
        for key in self.keys():
            yield key[0] if len(key) == 1 else key

    def __len__(self) -> int:
        return len(self.keys())

    def __bool__(self) -> bool:
        return True

    def __getitem__(self, key: object) -> Value:
        return self.get(*key) if isinstance(key, tuple) else self.get(key)

    def __setitem__(self, key: object, value: object) -> None:
        put_of(self._object, self._member, value, key if isinstance(key, tuple) else (key,))

    def __repr__(self) -> str:
        return f"<property {self._member.name} of {self._object!r}>"


class ArrayProperty(ArrayCalls, Fetched):
    """The array in a property: each use asks the server. `grid[0, 7]`, `grid[0, 7] = 6`,
    `grid[0:2]`, `len(grid)`, `list(grid)`, `grid.value` for all of it."""

    __slots__ = ()

    @property
    def value(self) -> Value:
        """The array by itself, an Array: what is done to it stays here until it is put."""
        return self.ask_value()

    @property
    def bounds(self) -> Bounds:
        """Its bounds, pairs of a count and a lowest index."""
        found: Bounds = self.now().bounds
        return found

    def redim(self, count: int, lower: int = 0) -> None:
        """Replaces the first bound. Cells are kept by their position, and new ones are zero."""
        self.ask_redim(count, lower)

    def lock(self) -> int:
        """Adds a lock and gives their count: a locked array is neither redimensioned nor put as a
        whole."""
        found: int = self.ask_lock()
        return found

    def unlock(self) -> int:
        """Takes a lock away and gives the count of those that are left."""
        found: int = self.ask_unlock()
        return found

    def locked(self, timeout: float | None = None) -> Locked:
        """`with item.Grid.locked():` has the array's only lock, and releases it on any exit. Others
        that use `locked()` wait; TimeoutError after so many seconds. Clients that do not lock may
        still change values."""
        return Locked(self, timeout)

    def __getitem__(self, indices: object) -> Value:
        """An element, or by fewer indices than there are bounds a Row. Raises BadIndex, which names
        the bounds."""
        if isinstance(indices, slice):
            return self.now()[indices]
        try:
            return self.ask_element(indices)
        except BadIndex as error:
            fault = error
        found = self._if_array()
        if found is not None and found.has_row(indices_of(indices)):
            return Row(self, indices_of(indices))
        raise self._with_bounds(fault, indices, found) from None

    def __setitem__(self, indices: object, value: object) -> None:
        try:
            self.ask_put(indices, value)
        except BadIndex as error:
            raise self._with_bounds(error, indices, self._if_array()) from None

    def _if_array(self) -> Array | None:
        """The array as it is now, or None if there is none to be had."""
        with contextlib.suppress(Error):
            found = self.value
            return found if isinstance(found, Array) else None
        return None

    def _with_bounds(self, error: BadIndex, indices: object, found: Array | None) -> BadIndex:
        """Returns the same error with the bounds of the array."""
        if found is None:
            return error
        count = len(indices_of(indices))
        hint = f"{count} ind{'ex' if count == 1 else 'ices'} for {found.bounds_words()}"
        return BadIndex(error.index, error.argument, error.fields, None, error.act, hint)

    def _repr_html_(self) -> str:
        found = self.value
        if not isinstance(found, Array):
            return html_table(repr(self), (), [(short_words(found),)])
        return found._repr_html_()

    def now(self) -> Array:
        """The array as it is now, outside a batch."""
        found = self.value
        if isinstance(found, Array):
            return found
        if isinstance(found, Later):
            told = "has no bounds and no length yet: its `value` is a Later"
            raise WrongUse(f"in a batch {self!r} {told}")
        own = self._object, self._member, self._positional, self._named
        raise WrongType(f"{_called(0, 'get', *own)[0]}: it holds {short_words(found)}, no array")


class _GivingBack:
    """The `__exit__` of a lock. A `with` statement holds what it finds here until the block has
    ended, so the lock is given back then, wherever an interrupt has come."""

    def __get__(self, locked: Locked | None, _: object = None) -> typing.Callable[..., None]:
        if locked is None:
            return Locked.leave
        leaving = functools.partial(locked.leave)
        locked.block = weakref.ref(leaving, locked.ended)
        return leaving


# seconds: the least that an attempt to lock is taken for, and about the longest pause after one
_ATTEMPT, _LONGEST_PAUSE = 0.0005, 0.1
# a property of an object, and its arguments
Place = tuple[BaseObject, Member, Positional]


def pause_after(turn: int, took: float, left: float | None = None) -> float:
    """The seconds to wait after an attempt to lock that took so many, if so many are left. Attempts
    are counted from 0. Since each one keeps others from the lock, pauses soon get longer: up to
    many times an attempt."""
    most = min(max(took, _ATTEMPT) * 2 ** (min(turn, 22) / 2 + 1), max(_LONGEST_PAUSE, 32 * took))
    pause = random.uniform(0, most)
    return pause if left is None else min(pause, left)


class Locked:
    """The only lock of an array: `with item.Grid.locked() as lock`."""

    def __init__(
        self, array: ArrayProperty, timeout: float | None, place: Place | None = None
    ) -> None:
        self._array, self._timeout, self._place = array, timeout, place
        self._server = typing.cast(Session, array._object._server)
        if place is not None and place[0]._server is not self._server:
            raise WrongUse(f"{array!r} is locked by another session than that of {place[0]!r}")
        self._found: Later | None = None
        # how many locks it has, the tag of a request that changes that, and by how much
        self._state: tuple[int, int | None, int] = (0, None, 0)
        self.block: object = None

    def __enter__(self) -> Locked:
        batch = self._server.in_batch
        if batch is not None and batch.is_open():
            raise WrongUse("a lock is waited for outside a batch")
        until = None if self._timeout is None else time.monotonic() + self._timeout
        turn = 0
        try:
            while True:
                begun = time.monotonic()
                if self._lock() == 1:
                    return self
                self._give_back()
                now = time.monotonic()
                if until is not None and now >= until:
                    told = f"{self._array!r} is locked by others for {self._timeout:g} seconds"
                    raise NotInTime(told)
                time.sleep(pause_after(turn, now - begun, until and until - now))
                turn += 1
        except BaseException:
            self._give_back()
            raise

    if typing.TYPE_CHECKING:

        def __exit__(self, *_: object) -> None:
            """Gives the lock back."""

    else:
        __exit__ = _GivingBack()

    def _lock(self) -> int:
        """Adds a lock, and reads the property in the same step. Returns the count of locks."""
        if self._place is None:
            self._state = (0, self._server.next_tag, 1)
            locks = self._array.lock()
            self._state = (1, None, 0)
            return locks
        # (after an interrupt the lock is given back, whether it is there or not)
        self._state = (1, None, 0)
        with contextlib.suppress(Refused), self._server.batch():
            count = self._array.ask_lock()
            self._found = get_of(*self._place)
        return typing.cast(int, count.value)

    @property
    def value(self) -> Value:
        """The value that the property had when the lock was there."""
        return typing.cast(Later, self._found).value

    def put_last(self, value: object) -> None:
        """Puts that property, and gives the lock back, in one step."""
        item, member, positional = typing.cast(Place, self._place)
        self._state = (1, self._server.next_tag + 1 & 0xFFFF_FFFF, -1)
        unlocked: Later | None = None
        try:
            with self._server.batch():
                put_of(item, member, value, positional)
                unlocked = self._array.ask_unlock()
        finally:
            if unlocked is not None and unlocked.is_sent:
                self._state = (0, None, 0)

    def leave(self, *_: object) -> None:
        """Gives the lock back."""
        try:
            self._give_back()
        except BaseException:
            # (an interrupt, or the session's end, with which its locks go)
            self._give_back()
            raise

    def ended(self, _: object) -> None:
        """Gives the lock back if the block has ended without that."""
        if self._state != (0, None, 0):
            # (the end of the block has raised if another thread uses the session)
            with contextlib.suppress(SessionInUse):
                self._give_back()

    def _give_back(self) -> None:
        own, tag, change = self._state
        if tag is not None and self._server.was_done(tag):
            own += change
        self._state = (own, None, 0)
        if own:
            self._state = (own, self._server.next_tag, -1)
            try:
                self._array.unlock()
            except SessionInUse as fault:
                if fault.process is None:
                    # (nothing was sent, as another thread uses the session: the lock is still here)
                    self._state = (own, None, 0)
                    raise
            except Error:
                pass  # (the session has ended, or the array is gone: its locks are too)
            self._state = (0, None, 0)

    def put_if_equal(self, name: str, expected: object, value: object, *positional: object) -> bool:
        """Puts a property of the same object if it has the value `expected`, and returns whether
        it did. No other put comes between, if all clients that put the property hold this lock."""
        item = self._array._object
        member = member_of(item, name)
        if get_of(item, member, positional) != expected:
            return False
        put_of(item, member, value, positional)
        return True


class LaterObject(Later):
    """An object that is created in a batch. Its first use there sends what the batch has, so that
    it has its number: to send less often, create all objects first."""

    __slots__ = ("_later", "_send")

    def __init__(self, later: Later, send: typing.Callable[[], object]) -> None:
        object.__setattr__(self, "_later", later)
        object.__setattr__(self, "_send", send)

    @property
    def value(self) -> Value:
        """The object."""
        return self._later.value

    @property
    def is_sent(self) -> bool:
        """Whether it was created, or refused."""
        return bool(self._later.is_sent)

    def __getattr__(self, name: str) -> Value:
        if name.startswith("__"):
            raise NoSuchMember(name)
        return getattr(self._made(), name)

    def __setattr__(self, name: str, value: object) -> None:
        setattr(self._made(), name, value)

    def _made(self) -> Object:
        if not self._later.is_sent:
            self._send()
        return typing.cast(Object, self._later.value)


# --- arguments


def _bound(
    act: Act, member: Member, positional: Positional, named: Named, put: Positional = ()
) -> tuple[bytes, typing.Sequence[str]]:
    """The bytes of a call's named DISPIDs and of its arguments in the order of rgvarg, and the name
    of each argument. An exception for an argument that cannot be sent names the call."""
    parameters = member.parameters
    if named or len(positional) > len(parameters):
        try:
            dispids, fields, told = member.arguments(positional, named, put)
        except (TypeError, ValueError, ArithmeticError) as error:
            raise _named(error, act) from None
        names = struct.pack(f"<{len(dispids)}i{len(dispids) % 2 * 4}x", *dispids)
        return names + b"".join(fields), told
    try:
        if not positional:
            if not put:
                return b"", ()
            return _NEW_NAMED + variant_of(put[0], member.vt), _NEW
        parts = [_NEW_NAMED, variant_of(put[0], member.vt)] if put else []
        for place in range(len(positional) - 1, -1, -1):
            parts.append(variant_of(positional[place], parameters[place].vt))
    except (TypeError, ValueError, ArithmeticError) as error:
        raise _named(error, act) from None
    return b"".join(parts), member.told[bool(put), len(positional)]


# --- requests in words


# for exceptions of Python, the package's own, which are raised with the request in words
_NAMED: dict[type[Exception], type[Exception]] = {
    TypeError: WrongType,
    ValueError: WrongValue,
    OverflowError: OutOfRange,
    IndexError: NoSuchIndex,
    **{it: it for it in (WrongType, WrongValue, OutOfRange, NoSuchIndex)},
}


def _named(error: Exception, act: Act) -> Exception:
    """Returns the same exception with the request in words."""
    kind = _NAMED.get(type(error))
    return error if kind is None else kind(f"{act_words(act)[0]}: {error}")


def _bracket(indices: typing.Sequence[int]) -> str:
    return f"[{', '.join(map(str, indices))}]"


def _called(
    code: int,
    word: str,
    item: BaseObject,
    member: Member,
    positional: Positional = (),
    named: Named = _NONE,
    *value: object,
) -> tuple[str, str]:
    """A get, put or call in words, and what the library says of it if the member has no such
    form."""
    told = [short_words(it) for it in positional]
    told += [f"{name}={short_words(it)}" for name, it in named.items()]
    brackets = f"({', '.join(told)})" if told or word == "call" else ""
    new = f" = {short_words(value[0])}" if value else ""
    hint = ""
    if code == MemberNotFound.code:
        if word == "put" and not member.can_put:
            hint = "the property is read-only" if member.can_get else "it is a method"
        elif word == "get" and not member.can_get:
            hint = "the property cannot be read"
    elif code in (BadParamCount.code, ParamNotOptional.code):
        names = [
            f"{it.name} (may be left out)" if it.flags & (OPTIONAL | HAS_DEFAULT) else it.name
            for it in member.parameters
        ]
        hint = f"its parameters: {', '.join(names)}" if names else "it has no parameters"
    elif code == MediumFull.code:
        hint = FULL
    return f"{word} {item._coclass.name}.{member.name}{brackets}{new}", hint


_LOCKS = {
    "lock": "it was never put, or has 65,535 locks, which is the limit: put an array, or unlock it",
    "unlock": "it has no lock",
}


def _used(
    code: int,
    word: str,
    rest: str,
    item: BaseObject,
    member: Member,
    positional: Positional,
    named: Named,
    *value: object,
) -> tuple[str, str]:
    """A request on an array, in words."""
    told, hint = _called(code, word, item, member, positional, named)
    if code == MemberNotFound.code and word in ("put", "redim") and not member.can_put:
        hint = "the property is read-only"
    elif code == Unexpected.code:
        hint = _LOCKS.get(word, "")
    return told + rest + (f" = {short_words(value[0])}" if value else ""), hint


def _put(code: int, item: BaseObject, member: Member, value: object) -> tuple[str, str]:
    """A put without arguments in words, as `_called` has it."""
    return _called(code, "put", item, member, (), _NONE, value)


def _released(_: int, item: BaseObject) -> tuple[str, str]:
    return f"release {item!r}", ""


def _looked_up(_: int, item: BaseObject, names: typing.Sequence[str]) -> tuple[str, str]:
    return f"look up {', '.join(names)} of {item._coclass.name}", ""
