"""A prompt over a session: `python3 -m oaut talk LIB`."""
from __future__ import annotations

import ast
import cmd
import io
import re
import sys
import tokenize
import typing

from .decode import description_words
from .faults import BadStub, Error, SessionEnded, UnknownName, WrongValue
from .library import Description, fold
from .objects import ArrayProperty, Method, Object, Property, member_of, shown_values
from .programs import Program, connect, play, serve
from .records import read_ids
from .session import Server
from .values import ARRAY, Value
from .words import value_of, words_of

Parts = list[tuple[tuple[object, ...], typing.Optional[dict[str, object]]]]
# the exceptions of a command after which the prompt goes on
ERRORS = (Error, LookupError, ValueError, TypeError, AttributeError, ArithmeticError, SyntaxError)

HELP = """\
create CLASS               a new object
get OBJECT MEMBER          get 1 Count, get 1 Cell[5, "k"], get 1 Cell(5, Key="k"),
                           get 1 Grid[0, 7], get 1 Grid[0:2]
show OBJECT                its members and their values
put OBJECT MEMBER VALUE    put 1 Count 7, put 1 Cell[5, "k"] "x", put 1 Grid [[1, 2], [3, 4]]
                           values: 7, 2.50, "text", b"abc", true, null, empty, I2(5),
                           Currency("2.5"), SCode(0x80004005), Array(I2, [(2, -1)], [1, 2])
call OBJECT METHOD         call 1 Clear()
redim OBJECT MEMBER COUNT [LOWEST]
lock OBJECT MEMBER, unlock OBJECT MEMBER
ids OBJECT NAME ..         the DISPIDs of a member's name and of its parameters' names
release OBJECT             gives an object up
list                       the live objects
info                       the library
replace LIB                another library, which keeps what the one before has
quit, exit                 ends the session"""


class Talk(cmd.Cmd):
    """The commands of a prompt over a session."""

    prompt = "> "

    def __init__(self, server: Server, say: typing.Callable[[str], object] = print) -> None:
        super().__init__()
        self.server = server
        self.say = say
        self.objects: dict[int, Object] = {}
        # whether an error is printed and the prompt goes on
        self.goes_on = False

    # --- what cmd.Cmd asks of a prompt

    def parseline(self, line: str) -> tuple[str | None, str | None, str]:
        """The command in lower case, and the rest of the line."""
        if line.lstrip().startswith("#"):
            return None, None, ""
        word, rest, line = super().parseline(line)
        return word.lower() if word and word != "EOF" else word, rest, line

    def onecmd(self, line: str) -> bool:
        """Does what a line says, and is true if it ends the session."""
        try:
            return bool(super().onecmd(line))
        except SessionEnded:
            raise
        except ERRORS as error:
            if not self.goes_on:
                raise
            self.say(str(error))
            return False

    def emptyline(self) -> bool:
        return False

    def default(self, line: str) -> None:
        raise WrongValue(f"no command {line.split()[0]}; help lists them")

    def preloop(self) -> None:
        try:
            import readline
        except ImportError:
            return
        readline.set_completer_delims(" [(")
        # libedit, which replaces readline on some systems, has other words for it
        if "libedit" in (readline.__doc__ or ""):
            readline.parse_and_bind("bind ^I rl_complete")

    def completenames(self, text: str, *_: object) -> list[str]:
        names = [it[3:] for it in self.get_names() if it.startswith("do_") and it != "do_EOF"]
        return [it for it in names if it.startswith(text.lower())]

    def completedefault(self, *words: str) -> list[str]:
        library = self.server.library
        names = {it.name for it in library.coclasses} | {
            form.name for it in library.interfaces for form in it.forms
        }
        return sorted(it for it in names if fold(it).startswith(fold(words[0])))

    # --- commands

    def do_create(self, rest: str) -> None:
        made = self.server.create(_given(rest, "a coclass"))
        self.objects[made.number] = made
        self.say(repr(made))

    def do_get(self, rest: str) -> None:
        item, name, parts, more = self._target(rest)
        _no_more(more)
        found = self._walk(item, name, parts)
        if isinstance(found, Property):
            found = found.get()
        self.say(words_of(found.value if isinstance(found, ArrayProperty) else found))

    def do_show(self, rest: str) -> None:
        item, more = self._object(rest)
        _no_more(more)
        self.say(repr(item))
        found = shown_values(item)
        for member in item._members.values():
            value = f" = {found[member.name]}" if member.name in found else ""
            self.say(f"  {member.name}: {member.type_words()}{value}")

    def do_put(self, rest: str) -> None:
        item, name, parts, text = self._target(rest)
        value = value_of(_given(text, "a value"))
        if not parts:
            setattr(item, name, value)
            return
        if len(parts) > 1:
            place = self._walk(item, name, parts[:-1])
        else:
            place = item.property(name) if member_of(item, name).parameters else item.array(name)
        key, named = parts[-1]
        if named is None:
            place[key] = value
        else:
            place.put(value, *key, **named)

    def do_call(self, rest: str) -> None:
        item, name, parts, more = self._target(rest)
        _no_more(more)
        key, named = parts[0] if parts else ((), {})
        self.say(words_of(getattr(item, name)(*key, **(named or {}))))

    def do_redim(self, rest: str) -> None:
        item, name, parts, bound = self._target(rest)
        numbers = [int(it) for it in _given(bound, "a count").split()]
        if len(numbers) > 2:
            raise WrongValue("after the member: a count, or a count and a lowest index")
        self._array(item, name, parts).redim(*numbers)

    def do_lock(self, rest: str) -> None:
        item, name, parts, more = self._target(rest)
        _no_more(more)
        self.say(str(self._array(item, name, parts).lock()))

    def do_unlock(self, rest: str) -> None:
        item, name, parts, more = self._target(rest)
        _no_more(more)
        self.say(str(self._array(item, name, parts).unlock()))

    def do_ids(self, rest: str) -> None:
        item, names = self._object(rest)
        try:
            found = item.dispids(*_given(names, "a member's name").split())
        except UnknownName as refusal:
            found = read_ids(refusal.fields)
        self.say(" ".join(map(str, found)))

    def do_release(self, rest: str) -> None:
        item, more = self._object(rest)
        _no_more(more)
        item.release()
        del self.objects[item.number]

    def do_list(self, _: str) -> None:
        for it in self.server.objects():
            self.say(repr(it))

    def do_info(self, _: str) -> None:
        library = self.server.library
        found: list[Description] = [*library.interfaces, *library.coclasses]
        for it in found:
            for line in description_words(it, library.interfaces):
                self.say(line)

    def do_replace(self, rest: str) -> None:
        try:
            self.server.replace_library(_given(rest, "a library's file"))
        except OSError as error:
            raise WrongValue(f"{error.filename}: {error.strerror}") from error

    def do_help(self, _: str) -> None:
        self.say(HELP)

    def do_quit(self, _: str) -> bool:
        return True

    do_exit = do_quit

    def do_EOF(self, _: str) -> bool:
        print()
        return True

    # --- objects and members of a line

    def _object(self, rest: str) -> tuple[Object, str]:
        """The object of a line's first word, and the rest of the line."""
        words = rest.split(None, 1)
        if not words or not words[0].isdigit():
            raise WrongValue("begin with an object's number: list shows them")
        number = int(words[0])
        if number not in self.objects:
            try:
                self.objects.update((it.number, it) for it in self.server.objects())
            except BadStub:
                pass  # the server has no list
        if number not in self.objects:
            raise WrongValue(f"no object {number}; create makes one")
        return self.objects[number], words[1] if len(words) > 1 else ""

    def _target(self, rest: str) -> tuple[Object, str, Parts, str]:
        """The object, a member's name, its parts in brackets, and the rest of the line."""
        item, rest = self._object(rest)
        name = re.match(r"[A-Za-z_][A-Za-z0-9_]*", rest)
        if name is None:
            raise WrongValue("a member's name is missing after the object")
        end = name.end()
        while end < len(rest) and rest[end] in "[(":
            end = _closing(rest, end)
        source = "_" + rest[name.end() : end]
        tree = ast.parse(source, mode="eval").body
        parts: Parts = []
        while isinstance(tree, (ast.Subscript, ast.Call)):
            if isinstance(tree, ast.Subscript):
                key = _key(tree.slice, source)
                parts.append((key if isinstance(key, tuple) else (key,), None))
                tree = tree.value
            else:
                named = {it.arg or "": _value_at(it.value, source) for it in tree.keywords}
                parts.append((tuple(_value_at(it, source) for it in tree.args), named))
                tree = tree.func
        return item, name.group(), parts[::-1], rest[end:].strip()

    def _walk(self, item: Object, name: str, parts: Parts) -> Value:
        """The meaning of a member with its parts: a property, an array, a method or a value's
        place."""
        member = member_of(item, name)
        if member.is_method:
            return Method(item, member)
        place: Value
        if not member.parameters and parts:
            place = item.array(name)
        elif member.parameters or member.vt & ARRAY:
            place = getattr(item, name)
        else:
            return Property(item, member)
        for key, named in parts:
            if named is not None:
                place = place(*key, **named)
            else:
                place = place[key[0]] if len(key) == 1 else place[key]
        return place

    def _array(self, item: Object, name: str, parts: Parts) -> ArrayProperty:
        key, named = parts[0] if parts else ((), {})
        return item.array(name, *key, **(named or {}))


def _given(rest: str, what: str) -> str:
    """The rest of a line, if there is one."""
    if not rest.strip():
        raise WrongValue(f"{what} is missing at the end")
    return rest.strip()


def _no_more(rest: str) -> None:
    """Raises ValueError if there are more words than the command has."""
    if rest:
        raise WrongValue(f"not expected: {rest}")


def _value_at(node: ast.expr, source: str) -> Value:
    """The value of a text: a number keeps all of its digits."""
    return value_of(ast.get_source_segment(source, node) or "")


def _key(node: ast.expr, source: str) -> Value:
    """The contents of brackets: values, or a slice of whole numbers."""
    if not isinstance(node, ast.Slice):
        return _value_at(node, source)
    return slice(
        *(
            None if it is None else _value_at(it, source)
            for it in (node.lower, node.upper, node.step)
        )
    )


def _closing(text: str, start: int) -> int:
    """The place after the bracket that closes the one at `start`."""
    depth = 0
    try:
        for token in tokenize.generate_tokens(io.StringIO(text[start:]).readline):
            if token.type == tokenize.ERRORTOKEN and token.string[:1] in "\"'":
                break
            if token.string in ("[", "("):
                depth += 1
            elif token.string in ("]", ")"):
                depth -= 1
                if depth == 0:
                    return start + token.end[1]
    except (tokenize.TokenError, SyntaxError):
        pass
    raise WrongValue("a bracket or a text is not closed")


def run(
    library: str | None,
    store: str | None,
    program: Program,
    framing: str,
    batch: str | None,
    verbose: bool,
    address: str | None = None,
) -> int:
    """The prompt, over a library, a store or an address. Gives the exit status: 1 if a command of a
    file fails, which ends it."""
    if address is not None:
        session = connect(address, framing=framing)
    elif store is not None:
        session = serve(store, library, None, program, framing)
    else:
        session = play(typing.cast(str, library), program, framing)
    with session as server:
        talk = Talk(server)
        if verbose:
            server.trace = lambda side, body: print(side, body.hex())
        if batch is None and sys.stdin.isatty():
            return _prompt(talk)
        if batch in (None, "-"):
            return _commands(talk, sys.stdin)
        with open(typing.cast(str, batch)) as file:
            return _commands(talk, file)


def _prompt(talk: Talk) -> int:
    talk.goes_on = True
    while True:
        try:
            talk.cmdloop()
            return 0
        except KeyboardInterrupt:
            print()


def _commands(talk: Talk, lines: typing.Iterable[str]) -> int:
    for number, line in enumerate(lines, 1):
        try:
            if talk.onecmd(line.strip()):
                break
        except SessionEnded:
            raise
        except ERRORS as error:
            print(f"line {number}: {error}", file=sys.stderr)
            return 1
    return 0
