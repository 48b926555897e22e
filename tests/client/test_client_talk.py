"""`python3 -m oaut talk` and `decode`, and the examples."""
import os
import pty
import select
import subprocess
import sys
import tempfile
import time
from decimal import Decimal

from oaut.paths import text_file
from oaut.talk import Talk
from oaut.words import value_of
from tests.client.clients import (
    ASKED,
    ENVIRONMENT,
    FULL,
    PROGRAM,
    ROOT,
    ClientCases,
    hexed,
    oaut,
    play,
)

with open(f"{ROOT}/examples/first.hex") as asked, open(f"{ROOT}/examples/first.out") as answered:
    FIRST, REPLIES = asked.read(), answered.read()
COMMANDS = """create Item
# a comment
put 1 Count 7
get 1 count
put 1 Name "a \\"b\\" [c"
get 1 Name
put 1 Price 2.5
get 1 Price
put 1 Grid [[1, 2], [3, 4]]
get 1 Grid
put 1 Any Array(I2, [(2, -1)], [1, 2])
get 1 Any
ids 1 Cell Key none
info
quit
get 1 Count
"""
SAID = """<Item 1>
I4(7)
'a "b" [c'
Currency('2.5000')
Array(I2, [(2, 0), (2, 0)], [1, 2, 3, 4])
Array(I2, [(2, -1)], [1, 2])
9 1 -1
dispinterface DItem 11223344-5566-7788-99aa-bbccddeeff02
  1: long Count
"""
MORE = """create Item
put 1 Cell[5, "k]"] "x"
get 1 Cell(5, Key="k]")
put 1 Cell(5, Key="k]") "y"
get 1 Cell[5, "k]"]
put 1 Grid [[1, 2], [3, 4]]
put 1 Grid[0, 1] 9
get 1 Grid[0, 1]
lock 1 Grid
unlock 1 Grid
redim 1 Grid 3 -1
get 1 Grid
put 1 Any [1, "two", 2.50]
get 1 Any[1]
list
release 1
list
"""
SAID_MORE = """<Item 1>
'x'
'y'
I2(9)
1
0
Array(I2, [(3, -1), (2, 0)], [1, 9, 3, 4, 0, 0])
'two'
<Item 1>
"""
DECODED = """request 1: CREATE coclass 11223344-5566-7788-99aa-bbccddeeff03
request 2: INVOKE object 1 dispid 1 PROPERTYGET
request 3: INVOKE object 1 dispid 1 PROPERTYPUT, new value = I4(7)
request 4: INVOKE object 1 dispid 1 PROPERTYGET
reply 1: S_OK: object 1
reply 2: S_OK: I4(0)
reply 3: S_OK
reply 4: S_OK: I4(7)
"""
TRACED = """request 17: CREATE coclass 11223344-5566-7788-99aa-bbccddeeff03
reply 17: S_OK: object 1
request 18: INVOKE object 1 dispid 1 PROPERTYGET
reply 18: S_OK: I4(0)
"""


def command(words, given, **how):
    done = subprocess.run(
        [sys.executable, "-m", "oaut", *words],
        input=given,
        capture_output=True,
        timeout=300,
        text=True,
        env=ENVIRONMENT,
        **how,
    )
    return done.returncode, done.stdout, done.stderr


def typed_at_a_prompt(*keys):
    """What a prompt on a terminal says to keys, each typed once it asks for a command, and its
    status."""
    ours, theirs = pty.openpty()
    words = [sys.executable, "-m", "oaut", "talk", FULL, "--program", PROGRAM]
    with subprocess.Popen(
        words,
        stdin=theirs,
        stdout=theirs,
        stderr=theirs,
        start_new_session=True,
        env={**ENVIRONMENT, "TERM": "dumb"},
    ) as child:
        os.close(theirs)
        said = b"\n"
        for key in (*keys, ""):
            # a line that is drawn anew begins with the prompt, too, and not behind a line's end
            asked, until = said.count(b"\n> "), time.monotonic() + 300
            while (
                said.count(b"\n> ") == asked
                and select.select([ours], [], [], max(0, until - time.monotonic()))[0]
            ):
                try:
                    more = os.read(ours, 4_096)
                except OSError:
                    break
                if not more:
                    break
                said += more
            os.write(ours, key.encode())
        try:
            status = child.wait(300)
        except subprocess.TimeoutExpired:
            child.kill()
            status = None
    os.close(ours)
    return status, said.decode().replace("\r", "")


UP, END = "\x10", "\x04"


class Talking(ClientCases):
    def test_what_stands_after_a_whole_command_is_refused(self):
        """It would else be passed over: `release 1 2` released one object."""
        for line, more in (
            ("release 1 2", "2"),
            ("lock 1 Grid 5", "5"),
            ("unlock 1 Grid 5", "5"),
            ("call 1 Clear() 7", "7"),
        ):
            given = f"create Item\ncreate Item\nput 1 Grid [1]\n{line}\n"
            status, out, said = command(["talk", FULL, "--program", PROGRAM], given)
            self.same(
                line,
                (status, out, said),
                (1, "<Item 1>\n<Item 2>\n", f"line 4: not expected: {more}\n"),
            )

    def test_commands(self):
        status, out, err = command(["talk", FULL, "--program", PROGRAM], COMMANDS)
        self.tell(
            "commands of the prompt",
            (status, out[: len(SAID)], err) == (0, SAID, ""),
            (status, out, err),
        )
        self.same(
            "more commands of the prompt",
            command(["talk", FULL, "--program", PROGRAM], MORE),
            (0, SAID_MORE, ""),
        )
        with tempfile.NamedTemporaryFile("w") as file:
            file.write('create Item\nput 1 Count "x"\nget 1 Count\n')
            file.flush()
            self.same(
                "a file of commands that fails",
                command(["talk", FULL, "--program", PROGRAM, "--batch", file.name], ""),
                (
                    1,
                    "<Item 1>\n",
                    (
                        "line 2: put Item.Count = 'x': DISP_E_TYPEMISMATCH (0x80020005), argument "
                        "0 (the new value)\n"
                    ),
                ),
            )

    def test_a_prompt_over_a_store(self):
        with tempfile.TemporaryDirectory() as room:
            oaut.make_store(f"{room}/it.store", FULL, program=PROGRAM)
            over = ["--store", f"{room}/it.store", "--program", PROGRAM]
            for library, given, said in (
                ([FULL], "create Item\nput 1 Count 7\n", "<Item 1>\n"),
                ([FULL], "list\nget 1 Count\n", "<Item 1>\nI4(7)\n"),
                ([], "list\nget 1 Count\n", "<Item 1>\nI4(7)\n"),
            ):
                self.same(
                    f"a prompt over a store, library {library}",
                    command(["talk", *library, *over], given),
                    (0, said, ""),
                )
        status, out, err = command(["talk", "--program", PROGRAM], "")
        self.tell(
            "a prompt over nothing",
            (status, out) == (2, "")
            and err.endswith("talk takes LIB, --store STORE or --connect ADDRESS\n"),
            (status, out, err),
        )

    def test_commands_that_are_none(self):
        for line in (
            "nothing",
            "get 5 Count",
            "get 1 none",
            "put 1 Count",
            "put 1 Count )",
            "get 1 Cell[",
            "create None",
            "get x",
            "get 1",
        ):
            status, out, err = command(
                ["talk", FULL, "--program", PROGRAM], f"create Item\n{line}\n"
            )
            self.tell(
                f"a command that is none: {line}",
                (status, out) == (1, "<Item 1>\n")
                and err.startswith("line 2: ")
                and "Traceback" not in err,
                (status, out, err),
            )

    def test_arguments_keep_their_digits(self):
        """A number in brackets is the one that was typed, as one behind them is: with all of its
        digits, and its zeros."""
        said, keyed = [], "    methods:\n      [id(2), propget] BSTR At([in] VARIANT Key);\n"
        keyed += (
            "      [id(2), propput] void At([in] VARIANT Key, [in] BSTR Value);\n  };\n\n  [uuid"
        )
        with open(f"{ROOT}/examples/small.idl") as file, text_file(
            file.read().replace("  };\n\n  [uuid", keyed).encode()
        ) as library, play(library) as server:
            item, prompt = server.create("Item"), Talk(server, said.append)
            prompt.onecmd('put 1 At[0.1234567890123456789] "long"')
            prompt.onecmd('put 1 At(Key=2.50) "zero"')
            item.At[Decimal("2.5")] = "none"
            keys = [Decimal(it) for it in ("0.1234567890123456789", "2.50", "2.5")]
            self.same("what is put", [item.At[it] for it in keys], ["long", "zero", "none"])
            prompt.onecmd("get 1 At(2.50)")
            self.same("what is got", said, ["'zero'"])
        self.same(
            "blanks in front",
            (value_of("  12.75"), value_of("\t 2.50 ")),
            (Decimal("12.75"), Decimal("2.50")),
        )

    def test_a_prompt_on_a_terminal(self):
        status, said = typed_at_a_prompt(
            "cre\t it\t\n", "put 1 Cou\t 7\n", "get 1 cOUN\t\n", "nothing\n", UP + UP + "\n", END
        )
        self.tell(
            "a prompt on a terminal completes names, has a history, and goes on behind a fault",
            status == 0
            and said.count("I4(7)") == 2
            and "no command nothing" in said
            and "<Item 1>" in said,
            (status, said),
        )

    def test_records_in_words(self):
        status, out, err = command(
            ["talk", FULL, "--program", PROGRAM, "-v"], "create Item\nget 1 Count\n"
        )
        trace = [line for line in out.splitlines() if line[:2] in ("> ", "< ")]
        self.tell("the bytes of a prompt", [len(it) for it in trace] == [50, 50, 130, 98], out)
        self.same("records in words", command(["decode"], FIRST + REPLIES), (0, DECODED, ""))
        self.same(
            "replies alone",
            command(["decode"], REPLIES),
            (0, DECODED[DECODED.index("reply 1") :], ""),
        )
        self.same(
            "what a prompt has printed", command(["decode"], "\n".join(trace)), (0, TRACED, "")
        )
        raw = oaut.Raw.pack([bytes.fromhex(line) for line in (FIRST + REPLIES).splitlines()])
        done = subprocess.run(
            [sys.executable, "-m", "oaut", "decode", "--framing", "raw"],
            input=raw,
            capture_output=True,
            timeout=300,
            env=ENVIRONMENT,
        )
        self.same(
            "records of the raw stream in words",
            (done.returncode, done.stdout.decode(), done.stderr),
            (0, DECODED, b""),
        )
        self.same(
            "bytes that are no record",
            command(["decode"], "00\nxx\n" + FIRST.splitlines()[1][:-2])[0],
            0,
        )
        for name, _, sent, reply, _ in ASKED:
            told = list(oaut.decode([b"\1\0\0\0" + hexed(sent), b"\1\0\0\0" + reply]))
            self.tell(
                f"{name} in words",
                len(told) == 2 and not any("no record" in it for it in told),
                told,
            )
        self.same(
            "an element in words",
            list(oaut.decode([b"\1\0\0\0" + hexed(ASKED[11][2])])),
            ["request 1: PUTELEM object 1 dispid 8, element [-1, 5] = I4(40000)"],
        )


class Examples(ClientCases):
    def test_counters(self):
        with tempfile.NamedTemporaryFile("w") as file:
            file.write("two\nlines\n  eth0: 5 0 0 0 0 0 0 0 7 0 0 0 0 0 0 0\n")
            file.flush()
            example = [
                sys.executable,
                f"{ROOT}/examples/counters.py",
                "--program",
                PROGRAM,
                "--rounds",
                "1",
                file.name,
            ]
            done = subprocess.run(
                example, env=ENVIRONMENT, capture_output=True, text=True, timeout=300
            )
            self.same(
                "the example",
                (done.returncode, done.stdout, done.stderr),
                (0, "eth0 received: 5\neth0 sent: 7\n", ""),
            )
        with tempfile.TemporaryDirectory() as room:
            # the second time the machine counts on, the third time it has started anew
            for received, sent, totals in ((5, 7, (5, 7)), (9, 8, (9, 8)), (2, 1, (11, 9))):
                with open(f"{room}/counters", "w") as file:
                    file.write(
                        f"two\nlines\n  eth0: {received} 0 0 0 0 0 0 0 {sent} 0 0 0 0 0 0 0\n"
                    )
                example = [
                    sys.executable,
                    f"{ROOT}/examples/counters.py",
                    "--program",
                    PROGRAM,
                    "--store",
                    f"{room}/it.store",
                    "--rounds",
                    "1",
                    f"{room}/counters",
                ]
                done = subprocess.run(
                    example, env=ENVIRONMENT, capture_output=True, text=True, timeout=300
                )
                self.same(
                    f"the example over a store, {received} and {sent} counted",
                    (done.returncode, done.stdout, done.stderr),
                    (0, "eth0 received: %d\neth0 sent: %d\n" % totals, ""),
                )
