#!/usr/bin/env python3
"""Times the built program on 200,000 request lines, beside `wc -l` on the same file, and on texts,
beside `cat`.

    python3 bench/requests.py [PROGRAM [LINES]]      Default of PROGRAM: crates/oaut/out/oaut

The first thousand lines are creates, the others puts and gets of a long property in turn. Prints
requests a second, the peak resident memory of the program, and the same for a file four times as
long, which needs no more memory. Then puts and gets of texts of 1 KiB and of 1 MiB in turn, of an
array of 65,536 I4 and of one of 4,096 texts. Prints megabytes of hexadecimal digits read and
written a second, beside `cat` from and to files of the same length. Then an array of 65,536 cells
kept in each of many objects, for cells of one, four and eight bytes on the wire. Prints the memory
of a cell: the peak above that of the same session with arrays of one cell, divided by the cells.
Then puts and gets through the first and the last of the 256 interfaces of a coclass: the last takes
at most 1.5 times as long as the first. Last, puts and gets of a property with three parameters,
over 1, 1,000 and 100,000 cells of one object, and of a property of 1 and of 65,536 objects. Prints
the cost of a request besides those that made the cells or the objects. The most is at most 4 times
the least.
"""
import os
import subprocess
import sys
import tempfile
import time
import uuid

ROOT = os.path.dirname(os.path.dirname(os.path.abspath(__file__)))
sys.path.insert(0, ROOT)
from tests.support import wire
from tests.support.memory import peak_of
from command_line import words

PROGRAM, LINES = words(__doc__, lines=200_000)
OBJECTS = 1_000
# the DISPIDs of SAFEARRAY(unsigned char), SAFEARRAY(long), SAFEARRAY(hyper), SAFEARRAY(BSTR) and
# VARIANT in examples/arrays.idl
BYTES, LONGS, HYPERS, NAMES, ANY = 2, 5, 9, 13, 15
# objects that keep an array, and cells of each: as many as an image holds of cells of eight bytes
KEEPERS, KEPT = 25, 65_536
INTERFACES = 256
# cells of a property with three parameters, and objects
CELLS, MANY = (1, 1_000, 100_000), (1, 65_536)
# of examples/full.idl the DISPIDs of Count and of Cell
COUNT, CELL = 1, 9


CLASS = uuid.UUID("11223344-5566-7788-99AA-BBCCDDEEFF03")


def create(tag):
    return wire.line(tag, wire.oaut.ask_create(CLASS))


def write_requests(path, count):
    with open(path, "wb") as file:
        for tag in range(count):
            if tag < OBJECTS:
                line = create(tag)
            elif tag % 2:
                line = wire.put(tag, 1 + tag % OBJECTS, 1, wire.scalar(wire.I4, tag))
            else:
                line = wire.get(tag, 1 + tag % OBJECTS, 1)
            file.write(line)


def write_values(path, dispid, value, pairs):
    """Creates an object, and then puts and gets the value in turn."""
    with open(path, "wb") as file:
        file.write(create(0))
        for tag in range(1, pairs + 1):
            file.write(wire.put(tag, 1, dispid, value) + wire.get(tag, 1, dispid))


def write_kept(path, dispid, value):
    """Creates objects, and puts the value into each: all of them are kept to the end."""
    with open(path, "wb") as file:
        for tag in range(KEEPERS):
            file.write(create(tag))
        for number in range(1, KEEPERS + 1):
            file.write(wire.put(KEEPERS + number, number, dispid, value))


def interface_guid(number):
    return f"11223344-5566-7788-99aa-{number:012x}"


def many_interfaces(count):
    """A library whose coclass has so many interfaces, each with a long property."""
    items = "".join(
        f"[uuid({interface_guid(it)})] dispinterface D{it} {{ properties: [id(1)] long P; }}\n"
        for it in range(count)
    )
    entries = "".join(f"interface D{it};\n" for it in range(count))
    return (
        f"[uuid({interface_guid(count)})] library Many {{\n{items}[uuid({CLASS})] coclass C {{\n"
        f"{entries}}}\n}}\n"
    )


def write_through(path, number, count):
    """Creates an object, and then puts and gets the property of one of its interfaces in turn."""
    interface = uuid.UUID(interface_guid(number)).bytes_le
    with open(path, "wb") as file:
        file.write(create(0))
        for tag in range(1, count, 2):
            file.write(
                wire.put(tag, 1, 1, wire.scalar(wire.I4, tag), interface)
                + wire.get(tag + 1, 1, 1, interface)
            )


def put_cell(tag, number):
    """A put of the cell with this number of an object's property with the parameters long, BSTR and
    short."""
    key = wire.scalar(wire.BSTR, f"key {number % 1_000}".encode("utf-16-le"))
    arguments = [
        wire.scalar(wire.BSTR, b"x\0"),
        wire.scalar(wire.I2, 1),
        key,
        wire.scalar(wire.I4, number),
    ]
    return wire.invoke(tag, 1, CELL, 4, [-3], arguments)


def get_cell(tag, number):
    """A get of the same cell."""
    key = wire.scalar(wire.BSTR, f"key {number % 1_000}".encode("utf-16-le"))
    return wire.invoke(
        tag, 1, CELL, 2, [], [wire.scalar(wire.I2, 1), key, wire.scalar(wire.I4, number)]
    )


def put_count(tag, number):
    """A put of a property of the object with this number, from 0."""
    return wire.put(tag, number + 1, COUNT, wire.scalar(wire.I4, tag))


def get_count(tag, number):
    return wire.get(tag, number + 1, COUNT)


def write_spread(path, made, number, put, get, count):
    """Requests that make so many cells or objects, and then puts and gets of them in turn, spread
    over all."""
    with open(path, "wb") as file:
        file.writelines(made)
        for tag in range(count // 2):
            place = tag * 7_919 % number
            file.write(put(tag, place) + get(tag, place))


def beside_what_is_made(room, made, number, put, get):
    """The microseconds that a request takes, beside those that make what it is of: the least of
    three runs of each."""
    least = []
    for count in (0, LINES):
        write_spread(f"{room}/in", made, number, put, get, count)
        runs = [timed([PROGRAM, "play", "lib.idl", "--hex"], f"{room}/in", room) for _ in range(3)]
        if any(
            (status, replies) != (0, len(made) + count // 2 * 2) for _, _, replies, status in runs
        ):
            sys.exit(f"a run over {number} failed")
        least.append(min(seconds for seconds, _, _, _ in runs))
    return (least[1] - least[0]) / LINES * 1e6


def timed(words, given, cwd):
    """Runs a program on a file and returns its seconds, its peak resident memory in KiB, how many
    lines it wrote, and its status."""
    with open(given, "rb") as stdin, open(f"{cwd}/out", "wb") as stdout:
        started = time.perf_counter()
        child = subprocess.Popen(words, cwd=cwd, stdin=stdin, stdout=stdout)
        peak = 0
        while child.poll() is None:
            peak = max(peak, peak_of(child.pid))
            time.sleep(0.005)
        seconds = time.perf_counter() - started
    with open(f"{cwd}/out", "rb") as file:
        return seconds, peak, sum(1 for _ in file), child.returncode


with tempfile.TemporaryDirectory() as room:
    with open(f"{ROOT}/examples/small.idl", "rb") as file, open(f"{room}/lib.idl", "wb") as copy:
        copy.write(file.read())
    for count in (LINES, 4 * LINES):
        write_requests(f"{room}/in", count)
        seconds, peak, replies, status = timed(
            [PROGRAM, "play", "lib.idl", "--hex"], f"{room}/in", room
        )
        beside, _, _, _ = timed(["wc", "-l"], f"{room}/in", room)
        if (status, replies) != (0, count):
            sys.exit(f"{replies} replies to {count} requests, status {status}")
        print(
            f"{count} requests in {seconds:.3f} s: {count / seconds:,.0f} a second, peak {peak:,} "
            f"KiB; wc -l {beside:.3f} s"
        )
    with open(f"{ROOT}/examples/arrays.idl", "rb") as file, open(f"{room}/lib.idl", "wb") as copy:
        copy.write(file.read())
    os.mkdir(f"{room}/beside")
    names = [f"text {n}".encode("utf-16-le") for n in range(4_096)]
    for name, dispid, value in (
        ("texts of 1 KiB", ANY, wire.scalar(wire.BSTR, b"a\0" * 512)),
        ("texts of 1 MiB", ANY, wire.scalar(wire.BSTR, b"a\0" * (1 << 19))),
        ("arrays of 65,536 I4", LONGS, wire.array(wire.I4, [(65_536, 0)], range(65_536))),
        ("arrays of 4,096 texts", NAMES, wire.array(wire.BSTR, [(4_096, 0)], names)),
    ):
        pairs = (1 << 26) // len(value)
        write_values(f"{room}/in", dispid, value, pairs)
        seconds, peak, replies, status = timed(
            [PROGRAM, "play", "lib.idl", "--hex"], f"{room}/in", room
        )
        if (status, replies) != (0, 2 * pairs + 1):
            sys.exit(f"{replies} replies to {2 * pairs + 1} requests, status {status}")
        moved = (os.path.getsize(f"{room}/in") + os.path.getsize(f"{room}/out")) / 1e6
        both = sum(timed(["cat"], f"{room}/{it}", f"{room}/beside")[0] for it in ("in", "out"))
        print(
            f"{name}: {moved:,.0f} MB in {seconds:.3f} s: {moved / seconds:,.0f} MB/s, peak "
            f"{peak:,} KiB; cat {moved / both:,.0f} MB/s"
        )
    for name, dispid, cell in (
        ("UI1", BYTES, wire.UI1),
        ("I4", LONGS, wire.I4),
        ("I8", HYPERS, wire.I8),
    ):
        peaks = []
        for count in (1, KEPT):
            write_kept(f"{room}/in", dispid, wire.array(cell, [(count, 0)], [7] * count))
            seconds, peak, replies, status = timed(
                [PROGRAM, "play", "lib.idl", "--hex"], f"{room}/in", room
            )
            if (status, replies) != (0, 2 * KEEPERS):
                sys.exit(f"{replies} replies to {2 * KEEPERS} requests, status {status}")
            peaks.append(peak)
        taken = 1024 * (peaks[1] - peaks[0]) / (KEEPERS * KEPT)
        print(
            f"{KEEPERS} arrays of {KEPT:,} {name} kept: peak {peaks[1]:,} KiB, {taken:.1f} bytes a "
            "cell"
        )
    with open(f"{room}/lib.idl", "w", encoding="ascii") as file:
        file.write(many_interfaces(INTERFACES))
    least = {}
    for number in (0, INTERFACES - 1):
        write_through(f"{room}/in", number, LINES)
        runs = [timed([PROGRAM, "play", "lib.idl", "--hex"], f"{room}/in", room) for _ in range(5)]
        if any((status, replies) != (0, LINES // 2 * 2 + 1) for _, _, replies, status in runs):
            sys.exit(f"interface {number}: a run failed")
        least[number] = min(seconds for seconds, _, _, _ in runs)
        print(
            f"{LINES} requests through interface {number} of {INTERFACES}: {least[number]:.3f} s, "
            f"{least[number] / LINES * 1e6:.2f} us each"
        )
    if least[INTERFACES - 1] > 1.5 * least[0]:
        sys.exit("the last interface takes more than 1.5 times as long as the first")
    with open(f"{ROOT}/examples/full.idl", "rb") as file, open(f"{room}/lib.idl", "wb") as copy:
        copy.write(file.read())
    for name, numbers, put, get in (
        ("cells of a property with three parameters", CELLS, put_cell, get_cell),
        ("objects", MANY, put_count, get_count),
    ):
        took = []
        for number in numbers:
            made = (
                [create(0)] + [put_cell(0, it) for it in range(number)]
                if put is put_cell
                else [create(0)] * number
            )
            took.append(beside_what_is_made(room, made, number, put, get))
            print(f"{LINES} puts and gets over {number:,} {name}: {took[-1]:.2f} us each")
        if max(took) > 4 * min(took):
            sys.exit(
                f"over some number of {name} a request takes more than 4 times as long as over "
                "another"
            )
