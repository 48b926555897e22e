"""Sessions over forks: `python3 forked.py WAY PROGRAM LIBRARY ROUNDS` has children of this process
use what it began, and prints what they and it saw. WAY is os.fork, or a start method of
multiprocessing, or `preload`: workers of a server that has begun its session before it forks
them."""
import json
import multiprocessing
import os
import sys
import threading

import oaut


def used(server, item, parent):
    """What a child sees that uses a parent's session."""
    try:
        return f"read {item.Count!r}"
    except oaut.SessionInUse as error:
        if error.process != parent or f"process {parent}" not in str(error):
            return f"says {error}"
    server.close()
    return "SessionInUse, closed"


def forked(act):
    """What `act` gives in a forked child."""
    reader, writer = os.pipe()
    child = os.fork()
    if not child:
        try:
            os.write(writer, str(act()).encode())
        except BaseException as error:
            os.write(writer, f"raised {error!r}".encode())
        finally:
            os._exit(0)
    os.close(writer)
    with open(reader, "rb") as file:
        said = file.read().decode()
    os.waitpid(child, 0)
    return said


def own_session(program, library, number, queue):
    """What a child sees in a session of its own."""
    try:
        with oaut.play(library, program=program) as server:
            item = server.create("Item")
            item.Count = number
            queue.put(f"read {int(item.Count)}")
    except BaseException as error:
        queue.put(f"raised {error!r}")


def rounds_of_forks(program, library, rounds):
    """The parent goes on with its gets while its children try theirs: no value is another's."""
    server = oaut.play(library, program=program)
    items = [server.create("Item") for _ in range(2)]
    for number, item in enumerate(items, 1):
        item.Count = number
    wrong, seen, stop = [], set(), threading.Event()

    def read():
        while not stop.is_set():
            for number, item in enumerate(items, 1):
                found = item.Count
                if found != number:
                    wrong.append(f"the parent read {found!r} and not {number}")

    # half of them while a thread of the parent reads
    reading = threading.Thread(target=read)
    for turn in range(rounds):
        if turn == rounds // 2:
            reading.start()
        seen.add(forked(lambda: used(server, items[turn % 2], os.getppid())))
        if turn < rounds // 2 and items[0].Count != 1:
            wrong.append("the parent read another's reply")
    stop.set()
    reading.join()
    server.close()
    return wrong, sorted(seen)


def rounds_of_processes(way, program, library, rounds):
    """Each child begins a session, of the parent's it knows nothing but what it was forked with."""
    context, wrong, seen = multiprocessing.get_context(way), [], set()
    with oaut.play(library, program=program) as server:
        item = server.create("Item")
        item.Count = 1
        queue = context.Queue()
        for number in range(2, rounds + 2):
            child = context.Process(target=own_session, args=(program, library, number, queue))
            child.start()
            found = item.Count
            said = queue.get(timeout=300)
            child.join()
            if found != 1 or said != f"read {number}":
                wrong.append(f"the parent read {found!r}, the child {said}")
        if way != "fork":
            try:
                context.Process(target=used, args=(server, item, os.getpid())).start()
            except TypeError as error:
                seen.add(f"TypeError: {'belongs to its' in str(error)}")
    return wrong, sorted(seen)


def rounds_of_workers(program, library, rounds):
    """As gunicorn's preload: what was begun before the workers were forked is refused there, what a
    worker begins is its own."""
    server = oaut.play(library, program=program)
    item = server.create("Item")
    item.Count = 1

    def work():
        said = used(server, item, os.getppid())
        with oaut.play(library, program=program) as own:
            one = own.create("Item")
            one.Count = 5
            return f"{said}, read {int(one.Count)}"

    seen = {forked(work) for _ in range(rounds)}
    found = item.Count
    server.close()
    return [] if found == 1 else [f"the parent read {found!r}"], sorted(seen)


def main():
    way, program, library, rounds = sys.argv[1:]
    if way == "os.fork":
        wrong, seen = rounds_of_forks(program, library, int(rounds))
    elif way == "preload":
        wrong, seen = rounds_of_workers(program, library, int(rounds))
    else:
        wrong, seen = rounds_of_processes(way, program, library, int(rounds))
    print(json.dumps({"wrong": wrong, "seen": seen}))


if __name__ == "__main__":
    main()
