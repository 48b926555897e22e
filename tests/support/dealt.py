"""Sessions of one client whose requests are dealt to several clients of a shared session, in the
same order: all together they are told the same replies.

LOCK and UNLOCK stay with one client, since a lock is its client's own. Here and there a client has
begun its request before the one in front of it has come to its end, so that requests are done in
the order of their last bytes and not of their first ones. Some clients end by themselves, the
others with the input.
"""
import random
import re
import struct

from tests.support.sharing import BODY_LIMIT, oaut, told_of

COUNTS = (1, 2, 16)


def bodies_of(given, hexed):
    """The requests of a session that has nothing else; None of any other one."""
    if hexed:
        lines = given.split(b"\n")
        if lines and not lines[-1]:
            lines.pop()
        lines = [it[:-1] if it.endswith(b"\r") else it for it in lines]
        well = all(
            re.fullmatch(rb"([0-9a-fA-F]{2})+", it) and len(it) <= 2 * BODY_LIMIT for it in lines
        )
        return [bytes.fromhex(it.decode()) for it in lines] if well else None
    bodies, at = [], 0
    while at < len(given):
        size = struct.unpack_from("<I", given, at)[0] if len(given) - at >= 4 else 0
        if not 0 < size <= BODY_LIMIT or at + 4 + size > len(given):
            return None
        bodies.append(given[at + 4 : at + 4 + size])
        at += 4 + size
    return bodies


def records_of(bodies):
    return [struct.pack("<I", len(it)) + it for it in bodies]


def dealt(bodies, count, seed=0):
    """The frames of these requests, dealt to so many clients, and who asks each of them; and the
    clients in the order in which they end."""
    dice = random.Random(f"{seed} {count} {len(bodies)}")
    numbers = (
        dice.sample([*range(20), 2**31, 2**32 - 2], count)
        if count > 1
        else [dice.choice([0, 1, 7, 2**32 - 2])]
    )
    askers = [
        numbers[0 if it[4:6] in (b"\x08\0", b"\x09\0") else at % count]
        for at, it in enumerate(bodies)
    ]
    records, frames, begun = records_of(bodies), [], 0
    for at, (asker, record) in enumerate(zip(askers, records)):
        rest, begun = record[begun:], 0
        if at + 1 < len(records) and askers[at + 1] != asker and dice.random() < 0.3:
            begun = dice.randrange(1, len(records[at + 1]))
            cut = dice.randrange(len(rest))
            frames += [(asker, rest[:cut])] * (cut > 0) + [
                (askers[at + 1], records[at + 1][:begun])
            ]
            rest = rest[cut:]
        frames.append((asker, rest))
    there = sorted(set(askers))
    first = [it for it in dice.sample(there, len(there)) if dice.random() < 0.5]
    frames += [(it, b"") for it in first]
    return oaut.frames.join(frames), askers, first + [it for it in there if it not in first]


def replies_of(out, hexed):
    """The replies of a session's output, each behind its length."""
    bodies = [bytes.fromhex(it.decode()) for it in out.split()] if hexed else bodies_of(out, False)
    return records_of(bodies)


def sessions(given, out, hexed, seed=0):
    """Of a session of one client: shared sessions that are to be told the same, each with its name,
    its frames, and what is told. Of lines that end in another way there are none, of such records
    that of one client."""
    replies, bodies = replies_of(out, hexed), bodies_of(given, hexed)
    if bodies is None or len(bodies) != len(replies):
        if not hexed:
            yield "one client", oaut.frames.join([(7, given)] if given else []), [
                (7, it) for it in replies
            ] + [(7, b"")] * bool(given)
        return
    for count in COUNTS:
        frames, askers, ends = dealt(bodies, count, seed)
        yield f"{count} clients", frames, [*zip(askers, replies), *((it, b"") for it in ends)]


def differs(got, status, told):
    """What is wrong with a shared session's end; None where nothing is."""
    if (got[0], got[2]) != (status, b""):
        return f"wanted status {status}, got {got[0]}, {got[2][-300:]}"
    try:
        found = told_of(got[1])
    except ValueError as fault:
        return str(fault)
    place = next((at for at, (one, other) in enumerate(zip(told, found)) if one != other), None)
    if place is not None:
        return (
            f"what is told {place + 1}th: wanted {told[place][0]}, {told[place][1][:80].hex()}, "
            f"got {found[place][0]}, {found[place][1][:80].hex()}"
        )
    return None if len(found) == len(told) else f"wanted {len(told)}, got {len(found)}"
