"""What the words of the tables of requests say."""
from tests.support import wire
from tests.support.codes import UNKNOWN_NAME
from tests.support.codes import WORDS as CODES
from tests.support.turns import HALF, NO_INDEX, i4


def guid_of(last):
    """The GUID of the libraries with this last byte, 0 for that of zeros."""
    return (
        bytes.fromhex("443322116655887799aabbccddeeff%02x" % int(last)) if int(last) else bytes(16)
    )


VALUES_OF = {
    "i": i4,
    "l": lambda number: wire.scalar(wire.I8, number),
    "u": lambda number: wire.changed(i4(number), 16, "I", 4),
    "d": lambda _: HALF,
    "x": lambda _: bytes(1),
}


def value_of(word):
    return VALUES_OF[word[0]](int(word[1:] or 0))


def answered_so(answer, fields_of):
    """The reply that a row of a table says: a refusal, or the fields that its words are."""
    word, _, index = answer.partition(" ")
    if word in CODES:
        return lambda tag: wire.reply(tag, CODES[word], int(index or NO_INDEX))
    return lambda tag: wire.reply(
        tag, UNKNOWN_NAME if "-1" in answer.split() else 0, fields=fields_of(answer)
    )
