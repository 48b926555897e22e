"""References over restarts and new libraries. `again.py make` makes an object and prints its IPIDs,
of IDispatch, DItem and the hub; `again.py same IPID..` uses them; `again.py gone IPID..` has them
refused; `again.py more IPID..` uses what a new library has."""
import sys

from tests.dcom.clients.lean import *

# a dispinterface that stands before all others
MORE = uuid.UUID("11223344-5566-7788-99AA-BBCCDDEEFF00").bytes_le
OTHER = uuid.UUID("11223344-5566-7788-99AA-BBCCDDEEFF09").bytes_le  # a coclass with it


def make():
    ref = create()
    face = create(iid=FACE).ipid
    Proxy(Dce().call, ref.ipid).put(1, 4711)
    Proxy(Dce(iid=FACE).call, face, FACE).put(1, 4712)
    print(ref.ipid.hex(), face.hex(), create(HUB).ipid.hex())


def same(item, face, hub):
    tell("the same reference", Proxy(Dce().call, item).get(1) == 4711)
    tell("that of an interface", Proxy(Dce(iid=FACE).call, face, FACE).get(1) == 4712)
    tell("that of the hub", Proxy(Dce().call, hub).get(2) >= 2)


def gone(*ipids):
    for it in ipids:
        try:
            Proxy(Dce().call, it).get(1)
            tell("a reference to another store", False)
        except Fault as fault:
            tell("a reference to another store", fault.args == ("fault", 0x80010108), fault)


def more(item, face, hub):
    same(item, face, hub)
    (found,), _ = query(Dce(iid=codes.IID_IREMUNKNOWN).call, unknown_of(item), item, MORE)
    tell(
        "an old object has a new interface",
        found[0] == 0 and Proxy(Dce(iid=MORE).call, found[1], MORE).get(1) == 0,
        found,
    )
    time.sleep(1.1)
    ref = create(OTHER)
    tell("a coclass of the new library", Proxy(Dce().call, ref.ipid).get(1) == 0)
    tell("a member of it, by an index", added(item))
    time.sleep(1.1)
    its = create(OTHER, MORE).ipid
    tell("an interface of it", Proxy(Dce(iid=MORE).call, its, MORE).get(1) == 0)
    tell(
        "the hub's collection of it",
        Proxy(Dce().call, Proxy(Dce().call, hub).get(10, "Other").ipid).get(2) == 2,
    )
    same(item, face, hub)


def added(ipid):
    item = Proxy(Dce().call, ipid)
    from oaut.wire import array_field

    item.put(11, array_field(3, [(3, 0)], [5, 6, 7]))
    return item.get(11, 1) == 6


if __name__ == "__main__":
    import time

    words = [bytes.fromhex(it) for it in sys.argv[2:]]
    {"make": make, "same": same, "gone": gone, "more": more}[sys.argv[1]](*words)
