"""The hub of the COM bridge over a store with many objects. What is not installed leaves its tests
out, each by its name."""
import struct
import unittest

from tests.com.under_wine import ITEM, UnderWine, needs_wine, oaut
from tests.support.running import PROGRAM

# as docs/benchmarks.md has it
MANY = 65_503
# whose list has more bytes than 16 MiB
MORE = 700_001


@needs_wine
class Many(UnderWine):
    def tearDown(self):
        self.server.looks, self.server.listed = False, None
        self.bridge.new_store()
        self.bridge.set()

    def test_a_loop_over_many_objects_lists_them_seldom(self):
        """A time would say more of the machine than of the bridge: the requests are counted."""
        self.bridge.new_store()
        with oaut.serve(
            self.bridge.store, self.bridge.library, program=PROGRAM
        ) as session, session.batch():
            for _ in range(MANY):
                session.create("Item")
        self.bridge.set()
        self.server.looks, self.server.requests = True, []
        self.runs("many.vbs")
        listed = sum(it[4] == oaut.LIST for it in self.server.requests)
        self.tell(
            "of 600 calls and some at most one in six lists all objects", listed <= 100, listed
        )
        others = sum(it[4] not in (oaut.LIST, oaut.TYPEINFO) for it in self.server.requests)
        self.tell(
            "200 calls of hub.Object and some have one request more each, 200 of hub(i) and "
            "hub.Count have none",
            others <= 220,
            others,
        )

    def test_a_list_that_is_longer_than_any_other_reply(self):
        """The server's own: so many objects take long to make."""
        self.bridge.new_store()
        self.bridge.add_item()
        self.bridge.set()
        entries = (struct.pack("<II", number, 0) + ITEM.bytes_le for number in range(1, MORE + 1))
        self.server.looks, self.server.listed = True, struct.pack("<II", MORE, 0) + b"".join(
            entries
        )
        self.runs("larger.vbs", str(MORE))

    def test_what_another_client_makes_is_seen(self):
        """Each client here has a server of its own, so that nothing is kept of an earlier one."""
        self.bridge.new_store()
        self.bridge.set()
        for count in (1, 2):
            self.bridge.add_item()
            output = self.wine.run(*self.count_script())[1]
            self.tell(f"{count} objects", output == f"{count}\n", output)

    def count_script(self):
        with open(f"{self.bridge.room}/count.vbs", "w") as file:
            file.write('WScript.Echo CreateObject("Demo.Store").Count\n')
        return ["cscript", "//nologo", "count.vbs"]


if __name__ == "__main__":
    unittest.main()
