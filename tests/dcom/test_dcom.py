"""oaut-dcom, clients/dcom: what DCOM clients of other projects do with it, and what the lean client
of these tests does (docs/guide/dcom.md)."""
import contextlib
import glob
import os
import subprocess
import tempfile
import unittest

from tests.dcom.dcoms import (
    CLIENTS,
    REALM,
    SECONDS,
    Kdc,
    Scripted,
    Served,
    left_out,
    needs,
    needs_root,
    own_host,
)


class DcomCases(Scripted):
    """One server for the tests of a class."""

    words = ()

    @classmethod
    def setUpClass(cls):
        cls.served = Served(*cls.words)

    @classmethod
    def tearDownClass(cls):
        said = cls.served.said()
        cls.served.close()
        if "unexpected" in said or "Traceback" in said:
            raise AssertionError(f"oaut-dcom says: {said[-3000:]}")


@needs_root
@needs("Cryptodome", "impacket")
class Impacket(DcomCases):
    def test_impacket(self):
        with self.captured(self.served, least=500):
            self.script(
                "with_impacket",
                modules=("Cryptodome", "impacket"),
                env=self.served.settings(),
                least=200,
            )


@needs_root
@needs("Cryptodome", "impacket")
class ImpacketSealed(DcomCases):
    """A server of sealed calls alone: impacket seals what goes to objects only if the server's
    string bindings say so."""

    words = ("--privacy",)

    def test_its_classes(self):
        with self.captured(self.served, least=60) as capture:
            self.script(
                "with_impacket",
                "classes",
                "6",
                modules=("Cryptodome", "impacket"),
                env=self.served.settings(),
                least=30,
            )
            capture.end()
            if not capture.why_not:
                ports = 135, self.served.port
                seen = [
                    len(capture.told(ports, it, "frame.number"))
                    for it in ("dcom.oxid", "dispatch", "dispatch && dcerpc.auth_level == 6")
                ]
                self.tell(
                    "tshark opens the sealed calls", seen[0] > 2 and seen[1] == seen[2] > 20, seen
                )

    def test_stubs(self):
        self.script(
            "with_impacket",
            "stubs",
            "6",
            modules=("Cryptodome", "impacket"),
            env=self.served.settings(),
            least=50,
        )


@needs_root
@needs("Cryptodome", "samba")
class Samba(DcomCases):
    def test_ntlm(self):
        # tshark 4.0 loses its place in what Samba seals: with SPNEGO it does not open the
        # signatures, with bare NTLM Samba sends its last token again
        with self.captured(self.served, "!(dcerpc.auth_level == 6)", least=150):
            self.script(
                "with_samba",
                "ntlm",
                modules=("Cryptodome", "samba"),
                env=self.served.settings(),
                least=25,
            )
        self.script(
            "with_samba",
            "long",
            modules=("Cryptodome", "samba"),
            env=self.served.settings(),
            least=4,
        )


@needs_root
@needs("Cryptodome")
class Scripts(DcomCases):
    words = ("--script",)

    def test_values_and_refusals(self):
        self.script("scripts", env=self.served.settings(), least=20)

    def test_captured(self):
        """The same with calls that are signed alone."""
        with self.captured(self.served, least=40):
            self.script("scripts", env=self.served.settings(DCOM_LEVEL="5"), least=20)


@needs_root
@needs("Cryptodome")
class Lean(DcomCases):
    def test_locks_and_what_is_spoiled(self):
        # (what the client sends is spoiled on purpose)
        with self.captured(
            self.served, f"tcp.srcport == 135 || tcp.srcport == {self.served.port}", least=100
        ):
            self.script("locks", env=self.served.settings(DCOM_LEVEL="5"), least=40)
        guess, throttle = (
            "refused of user 'ann': an unknown user or a wrong password",
            "refused of user 'ann': too many wrong passwords",
        )
        said = self.served.says(guess, throttle)
        self.tell("a guess is logged", guess in said, said[-500:])
        self.tell("the throttle is logged", throttle in said, said[-500:])

    def test_calls_at_once(self):
        # tshark 4.0 does not open what comes after a frame of many sealed calls, so it reads those
        # that are signed alone
        with self.captured(self.served, "!(dcerpc.auth_level == 6)", least=100):
            self.script("at_once", env=self.served.settings(DCOM_LEVEL="5"), least=15)

    def test_hostile_peers(self):
        before = self.served.memory()
        # (what the client sends is no PDU on purpose; the server's replies are)
        with self.captured(
            self.served, f"tcp.srcport == 135 || tcp.srcport == {self.served.port}", least=100
        ):
            self.script("hostile", env=self.served.settings(DCOM_LEVEL="5"), least=60)
        after = self.served.memory()
        self.tell("its memory", after - before < 64 << 20, (before, after))


@needs_root
@needs("Cryptodome")
class Waits(Scripted):
    def test_waits_for_changes(self):
        with Served(watches=True) as served:
            with self.captured(served, least=50):
                self.script("waits", env=served.settings(DCOM_LEVEL="5"), least=20)
            said = served.said()
        self.tell(
            "it says nothing of a fault",
            "unexpected" not in said and "Traceback" not in said,
            said[-3000:],
        )

    def test_no_watch(self):
        with Served() as served:
            self.script("waits", "none", env=served.settings(), least=2)


@needs_root
@needs("Cryptodome", "samba", "gssapi")
@left_out("krb5kdc", "kdb5_util", "kadmin.local")
class Kerberos(Scripted):
    def test_kerberos(self):
        host = own_host()
        with contextlib.ExitStack() as stack:
            kdc = Kdc(host)
            stack.callback(kdc.close)
            os.chmod(kdc.keytab, 0o600)
            served = stack.enter_context(
                Served(
                    "--keytab",
                    kdc.keytab,
                    modules=("Cryptodome", "gssapi"),
                    users=f"joe@{REALM}:kerberos\n",
                    **kdc.variables,
                )
            )
            env = served.settings(**kdc.variables)
            with self.captured(served, keytab=kdc.keytab, least=100) as capture:
                self.script(
                    "with_samba",
                    "kerberos",
                    "store.oaut.test",
                    REALM,
                    modules=("Cryptodome", "samba"),
                    env=env,
                    least=11,
                )
                capture.end()
                if not capture.why_not:
                    seen = [
                        len(
                            capture.told(
                                (135, served.port),
                                f"dispatch && dcerpc.auth_level == {it}",
                                "frame.number",
                                keytab=kdc.keytab,
                            )
                        )
                        for it in (5, 6)
                    ]
                    self.tell(
                        "tshark reads signed calls and opens sealed ones", min(seen) >= 10, seen
                    )
            self.script(
                "with_samba",
                "long",
                "store.oaut.test",
                REALM,
                modules=("Cryptodome", "samba"),
                env=env,
                least=4,
            )
            principal = f"'ann@{REALM}': a principal that is not in the file of users"
            said = served.says(principal)
            self.tell(
                "a principal that is not in the file is logged", principal in said, said[-900:]
            )
            # NTLM is served beside it
            self.script("with_samba", "ntlm", modules=("Cryptodome", "samba"), env=env, least=25)


@needs_root
@needs("Cryptodome")
@left_out("wine", "ntlm_auth")
class Wine(Scripted):
    """Wine's IDispatch proxy. It aligns to 8 what Windows, as impacket shows, aligns to 4: the
    switch is for this test."""

    def compiled(self, compiler, bits, room):
        words = [
            compiler,
            "-O1",
            "-w",
            "-o",
            f"{room}/client.exe",
            f"{os.path.dirname(__file__)}/wine_client.c",
        ]
        done = subprocess.run(
            [*words, "-loleaut32", "-lole32", "-lrpcrt4", "-luuid"], capture_output=True, text=True
        )
        self.tell(f"{bits} bits: it is compiled", done.returncode == 0, done.stderr)

    def is_read_sealed(self, bits, served, capture):
        if not capture.why_not:
            fields = "dcerpc.pkt_type", "dcerpc.opnum", "_ws.expert.message"
            signed, sealed = (
                capture.told(
                    (served.port,),
                    f"dcerpc.auth_type == 10 && dcerpc.auth_level == {it} && dcerpc.pkt_type "
                    "< 3",
                    *fields,
                )
                for it in (5, 6)
            )
            self.tell(
                "tshark reads sealed calls as it reads the same ones that are signed",
                signed == sealed and len(sealed) > 60,
                (len(signed), len(sealed)),
            )

    def proxy(self, compiler, bits):
        from tests.com.under_wine import Wine as Folder

        with contextlib.ExitStack() as stack:
            room = stack.enter_context(tempfile.TemporaryDirectory())
            self.compiled(compiler, bits, room)
            wine = Folder(room)
            stack.callback(wine.close)
            served = stack.enter_context(Served(OAUT_DCOM_ALIGN_8="1"))
            kinds = (10, 6), (10, 5), (9, 6)
            made = [
                subprocess.run(
                    [served.python, "-m", f"{CLIENTS}.made"],
                    capture_output=True,
                    text=True,
                    env=served.settings(),
                    timeout=SECONDS,
                ).stdout.split()
                for _ in kinds
            ]
            # (by the switch the replies to Invoke have Wine's form, and what Wine seals is compared
            # with the same calls that it signs)
            shown = "!(dcerpc.auth_level == 6) && !(dcerpc.pkt_type == 2 && dcerpc.opnum == 6)"
            capture = stack.enter_context(self.captured(served, shown, least=50))
            for (kind, level), ipids in zip(kinds, made):
                status, said = wine.run(
                    f"{room}/client.exe",
                    served.host,
                    str(served.port),
                    str(kind),
                    str(level),
                    *ipids,
                )
                rows = [line.split("\t") for line in said.splitlines() if "\t" in line]
                for row in rows:
                    self.tell(
                        f"{bits} bits, service {kind}, level {level}: {row[1]}",
                        row[0] == "ok",
                        row[2:],
                    )
                self.tell(
                    f"{bits} bits, service {kind}, level {level}",
                    status == 0 and len(rows) >= 42,
                    (status, len(rows), said[-500:]),
                )
            capture.end()
            self.is_read_sealed(bits, served, capture)

    @left_out("x86_64-w64-mingw32-gcc")
    def test_proxy_of_64_bits(self):
        self.proxy("x86_64-w64-mingw32-gcc", 64)

    @left_out("i686-w64-mingw32-gcc")
    @unittest.skipUnless(glob.glob("/usr/lib/i386-linux-gnu/wine/*"), "wine32 is not there")
    def test_proxy_of_32_bits(self):
        self.proxy("i686-w64-mingw32-gcc", 32)


if __name__ == "__main__":
    unittest.main()
