"""Samba's client as it is (python3-samba): its RPC, NTLM, SPNEGO and Kerberos. `with_samba.py ntlm`
or `with_samba.py kerberos NAME REALM`. `long NAME REALM` has long texts that are sealed: what reads
captures loses its place in those."""
import sys

from samba.credentials import DONT_USE_KERBEROS, MUST_USE_KERBEROS, Credentials
from samba.dcerpc import ClientConnection, mgmt
from samba.param import LoadParm

from tests.dcom.clients.lean import (
    CLSID,
    GET,
    HOST,
    IDISPATCH,
    PASSWORD,
    PORT,
    PUT,
    RESOLVER,
    USER,
    Proxy,
    activate,
    codes,
    tell,
    uuid,
)

lp = LoadParm()


def credentials(user=USER, password=PASSWORD, realm=None):
    made = Credentials()
    made.guess(lp)
    made.set_username(user)
    made.set_password(password)
    made.set_domain("OAUT")
    if realm:
        made.set_realm(realm)
    made.set_kerberos_state(MUST_USE_KERBEROS if realm else DONT_USE_KERBEROS)
    return made


def anonymous():
    made = Credentials()
    made.set_anonymous()
    return made


class Connection:
    """Samba's binding ends its process when it binds with credentials to an interface that it has
    no table of: so it binds to `mgmt`, and alters."""

    def __init__(self, options, iid, port, who):
        binding = f"ncacn_ip_tcp:{HOST}[{port},{options}]"
        self.first = mgmt.mgmt(binding, lp, who)
        self.second = ClientConnection(
            binding, (str(uuid.UUID(bytes_le=iid)), 0), basis_connection=self.first
        )

    def call(self, iid, opnum, ipid, stub):
        if ipid:
            return self.second.request(opnum, stub, object=str(uuid.UUID(bytes_le=ipid)))
        return self.second.request(opnum, stub)


def works(options, who, name="", length=300_000):
    try:
        ref = activate(Connection(name + options, codes.IID_ISCMACTIVATOR, RESOLVER, who), CLSID)
        item = Proxy(Connection(name + options, IDISPATCH, PORT, who).call, ref.ipid)
        item.put(1, 7)
        item.put(2, "x" * length)
        tell(f"{options}: values", item.get(1) == 7 and item.get(2) == "x" * length)
        tell(f"{options}: GetIDsOfNames", item.ids("Cell", "Key") == ([9, 1], 0))
        got = item.invoke(1, PUT, ("x",), (-3,))
        tell(
            f"{options}: a refused put", (got.code, got.argument) == (0x80020005, 0), hex(got.code)
        )
        got = item.invoke(99, GET)
        tell(f"{options}: no such member", got.code == 0x80020003, hex(got.code))
    except Exception as error:
        tell(f"{options}", False, f"{type(error).__name__}: {error}")


def is_refused(name, options, who):
    try:
        activate(Connection(options, codes.IID_ISCMACTIVATOR, RESOLVER, who), CLSID)
        tell(name, False, "it was let in")
    except Exception:
        tell(name, True)


def ntlm():
    found = mgmt.mgmt(f"ncacn_ip_tcp:{HOST}[{RESOLVER}]", lp, anonymous()).inq_if_ids()
    tell("management without a user", found.count == 4, found.count)
    for options in ("sign", "seal", "spnego,sign", "spnego,seal"):
        works(options, credentials(), length=1_000 if options.endswith("seal") else 300_000)
    for options in ("ntlm,sign", "ntlm,seal"):
        # with bare NTLM Samba sends its last token again in an alter_context, so its calls are
        # those of mgmt
        first = mgmt.mgmt(f"ncacn_ip_tcp:{HOST}[{RESOLVER},{options}]", lp, credentials())
        tell(options, all(first.inq_if_ids().count == 4 for _ in range(20)))
    for name, who in (
        ("a wrong password", credentials(password="no")),
        ("an unknown user", credentials("jim")),
    ):
        for options in ("seal", "spnego,seal"):
            is_refused(f"{options}: {name}", options, who)
    for options in ("connect", "packet"):
        is_refused(f"level {options}", options, credentials())
    for options in ("", "seal"):
        is_refused(f"anonymous, {options or 'plain'}", options, anonymous())


def kerberos(name, realm):
    lp.set("realm", realm)
    lp.set("workgroup", "OAUT")
    for options in ("sign", "seal", "krb5,sign", "krb5,seal"):
        target = f"target_hostname={name},"
        if options.startswith("krb5"):
            first = mgmt.mgmt(
                f"ncacn_ip_tcp:{HOST}[{RESOLVER},{target}{options}]", lp, credentials(realm=realm)
            )
            tell(options, all(first.inq_if_ids().count == 4 for _ in range(9)))
        else:
            works(
                options,
                credentials(realm=realm),
                target,
                1_000 if options.endswith("seal") else 300_000,
            )
    is_refused(
        "a principal that is not in the file",
        f"target_hostname={name},seal",
        credentials("ann", "Secret-2", realm),
    )


if __name__ == "__main__":
    if sys.argv[1] == "ntlm":
        ntlm()
    elif sys.argv[1] == "long":
        realm = sys.argv[3] if len(sys.argv) > 3 else None
        works("seal", credentials(realm=realm), f"target_hostname={sys.argv[2]}," if realm else "")
    else:
        kerberos(*sys.argv[2:])
