"""A lean DCOM client: RPC over TCP with its own side of NTLM, and stubs by hand. It is for what
other clients do not do: to hold one connection, to spoil bytes, to send much. Its arguments are in
the environment: DCOM_HOST, DCOM_RESOLVER, DCOM_PORT."""
import hashlib
import hmac
import os
import secrets
import socket
import struct
import time
import uuid

from Cryptodome.Cipher import ARC4
from Cryptodome.Hash import MD4

from oaut.wire import read_field, spell
from oaut_dcom import codes, orpc
from oaut_dcom import pdu as wire
from oaut_dcom import variants
from oaut_dcom.ndr import Reader, Writer, serialized
from tests import ROOT

HOST = os.environ.get("DCOM_HOST", "127.0.0.5")
RESOLVER, PORT = int(os.environ.get("DCOM_RESOLVER", "135")), int(
    os.environ.get("DCOM_PORT", "49200")
)
# of connections that name none; captures are read at 5
LEVEL = int(os.environ.get("DCOM_LEVEL", "6"))
USER, PASSWORD = "joe", "Secret-1"
TIMEOUT = 180  # seconds of each thing that is waited for
THIS = struct.pack("<HHII16sI", 5, 7, 0, 0, uuid.UUID(int=93).bytes_le, 0)
IDISPATCH = codes.IID_IDISPATCH
METHOD, GET, PUT = 1, 2, 4
CLSID = uuid.UUID("11223344-5566-7788-99AA-BBCCDDEEFF03").bytes_le
FACE = uuid.UUID("11223344-5566-7788-99AA-BBCCDDEEFF02").bytes_le
# the hub's class, as docs/guide/com.md has it of the first interface: the words 6F617574, 6875 and
# 6221 are its mask
HUB = struct.pack(
    "<IHH8s",
    *[a ^ b for a, b in zip(struct.unpack("<IHH", FACE[:8]), (0x6F617574, 0x6875, 0x6221))],
    FACE[8:],
)


def tell(name, well, what=""):
    """A case of the part that runs this."""
    what = " ".join(repr(what).split())
    print(f"ok\t{name}" if well else f"FAIL\t{name}\t{what[:500]}", flush=True)


class Fault(Exception):
    """A fault's status, or a refused bind."""


class Refusal(Exception):
    """An HRESULT: its code, the argument, the texts."""


# --- NTLM's client (MS-NLMP section 3.1)


def _mac(key, data):
    return hmac.new(key, data, hashlib.md5).digest()


class Ntlm:
    """The client's side of an exchange."""

    def __init__(
        self,
        user=USER,
        password=PASSWORD,
        domain="OAUT",
        flags=0xE20882B7,
        mic=True,
        upper=str.upper,
    ):
        self.user, self.domain, self.flags, self.mic, self.upper = user, domain, flags, mic, upper
        self.hash = MD4.new(password.encode("utf-16-le")).digest()
        self.negotiate = struct.pack(
            "<8sIIHHIHHI8s", b"NTLMSSP\0", 1, flags, 0, 0, 0, 0, 0, 0, bytes(8)
        )

    def authenticate(self, challenge, version=2):
        flags = struct.unpack_from("<I", challenge, 20)[0]
        nonce = challenge[24:32]
        size, _, at = struct.unpack_from("<HHI", challenge, 40)
        info = challenge[at : at + size]
        pairs = info[:-4] + (struct.pack("<HHI", 6, 4, 2) if self.mic else b"") + bytes(4)
        user, domain = self.user.encode("utf-16-le"), self.domain.encode("utf-16-le")
        key = _mac(self.hash, self.upper(self.user).encode("utf-16-le") + domain)
        temp = b"\1\1" + bytes(6) + bytes(8) + secrets.token_bytes(8) + bytes(4) + pairs + bytes(4)
        proof = _mac(key, nonce + temp)
        base = _mac(key, proof)
        self.key = secrets.token_bytes(16)
        wrapped = ARC4.new(base).encrypt(self.key)
        answer = proof + temp if version == 2 else secrets.token_bytes(24)
        parts, at, heads = [bytes(24), answer, domain, user, b"", wrapped], 88, b""
        for part in parts:
            heads += struct.pack("<HHI", len(part), len(part), at)
            at += len(part)
        token = (
            b"NTLMSSP\0"
            + struct.pack("<I", 3)
            + heads
            + struct.pack("<I", flags)
            + bytes(8)
            + bytes(16)
            + b"".join(parts)
        )
        if self.mic:
            token = token[:72] + _mac(self.key, self.negotiate + challenge + token) + token[88:]
        return token


class Half:
    """One direction of a session (MS-NLMP section 3.4)."""

    def __init__(self, key, who):
        magic = b"session key to " + who + b" %s key magic constant\0"
        self.sign = hashlib.md5(key + magic % b"signing").digest()
        self.cipher = ARC4.new(hashlib.md5(key + magic % b"sealing").digest()).encrypt
        self.count = 0

    def mac(self, message):
        count = struct.pack("<I", self.count)
        self.count += 1
        return b"\1\0\0\0" + self.cipher(_mac(self.sign, count + message)[:8]) + count


class Dce:
    """A connection that has bound one interface."""

    def __init__(
        self,
        host=HOST,
        port=PORT,
        iid=IDISPATCH,
        level=LEVEL,
        user=USER,
        password=PASSWORD,
        most=5840,
        group=0,
        source=None,
        **how,
    ):
        self.s = socket.create_connection((host, port), timeout=TIMEOUT, source_address=source)
        self.s.setsockopt(socket.IPPROTO_TCP, socket.TCP_NODELAY, 1)
        self.f = self.s.makefile("rb")
        self.level, self.call_id, self.most, self.iid = level, 1, most, iid
        self.kind, self.context = 10, 7
        context = (
            struct.pack("<HHIBxHHBx", most, most, group, 1, 0, 0, 1) + iid + bytes(4) + wire.NDR
        )
        if level < 2:
            self.s.sendall(self.whole(wire.BIND, context))
            self.bound(wire.read(self.pdu()))
            return
        ntlm = Ntlm(user, password, **how)
        self.s.sendall(self.whole(wire.BIND, context, ntlm.negotiate))
        back = self.bound(wire.read(self.pdu()))
        token = ntlm.authenticate(back.auth.token)
        self.key = ntlm.key
        self.out, self.inn = Half(ntlm.key, b"client-to-server"), Half(
            ntlm.key, b"server-to-client"
        )
        self.s.sendall(self.whole(wire.AUTH3, b"    ", token))

    def bound(self, back):
        if back.kind != wire.BIND_ACK:
            raise Fault("bind", back.kind, back.body[:2].hex())
        self.group = struct.unpack_from("<I", back.body, 4)[0]
        return back

    def whole(self, kind, body, token=b""):
        tail = (
            (
                bytes(-len(body) % 4)
                + wire.TRAILER.pack(self.kind, self.level, 0, 0, self.context)
                + token
            )
            if token
            else b""
        )
        return (
            wire.HEADER.pack(
                5, 0, kind, 3, 0x10, 16 + len(body) + len(tail), len(token), self.call_id
            )
            + body
            + tail
        )

    def pdu(self):
        head = self.f.read(16)
        if len(head) < 16:
            raise Fault("gone")
        return head + self.f.read(struct.unpack_from("<H", head, 8)[0] - 16)

    def packed(self, opnum, ipid, stub):
        """The PDUs of a request."""
        room = (self.most - 40 - 24) & ~15
        self.call_id += 1
        found = []
        for at in range(0, max(len(stub), 1), room):
            part = stub[at : at + room]
            flags = (
                (1 if at == 0 else 0) | (2 if at + room >= len(stub) else 0) | (0x80 if ipid else 0)
            )
            head = struct.pack("<IHH", len(stub), 0, opnum) + (ipid or b"")
            if self.level < 5:
                found.append(
                    wire.HEADER.pack(
                        5, 0, 0, flags, 0x10, 16 + len(head) + len(part), 0, self.call_id
                    )
                    + head
                    + part
                )
                continue
            pad = -len(part) % 16
            part += bytes(pad)
            trailer = wire.TRAILER.pack(self.kind, self.level, pad, 0, self.context)
            head = (
                wire.HEADER.pack(
                    5, 0, 0, flags, 0x10, 16 + len(head) + len(part) + 24, 16, self.call_id
                )
                + head
            )
            sealed = self.out.cipher(part) if self.level == 6 else part
            found.append(head + sealed + trailer + self.out.mac(head + part + trailer))
        return found

    def fragment(self):
        """The next fragment of a reply: its call, its flags, its part of the stub."""
        raw = self.pdu()
        got = wire.read(raw)
        if got.kind == wire.FAULT:
            raise Fault("fault", struct.unpack_from("<I", got.body, 8)[0])
        if got.auth is None:
            return got.call, got.flags, raw[24:]
        end = len(raw) - 24
        plain = self.inn.cipher(raw[24:end]) if self.level == 6 else raw[24:end]
        assert self.inn.mac(raw[:24] + plain + raw[end:-16]) == raw[-16:]
        return got.call, got.flags, plain[: len(plain) - got.auth.pad]

    def receive(self):
        out = b""
        while True:
            _, flags, part = self.fragment()
            out += part
            if flags & 2:
                return out

    def call(self, iid, opnum, ipid, stub):
        self.s.sendall(b"".join(self.packed(opnum, ipid, stub)))
        return self.receive()

    def close(self):
        self.s.shutdown(2)
        self.f.close()
        self.s.close()


# --- stubs


def field(value):
    """The bytes of a value: bytes as they are, None as EMPTY."""
    return (
        bytes(value)
        if isinstance(value, (bytes, bytearray))
        else variants.EMPTY
        if value is None
        else spell(value)
    )


def double(number):
    return struct.pack("<IIHHHHI4xd", 4, 0, 5, 0, 0, 0, 5, number)


def invoke(dispid, flags, args=(), named=(), refs=(), locale=0):
    out = Writer().raw(THIS).u32(dispid).guid(bytes(16)).u32(locale, flags)
    out.u32(orpc.SET if args else 0, orpc.SET if named else 0, len(args), len(named))
    if args:
        variants.put_fields(out, [field(it) for it in args])
    if named:
        out.u32(len(named), *named)
    out.u32(len(refs), len(refs), *[place for place, _ in refs])
    variants.put_fields(out, [it for _, it in refs])
    return out.done()


class Answer:
    """The reply to an Invoke."""

    def __init__(self, stub):
        at = Reader(stub, 8)
        assert at.u32()
        at.align(8)
        start = at.at
        variants.walk(at)
        self.field = stub[start : at.at]
        at.align(4)
        at.u16(), at.u16()
        there = [at.u32() for _ in range(3)]
        at.u32(), at.u32(), at.u32()
        self.scode = at.u32()
        self.texts = []
        for it in there:
            if it:
                units, size, _ = at.u32(), at.u32(), at.u32()
                text = at.take(2 * units)[:size].decode("utf-16-le")
                self.texts += [text] if units else []
        self.argument = at.u32()
        self.refs = variants.fields(at, 32)
        self.code = at.u32()
        assert at.at == at.end, (at.at, at.end)

    @property
    def value(self):
        if variants.type_of(self.field) in (9, 13):
            return orpc.read_objref(variants.objref_of(self.field))
        return read_field(self.field)


class Proxy:
    """An object by its IPID, over `call(iid, opnum, ipid, stub)`."""

    def __init__(self, call, ipid, iid=IDISPATCH):
        self.call, self.ipid, self.iid = call, ipid, iid

    def invoke(self, dispid, flags, args=(), named=(), refs=()):
        return Answer(self.call(self.iid, 6, self.ipid, invoke(dispid, flags, args, named, refs)))

    def get(self, dispid, *args):
        got = self.invoke(dispid, GET, args[::-1])
        if got.code:
            raise Refusal(got.code, got.argument, got.texts)
        return got.value

    def put(self, dispid, value, *args):
        got = self.invoke(dispid, PUT, (value,) + args[::-1], (-3,))
        if got.code:
            raise Refusal(got.code, got.argument, got.texts)

    def ids(self, *names):
        out = Writer().raw(THIS).guid(bytes(16)).u32(len(names), *[orpc.SET] * len(names))
        for name in names:
            data = (name + "\0").encode("utf-16-le")
            out.u32(len(data) // 2, 0, len(data) // 2).raw(data)
        out.u32(len(names), 0)
        at = Reader(self.call(self.iid, 5, self.ipid, out.done()), 8)
        return [at.i32() for _ in range(at.count(4, 100))], at.u32()

    def of(self, ref):
        return Proxy(self.call, ref.ipid)


def activation(clsid, iids):
    """The stub of a RemoteCreateInstance."""
    out = Writer().raw(THIS).u32(0).u32(orpc.SET)
    instance = (
        Writer()
        .guid(clsid)
        .u32(0, 0, 0, len(iids), 0, orpc.SET, 0)
        .u16(5, 7)
        .u32(len(iids))
        .raw(b"".join(iids))
    )
    request = Writer().u32(0, orpc.SET, 2).u16(1).u32(orpc.SET, 1).u16(7)
    parts = [serialized(instance), serialized(request)]

    def head(size, total):
        made = Writer().u32(total, size, 0, 2, 2).guid(bytes(16)).u32(orpc.SET, orpc.SET, 0)
        return serialized(
            made.u32(2)
            .raw(codes.CLSID_INSTANTIATION + codes.CLSID_SCM_REQUEST)
            .u32(2, *map(len, parts))
        )

    size = len(head(0, 0))
    total = size + sum(map(len, parts))
    blob = struct.pack("<II", total, 0) + head(size, total) + b"".join(parts)
    return out.interface(
        orpc.custom(codes.IID_PROPERTIES_IN, codes.CLSID_PROPERTIES_IN, blob)
    ).done()


def activate(connection, clsid=CLSID, iid=IDISPATCH):
    """A new object, by a connection that has bound the activator."""
    answer = connection.call(codes.IID_ISCMACTIVATOR, 4, None, activation(clsid, [iid]))
    (code,) = struct.unpack_from("<I", answer, len(answer) - 4)
    if code:
        raise Refusal(code, 0, [])
    at = answer.index(b"MEOW" + struct.pack("<I", 1))
    return orpc.read_objref(answer[at:])


def create(clsid=CLSID, iid=IDISPATCH, **how):
    """A new object, by a connection of its own."""
    connection = Dce(port=RESOLVER, iid=codes.IID_ISCMACTIVATOR, **how)
    try:
        return activate(connection, clsid, iid)
    finally:
        connection.close()


def argument(ref):
    """A reference as an argument."""
    return variants.dispatch(orpc.objref(IDISPATCH, ref, bytes(4)))


def query(call, unknown, ipid, *iids):
    """RemQueryInterface: of each interface its HRESULT and its IPID."""
    stub = (
        Writer()
        .raw(THIS)
        .guid(ipid)
        .u32(5)
        .u16(len(iids))
        .u32(len(iids))
        .raw(b"".join(iids))
        .done()
    )
    at = Reader(call(codes.IID_IREMUNKNOWN, 3, unknown, stub), 8)
    at.u32(), at.u32()
    found = []
    for _ in iids:
        at.align(8)
        code = at.u32()
        at.align(8)
        at.u32(), at.u32(), at.u64(), at.u64()
        found.append((code, at.guid()))
    return found, at.u32()


def unknown_of(ipid):
    """The IPID of IRemUnknown: it has the kind 0 and the exporter of another one."""
    return struct.pack("<IHH", 0, 0xFFFE, 0) + ipid[8:]
