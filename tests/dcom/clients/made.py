"""Makes an object and prints its IPID, and those of its ITypeInfo, its library's ITypeLib and its
ITypeComp."""
from tests.dcom.clients.lean import *

ref = create()
connection = Dce()
at = Reader(connection.call(IDISPATCH, 4, ref.ipid, Writer().raw(THIS).u32(0, 0).done()), 8)
at.u32()
info = orpc.read_objref(at.interface(9_999))
found, group = [ref.ipid, info.ipid], connection.group
connection = Dce(iid=codes.IID_ITYPEINFO, group=group)
for opnum in (18, 4):
    at = Reader(connection.call(codes.IID_ITYPEINFO, opnum, info.ipid, THIS), 8)
    at.u32()
    found.append(orpc.read_objref(at.interface(9_999)).ipid)
print(*[uuid.UUID(bytes_le=it) for it in found])
