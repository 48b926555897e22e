"""Library texts that cases put together."""


def library_with(body, head=b"[uuid(11223344-5566-7788-99AA-BBCCDDEEFF01)] library Demo"):
    return head + b" {" + body + b"}"


def interface(last, name=b"DItem", body=b"[id(1)] long Count;"):
    return (
        b"[uuid(11223344-5566-7788-99AA-BBCCDDEEFF0"
        + last
        + b")] dispinterface "
        + name
        + b" { properties: "
        + body
        + b" }"
    )


def coclass(last, name=b"Item", body=b"dispinterface DItem;"):
    return (
        b"[uuid(11223344-5566-7788-99AA-BBCCDDEEFF0"
        + last
        + b")] coclass "
        + name
        + b" { "
        + body
        + b" }"
    )
