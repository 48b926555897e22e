#!/bin/sh
# Makes the type library of a library's text, for object browsers and editors:
#
#     clients/com/typelib.sh OAUT LIB.idl Name.tlb
#
# regsvr32 uses it if it is beside oautcom.dll and has the registered name. Debian: mingw-w64-tools
# for widl, libwine for stdole2.tlb. The canonical text is taken, since widl wants both `properties:` and `methods:`.
set -eu
here=$(dirname "$0")
made=$(mktemp --suffix=.idl)
trap 'rm -f "$made"' EXIT
{
    cat "$here/prelude.idl"
    "$1" check "$2"
} > "$made"
"${WIDL:-x86_64-w64-mingw32-widl}" -t -L /usr/lib/x86_64-linux-gnu/wine/x86_64-windows -o "$3" "$made"
