#!/bin/sh
# Builds what the tests run: `tests/build.sh windows FOLDER` client.exe, hosts.exe, fields.exe and window.exe (64 bits), `tests/build.sh linux FOLDER`
# fields, numbers, fuzz, lists and dials with the address and undefined-behaviour sanitizers, `tests/build.sh libraries FOLDER` libraries, with them too.
set -eu
here=$(dirname "$0")
flags="-std=gnu11 -Wall -Wextra -Wconversion -Werror"
case $1 in
windows)
    # the system's headers take most of each compilation: they are read once
    once=$(mktemp -d)
    trap 'rm -rf "$once"' EXIT
    cc="${CC:-x86_64-w64-mingw32-gcc} $flags -O1 -D_WIN32_WINNT=0x0601 -DUNICODE"
    printf '#define COBJMACROS\n#include <windows.h>\n#include <oleauto.h>\n#include <ocidl.h>\n#include <psapi.h>\n' > "$once/system.h"
    $cc -x c-header -o "$once/system.h.gch" "$once/system.h"
    cc="$cc -include $once/system.h -s"
    $cc -o "$2/client.exe" "$here/client.c" "$here/../values.c" -lole32 -loleaut32 -luuid
    $cc -o "$2/hosts.exe" "$here/hosts.c" -lole32 -loleaut32 -luuid
    $cc -o "$2/fields.exe" "$here/fields.c" "$here/../wire.c" "$here/../values.c" -loleaut32 -luuid
    $cc -o "$2/window.exe" "$here/window.c"
    ;;
linux)
    cc=${CC:-gcc}
    flags="$flags -g -O1 -fshort-wchar -fsanitize=address,undefined -fno-sanitize-recover=all -I$here/linux"
    $cc $flags -o "$2/fields" "$here/fields.c" "$here/../wire.c" "$here/../values.c" "$here/linux/windows.c"
    $cc $flags -o "$2/numbers" "$here/numbers.c" "$here/../values.c" "$here/linux/windows.c"
    for it in fuzz lists dials; do
        $cc $flags -o "$2/$it" "$here/$it.c" "$here/../wire.c" "$here/../values.c" "$here/../connection.c" "$here/../library.c" "$here/../calls.c" "$here/linux/windows.c"
    done
    ;;
libraries)
    ${CC:-gcc} $flags -g -O1 -fshort-wchar -fsanitize=address,undefined -fno-sanitize-recover=all -DOWN_MEMORY -I"$here/linux" -o "$2/libraries" "$here/libraries.c"
    ;;
esac
