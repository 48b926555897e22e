#!/bin/sh
# Builds oautcom.dll, oautreg.exe and tlb2idl.exe:
#
#     clients/com/build.sh FOLDER [32]
#
# into FOLDER, for hosts of 64 bits, or of 32 (CFLAGS: -O2 by default; VERSION, which Windows shows of the files: 0.0.0 by default). Two builds of the same sources have the same bytes: no time is put in,
# and the address that the DLL asks for does not come from FOLDER's name. Debian: gcc-mingw-w64-x86-64-win32, for 32 bits gcc-mingw-w64-i686-win32.
# OBJECTS, where it is set, is a folder of objects that take the place of the DLL's sources; the DLL alone is built then.
set -eu
here=$(dirname "$0")
out=$1
case ${2:-64} in
32) machine=i686-w64-mingw32 stdcall=-Wl,--enable-stdcall-fixup ;;
*) machine=x86_64-w64-mingw32 stdcall= ;;
esac
cc=$machine-gcc
set --
for it in values wire connection library calls refusals information objects watch keys hub classes messages registration; do
    source=${OBJECTS:+$OBJECTS/oautcom.dll-$it.o}
    [ -f "$source" ] || source=$here/$it.c
    set -- "$@" "$source"
done
flags="-std=gnu11 ${CFLAGS:--O2} -Wall -Wextra -Wconversion -Werror -D_WIN32_WINNT=0x0601 -DUNICODE -DCOBJMACROS -DCONST_VTABLE"
# the system's headers take most of each compilation: they are read once
once=$(mktemp -d)
trap 'rm -rf "$once"' EXIT
version=${VERSION:-0.0.0}
resource() { # FILE KIND ABOUT: what Windows shows of a file, as an object
    printf '#define FILE_NAME "%s"\n#define FILE_KIND %s\n#define FILE_ABOUT "%s"\n' "$1" "$2" "$3" > "$once/$1.rc"
    printf '#define VERSION_TEXT "%s"\n#define VERSION_NUMBERS %s,0\n' "$version" "$(echo "${version%%-*}" | tr . ,)" >> "$once/$1.rc"
    cat "$here/version.rc" >> "$once/$1.rc"
    "$machine-windres" -I "$once" -o "$once/$1.o" "$once/$1.rc"
}
resource oautcom.dll VFT_DLL "oaut: objects of a store for scripts and Office"
printf '#include <%s>\n' winsock2.h ws2tcpip.h windows.h olectl.h > "$once/system.h"
# shellcheck disable=SC2086
${CC:-$cc} $flags -x c-header -o "$once/system.h.gch" "$once/system.h"
# shellcheck disable=SC2086
${CC:-$cc} $flags -include "$once/system.h" -static-libgcc -s -shared $stdcall -Wl,--no-insert-timestamp -Wl,--disable-auto-image-base \
    -o "$out/oautcom.dll" "$@" "$once/oautcom.dll.o" "$here/oautcom.def" \
    -lole32 -loleaut32 -luuid -lws2_32 -ladvapi32
[ -z "${OBJECTS:-}" ] || exit 0
resource tlb2idl.exe VFT_APP "oaut: a type library's text"
resource oautreg.exe VFT_APP "oaut: registers servers for scripts and Office"
"$machine-windres" -I "$here" -o "$once/window.o" "$here/window.rc"
flags="-std=gnu11 ${CFLAGS:--O2} -Wall -Wextra -Wconversion -Werror -D_WIN32_WINNT=0x0601 -DUNICODE -municode -static-libgcc -s -Wl,--no-insert-timestamp"
# shellcheck disable=SC2086
${CC:-$cc} $flags -o "$out/tlb2idl.exe" "$here/tlb2idl.c" "$once/tlb2idl.exe.o" -lole32 -loleaut32 -luuid
# shellcheck disable=SC2086
${CC:-$cc} $flags -o "$out/oautreg.exe" "$here/oautreg.c" "$here/window.c" "$once/oautreg.exe.o" "$once/window.o" -ladvapi32 -luser32
