#!/bin/sh
# Builds oaut-gateway:
#
#     clients/gateway/build.sh FOLDER
#
# into FOLDER. CC, CFLAGS (-O2 where nothing is said), LDFLAGS and VERSION are taken from the environment. glibc 2.35 or later, and nothing else.
#
# It links liboa_gateway_c.a, the proved part of the gateway, which only Rattle's toolchain builds. In the tarball of a release it is beside this file.
set -eu
here=$(dirname "$0")
library=$here/liboa_gateway_c.a
[ -f "$library" ] || library=$here/../../crates/oa_gateway_c/out/liboa_gateway_c.a
if [ ! -f "$library" ]; then
    echo "no liboa_gateway_c.a: copy it beside $0 from the tarball of a release or from /usr/lib/oaut," >&2
    echo "or build it with Rattle's toolchain: python3 tools/gateway_library.py" >&2
    exit 1
fi
# shellcheck disable=SC2086
${CC:-cc} -std=gnu11 -D_GNU_SOURCE ${CFLAGS:--O2} -Wall -Wextra -Wconversion -Werror -DVERSION="\"${VERSION:-0}\"" ${LDFLAGS:-} -o "$1/oaut-gateway" \
    "$here"/*.c "$library"
