#!/usr/bin/env python3
"""Builds the proved library that the gateway links, crates/oa_gateway_c/out/liboa_gateway_c.a.
Needs Rattle's toolchain.

    python3 tools/gateway_library.py

The crates below are used as `rt ci` has proved them, if that is newer than their sources. A crate
that is lacking is proved first, which takes minutes. (`rt lib` in crates/oa_gateway_c makes the
same library, and proves all of them again.)
"""
import os
import sys

ROOT = os.path.dirname(os.path.dirname(os.path.abspath(__file__)))
sys.path.append(f"{ROOT}/tools/wrong_bodies")
import kit

NAME = "oa_gateway_c"


def main():
    if len(sys.argv) > 1:
        raise SystemExit(__doc__)
    os.chdir(f"{ROOT}/crates/{NAME}")
    crate = kit.load_rtlib().Crate(os.getcwd(), ROOT, {})
    lacking = kit.build_below([crate], is_proved=True)
    if lacking:
        raise SystemExit(f"{lacking} is not proved")
    os.makedirs("out", exist_ok=True)
    status = crate.build_static(["--jobs", str(len(os.sched_getaffinity(0)))])
    if not status:
        print(f"crates/{NAME}/out/lib{NAME}.a")
    return int(status != 0)


if __name__ == "__main__":
    sys.exit(main())
