"""A client that puts rising numbers over a URL, and connects again after each end: `python3
putting.py URL FILE`. It adds to FILE a line for each number that was acknowledged, and one that
begins with `lost` where what it reads after an end is less than that. It ends once FILE.stop is
there."""
import os
import sys

import oaut


def main():
    url, path = sys.argv[1:]
    kept, tried = 0, 0
    with open(path, "a", buffering=1) as file:
        while not os.path.exists(f"{path}.stop"):
            try:
                with oaut.connect(url, timeout=10, patience=120) as server:
                    found = server.objects()
                    item = found[0] if found else server.create("Item")
                    value = int(item.Count)
                    if not kept <= value <= tried:
                        print(f"lost {kept} {value} {tried}", file=file)
                    kept = tried = value
                    while not os.path.exists(f"{path}.stop"):
                        tried = kept + 1
                        item.Count = tried
                        kept = tried
                        print(kept, file=file)
            except (oaut.SessionEnded, OSError) as error:
                print(f"# {error!r}", file=file)


main()
