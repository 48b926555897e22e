"""The command line of a benchmark: the program, and then numbers or folders."""
import argparse
import os

ROOT = os.path.dirname(os.path.dirname(os.path.abspath(__file__)))


def words(text, **more):
    """The program's path, and each further word that is given, else its default, whose type it has.
    `text` is what --help says. Paths are absolute, since a benchmark works in a folder of its
    own."""
    parser = argparse.ArgumentParser(
        description=text, formatter_class=argparse.RawDescriptionHelpFormatter
    )
    parser.add_argument(
        "program", metavar="PROGRAM", nargs="?", default=f"{ROOT}/crates/oaut/out/oaut"
    )
    for name, otherwise in more.items():
        parser.add_argument(
            name, metavar=name.upper(), nargs="?", type=type(otherwise), default=otherwise
        )
    given = parser.parse_args()
    paths = {"program", "folder"}
    return [
        os.path.abspath(value) if name in paths else value
        for name, value in ((name, getattr(given, name)) for name in ("program", *more))
    ]
