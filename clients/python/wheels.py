"""Builds the package's wheel and its source archive for pip (PEP 517), with the standard library
alone. Their metadata comes from pyproject.toml and from oaut/__version__.

    python3 wheels.py PROGRAM FOLDER    a wheel for this machine, with the built program in it

As a backend it takes the same by `pip wheel --config-settings program=PROGRAM`.
"""
import base64
import hashlib
import io
import os
import re
import sys
import tarfile
import zipfile

HERE = os.path.dirname(os.path.abspath(__file__))
KINDS = (".py", "/py.typed", ".html", ".css", ".js")
# of each archive the moment of its files, so that two builds are the same bytes
MOMENT = (1980, 1, 1, 0, 0, 0)


def _read(name):
    with open(f"{HERE}/{name}", encoding="utf-8") as file:
        return file.read()


def _list(name, head, joined=None):
    """The lines of METADATA with the items of a list of pyproject.toml."""
    found = re.search(rf"^{name} = \[(.*?)\]$", _read("pyproject.toml"), re.MULTILINE | re.DOTALL)
    values = re.findall(r'"(.*?)"', found[1])
    values = values if joined is None else [joined.join(values)]
    return "".join(f"{head}: {it}\n" for it in values)


def _word(name):
    value = rf'^{name} = (?:{{ text = )?"(.*)"(?: }})?$'
    return re.search(value, _read("pyproject.toml"), re.MULTILINE)[1]


VERSION = re.search(r'^__version__ = "(.*)"$', _read("oaut/__init__.py"), re.MULTILINE)[1]
STEM = f"{_word('name')}-{VERSION}"
METADATA = f"""Metadata-Version: 2.1
Name: {_word("name")}
Version: {VERSION}
Summary: {_word("description")}
License: {_word("license")}
Requires-Python: {_word("requires-python")}
{_list("classifiers", "Classifier")}{_list("keywords", "Keywords", ",")}Provides-Extra: view
Requires-Dist: aiohttp (>=3.8) ; extra == 'view'
Description-Content-Type: text/markdown

{_read("README.md")}"""
WITH_PROGRAM = """
The program `oaut` is in this wheel: nothing else has to be installed.
"""
# what an installer makes commands of, and where pytest finds the plugin
ENTRY_POINTS = """[console_scripts]
oaut-tools = oaut.__main__:run_as_command

[pytest11]
oaut = oaut.pytest
"""
WHEEL = "Wheel-Version: 1.0\nGenerator: wheels\nRoot-Is-Purelib: {pure}\nTag: {tag}\n"
PURE = "py3-none-any"


def _modules():
    """The package's files, by their names from here."""
    found = (f"{at}/{it}" for at, _, names in os.walk(f"{HERE}/oaut") for it in names)
    return sorted(it[len(HERE) + 1 :] for it in found if it.endswith(KINDS))


def _tag(program):
    """The platform of a program: this machine's, with the newest C library that it names."""
    if sys.platform != "linux":
        raise SystemExit("a wheel with the program is built on Linux")
    named = [int(it) for it in re.findall(rb"GLIBC_2\.(\d+)", program)]
    machine = os.uname().machine
    return f"py3-none-manylinux_2_{max(named)}_{machine}" if named else f"py3-none-linux_{machine}"


def _archive(folder, files, program=None):
    """A wheel of these files by name, and its list of them. The program is one of the scripts,
    so that pip puts it beside Python's own commands."""
    tag = PURE if program is None else _tag(program)
    name, record = f"{STEM}-{tag}.whl", f"{STEM}.dist-info/RECORD"
    wheel = WHEEL.format(pure="true" if program is None else "false", tag=tag)
    files = {path: text.encode() for path, text in files.items()}
    metadata = METADATA if program is None else METADATA + WITH_PROGRAM
    files[f"{STEM}.dist-info/METADATA"] = metadata.encode()
    files[f"{STEM}.dist-info/WHEEL"] = wheel.encode()
    files[f"{STEM}.dist-info/entry_points.txt"] = ENTRY_POINTS.encode()
    if program is not None:
        files[f"{STEM}.data/scripts/oaut"] = program
    told = []
    with zipfile.ZipFile(os.path.join(folder, name), "w", zipfile.ZIP_DEFLATED) as archive:

        def add(path, content):
            entry = zipfile.ZipInfo(path, MOMENT)
            mode = 0o755 if path.endswith("/scripts/oaut") else 0o644
            entry.external_attr = (0o100000 | mode) << 16
            entry.create_system = 3
            archive.writestr(entry, content, zipfile.ZIP_DEFLATED, 9)

        for path, content in files.items():
            digest = base64.urlsafe_b64encode(hashlib.sha256(content).digest()).rstrip(b"=")
            told.append(f"{path},sha256={digest.decode()},{len(content)}\n")
            add(path, content)
        add(record, ("".join(told) + f"{record},,\n").encode())
    return name


def build_wheel(wheel_directory, config_settings=None, metadata_directory=None):
    path, program = (config_settings or {}).get("program"), None
    if path is not None:
        with open(path, "rb") as file:
            program = file.read()
    return _archive(wheel_directory, {it: _read(it) for it in _modules()}, program)


def build_editable(wheel_directory, config_settings=None, metadata_directory=None):
    return _archive(wheel_directory, {f"{STEM}.pth": f"{HERE}\n"})


def build_sdist(sdist_directory, config_settings=None):
    name = f"{STEM}.tar.gz"
    with tarfile.open(os.path.join(sdist_directory, name), "w:gz") as archive:
        for path in (*_modules(), "pyproject.toml", "wheels.py", "README.md"):
            archive.add(f"{HERE}/{path}", f"{STEM}/{path}")
        content = METADATA.encode()
        entry = tarfile.TarInfo(f"{STEM}/PKG-INFO")
        entry.size = len(content)
        archive.addfile(entry, io.BytesIO(content))
    return name


if __name__ == "__main__":
    if len(sys.argv) != 3:
        raise SystemExit(__doc__)
    print(build_wheel(sys.argv[2], {"program": sys.argv[1]}))
