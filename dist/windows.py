"""Makes the packages for Windows: a .zip, and an .msi by msitools' wixl, of the COM bridge for 64
and 32 bits. The .msi installs on a Windows of either, for one user, without administrator rights.
Uninstalling it unregisters everything that its tools have registered."""
import os
import shutil
import struct
import subprocess
import tempfile
import uuid
import zipfile
from time import gmtime
from xml.sax.saxutils import quoteattr

ROOT = os.path.dirname(os.path.dirname(os.path.abspath(__file__)))
PROGRAMS = ("oautcom.dll", "oautreg.exe", "tlb2idl.exe")
PAGES = {
    "START.txt": "dist/windows/START.txt",
    "com.md": "docs/guide/com.md",
    "import.md": "docs/guide/import.md",
}
EXAMPLES = ("sheet.idl", "sheet.vbs", "prices.vbs", "table.idl")
# the start pages that dist/sheets.py makes beside what is built
SHEETS = ("oaut.xlsx", "oaut.ods")
# on which systems the tool of which bits unregisters
CONDITIONS = {"64": "VersionNT64", "32": "NOT VersionNT64"}
# all versions of this product have it, so that a new one takes the place of an old one
UPGRADE = uuid.UUID("3f0c6f8a-92d1-4f55-8a8e-6f6175740001")


def files_of(built):
    """The files by their places in the folder that is installed, of what was built: a folder with
    64, 32 and start in it."""
    found = {
        f"{bits}/{it}": f"{built}/{bits}/{it}"
        for bits in ("64", "32")
        for it in PROGRAMS
        if os.path.exists(f"{built}/{bits}/{it}")
    }
    found.update({name: f"{ROOT}/{it}" for name, it in PAGES.items()})
    found.update({f"example/{it}": f"{ROOT}/clients/com/example/{it}" for it in EXAMPLES})
    found.update(
        {
            f"start/{it}": f"{built}/start/{it}"
            for it in SHEETS
            if os.path.exists(f"{built}/start/{it}")
        }
    )
    # the licence that the owner decides on, if any
    found.update(
        {
            f"{it}.txt": f"{ROOT}/{it}"
            for it in ("LICENSE", "LICENCE", "COPYING")
            if os.path.exists(f"{ROOT}/{it}")
        }
    )
    return found


def content_of(name, source):
    """The bytes that are installed of a file. A page has Windows' ends of lines: without them older
    editors show one long line."""
    with open(source, "rb") as file:
        content = file.read()
    return content.replace(b"\n", b"\r\n") if name in PAGES else content


def archive(built, version, seconds, folder):
    """The .zip: what a user unpacks anywhere."""
    path = f"{folder}/oaut-{version}-windows.zip"
    with zipfile.ZipFile(path, "w", zipfile.ZIP_DEFLATED) as made:
        for name, source in sorted(files_of(built).items()):
            entry = zipfile.ZipInfo(f"oaut-{version}/{name}", gmtime(seconds)[:6])
            entry.external_attr, entry.compress_type = 0o644 << 16, zipfile.ZIP_DEFLATED
            made.writestr(entry, content_of(name, source))
    return path


def installer(built, version, seconds, folder):
    """The .msi, or None if wixl is not there."""
    if shutil.which("wixl") is None:
        return None
    path = f"{folder}/oaut-{version}-windows.msi"
    with tempfile.TemporaryDirectory() as room:
        files = files_of(built)
        for name, source in files.items():
            os.makedirs(os.path.dirname(f"{room}/{name}"), exist_ok=True)
            with open(f"{room}/{name}", "wb") as file:
                file.write(content_of(name, source))
            os.utime(f"{room}/{name}", (seconds, seconds))
        with open(f"{room}/oaut.wxs", "w", encoding="utf-8") as file:
            file.write(described(sorted(files), version))
        # (a package of 64 bits would be refused on a Windows of 32)
        words = ["wixl", "--arch", "x86", "-o", os.path.abspath(path), "oaut.wxs"]
        # (the cabinet has the files' times as local ones)
        subprocess.run(
            words,
            check=True,
            cwd=room,
            env={**os.environ, "TZ": "UTC", "SOURCE_DATE_EPOCH": str(seconds)},
            stdout=subprocess.DEVNULL,
        )
    with open(path, "r+b") as file:
        content = bytearray(file.read())
        settle(content, seconds, f"{{{uuid.uuid5(UPGRADE, 'package ' + version)}}}".upper())
        file.seek(0)
        file.write(content)
    return path


# a property set's format: that of a summary
SUMMARY = uuid.UUID("f29f85e0-4ff9-1068-ab91-08002b27b3d9").bytes_le
PACKAGE_CODE, CREATED, SAVED = 9, 12, 13
FROM_1601 = 11_644_473_600


def settle(content, seconds, code):
    """Gives an installer's summary this time and package code: wixl takes the clock and a number by
    chance, so that no two runs give the same bytes."""
    places = stream_places(content, "\x05SummaryInformation")
    summary = bytearray(content[it] for it in places)
    if summary[28:44] != SUMMARY:
        raise ValueError("the installer has no summary")
    (start,) = struct.unpack_from("<I", summary, 44)
    _, count = struct.unpack_from("<II", summary, start)
    for at in range(count):
        property_id, place = struct.unpack_from("<II", summary, start + 8 + 8 * at)
        if property_id in (CREATED, SAVED):
            struct.pack_into("<Q", summary, start + place + 4, (seconds + FROM_1601) * 10_000_000)
        elif property_id == PACKAGE_CODE:
            (length,) = struct.unpack_from("<I", summary, start + place + 4)
            if length != len(code) + 1:
                raise ValueError("the installer has no package code")
            summary[start + place + 8 : start + place + 7 + length] = code.encode()
    for place, byte in zip(places, summary):
        content[place] = byte


def stream_places(content, name):
    """If each byte of a stream of a compound file lies in it, as MS-CFB has it."""
    shift, mini_shift = struct.unpack_from("<HH", content, 30)
    size, mini_size = 1 << shift, 1 << mini_shift
    directory, cutoff, mini_table = struct.unpack_from("<I4xII", content, 48)
    if struct.unpack_from("<I", content, 72)[0]:
        raise ValueError("the installer has more sectors than its head names")
    table = [
        it
        for sector in struct.unpack_from("<109I", content, 76)
        if sector < 0xFFFFFFFA
        for it in struct.unpack_from(f"<{size // 4}I", content, (sector + 1) * size)
    ]

    def chain(sector, links):
        while sector < 0xFFFFFFFA:
            yield sector
            sector = links[sector]

    def bytes_of(sector):
        return [
            place
            for it in chain(sector, table)
            for place in range((it + 1) * size, (it + 2) * size)
        ]

    entries = bytes_of(directory)
    root = None
    for at in range(0, len(entries), 128):
        entry = bytes(content[it] for it in entries[at : at + 128])
        (length,) = struct.unpack_from("<H", entry, 64)
        sector, many = struct.unpack_from("<IQ", entry, 116)
        root = entry if root is None else root
        if entry[: max(0, length - 2)].decode("utf-16-le") != name:
            continue
        if many >= cutoff:
            return bytes_of(sector)[:many]
        within = bytes_of(struct.unpack_from("<I", root, 116)[0])
        links = [
            it
            for one in chain(mini_table, table)
            for it in struct.unpack_from(f"<{size // 4}I", content, (one + 1) * size)
        ]
        return [
            place
            for it in chain(sector, links)
            for place in within[it * mini_size : (it + 1) * mini_size]
        ][:many]
    raise ValueError(f"the installer has no stream {name!r}")


def described(names, version):
    """The installation as wixl reads it. The unregistering actions have numbers between
    RemoveShortcuts, 3200, and RemoveFiles, 3500: from `Before` alone wixl sometimes makes the
    number 1, which is too early for a deferred action. One of them runs: that of the system's bits,
    whose tool runs the other one. None runs when a later version takes the place of this one: what
    is registered then leads to the new files."""
    numbers = ".".join((version.partition("-")[0].split(".") + ["0", "0"])[:3])
    ids = {name: "f" + uuid.uuid5(UPGRADE, name).hex for name in names}
    folders = {}
    for name in names:
        folders.setdefault(os.path.dirname(name), []).append(name)
    inside = "".join(
        component(folder, folders[folder], ids) for folder in sorted(folders) if not folder
    )
    inside += "".join(
        f'<Directory Id="d{folder}" Name={quoteattr(folder)}>'
        f"{component(folder, folders[folder], ids)}</Directory>"
        for folder in sorted(folders)
        if folder
    )
    parts = "".join(f'<ComponentRef Id="c{folder or "top"}"/>' for folder in sorted(folders))
    tools = [
        (bits, ids[f"{bits}/oautreg.exe"]) for bits in CONDITIONS if f"{bits}/oautreg.exe" in ids
    ]
    actions = "".join(
        f'<CustomAction Id="Unregister{bits}" FileKey="{tool}" ExeCommand="remove --all" '
        'Execute="deferred" Return="ignore"/>'
        for bits, tool in tools
    )
    steps = "".join(
        f'<Custom Action="Unregister{bits}" Sequence="34{bits}">REMOVE="ALL" AND NOT '
        f"UPGRADINGPRODUCTCODE AND {CONDITIONS[bits]}</Custom>"
        for bits, _ in tools
    )
    return f"""<?xml version="1.0" encoding="utf-8"?>
<Wix xmlns="http://schemas.microsoft.com/wix/2006/wi">
  <Product Id="{uuid.uuid5(UPGRADE, version)}" UpgradeCode="{UPGRADE}" Name="oaut {version}" \
Version="{numbers}" Language="1033" Manufacturer="oaut">
    <Package Id="{uuid.uuid5(UPGRADE, "package " + version)}" InstallerVersion="200" \
Compressed="yes" InstallScope="perUser" Description="oaut {version}"/>
    <MajorUpgrade DowngradeErrorMessage="A later version of oaut is installed: uninstall it \
first."/>
    <Media Id="1" Cabinet="oaut.cab" EmbedCab="yes"/>
    <Directory Id="TARGETDIR" Name="SourceDir">
      <Directory Id="LocalAppDataFolder"><Directory Id="Programs" Name="Programs"><Directory \
Id="INSTALLDIR" Name="oaut">{inside}</Directory></Directory></Directory>
      <Directory Id="ProgramMenuFolder" Name="Programs"/>
    </Directory>
    {actions}
    <InstallExecuteSequence>{steps}</InstallExecuteSequence>
    <Feature Id="Whole" Title="oaut" Level="1">{parts}</Feature>
  </Product>
</Wix>
"""


def component(folder, names, ids):
    """One folder's files. The page of the Start menu is that with the first steps."""
    files = ""
    for at, name in enumerate(names):
        key = ' KeyPath="yes"' if at == 0 else ""
        files += (
            f'<File Id="{ids[name]}" Name={quoteattr(os.path.basename(name))} '
            f"Source={quoteattr(name)}{key}/>"
        )
    # the tool of 32 bits runs on every Windows
    if folder == ("32" if "32/oautreg.exe" in ids else "64"):
        target = f"[INSTALLDIR]{folder}\\oautreg.exe"
        files += (
            '<Shortcut Id="tool" Directory="ProgramMenuFolder" Name="oaut servers" '
            f'Target="{target}" Arguments="window" WorkingDirectory="INSTALLDIR"/>'
        )
    if "START.txt" in names:
        files += (
            '<Shortcut Id="menu" Directory="ProgramMenuFolder" Name="oaut" '
            'Target="[INSTALLDIR]START.txt" WorkingDirectory="INSTALLDIR"/>'
        )
    return (
        f'<Component Id="c{folder or "top"}" '
        f'Guid="{uuid.uuid5(UPGRADE, "component " + folder)}">{files}</Component>'
    )
