#!/usr/bin/env python3
"""Makes a Calc document with the macro of objects.py in it: python3 document.py FILE.ods"""
import os
import sys
import zipfile
from xml.sax.saxutils import escape

HERE = os.path.dirname(os.path.abspath(__file__))
SETTINGS = ("program", "store", "library", "coclass", "status")
KIND = "application/vnd.oasis.opendocument.spreadsheet"
NAMES = "urn:oasis:names:tc:opendocument:xmlns:"


def content(values):
    """The document's sheet, with the settings' values."""
    cell = '<table:table-cell office:value-type="string"><text:p>{}</text:p></table:table-cell>'
    rows = "".join(
        f"<table:table-row>{cell.format(name)}{cell.format(escape(values.get(name, '')))}"
        "</table:table-row>"
        for name in SETTINGS
    )
    spaces = " ".join(f'xmlns:{it}="{NAMES}{it}:1.0"' for it in ("office", "table", "text"))
    return (
        f'<office:document-content {spaces} office:version="1.3"><office:body>'
        f'<office:spreadsheet><table:table table:name="objects">{rows}</table:table>'
        "</office:spreadsheet></office:body></office:document-content>"
    )


def manifest(files):
    """The list of what is in the document."""
    entry = '<manifest:file-entry manifest:full-path="{}" manifest:media-type="{}"/>'
    entries = "".join(entry.format(*it) for it in {"/": KIND, **files}.items())
    space = f'xmlns:manifest="{NAMES}manifest:1.0"'
    return f'<manifest:manifest {space} manifest:version="1.3">{entries}</manifest:manifest>'


def make(path, **values):
    """Writes a document, with what its settings have."""
    with open(f"{HERE}/objects.py", encoding="utf-8") as file:
        macro = file.read()
    with zipfile.ZipFile(path, "w", zipfile.ZIP_DEFLATED) as archive:
        archive.writestr("mimetype", KIND, zipfile.ZIP_STORED)
        archive.writestr("content.xml", content(values))
        archive.writestr("Scripts/python/objects.py", macro)
        files = {"content.xml": "text/xml", "Scripts/python/objects.py": ""}
        archive.writestr("META-INF/manifest.xml", manifest(files))


if __name__ == "__main__":
    if len(sys.argv) != 2:
        sys.exit(__doc__)
    make(sys.argv[1])
