"""The start pages for spreadsheets: a workbook for Excel and one for LibreOffice, each with first
steps and a range. Macros put the range into a store and read it back. LibreOffice's has its macros
in it, too. Each run writes the same bytes.

    python3 dist/sheets.py FOLDER
"""
import os
import sys
import zipfile
from time import gmtime
from xml.sax.saxutils import escape, quoteattr

ROOT = os.path.dirname(os.path.dirname(os.path.abspath(__file__)))
MACROS = {"oaut.xlsx": "dist/sheets/excel.bas", "oaut.ods": "dist/sheets/libreoffice.py"}
RANGE = [
    ["Item", "Count", "Price"],
    ["tea", 3, 2.5],
    ["coffee", 4, 3.25],
    ["cake", 1, 19.99],
    ["bread", 12, 0.333333333333333],
]

EXCEL = [
    "oaut in Excel: a range of cells in a store",
    "Written after Excel's documentation; it was not run in Excel.",
    "",
    "1. The server's library is example\\table.idl of this folder (com.md, From nothing).",
    "2. Register the server: oautreg window, or  64\\oautreg add Desk localhost:8765 .",
    "3. Alt+F11, Insert, Module: paste the lines of the sheet Macro, column A.",
    "4. Alt+F8: run PutRange. It puts A1:C5 of the sheet Range into the store.",
    (
        "5. Change some cells, or close Excel. Alt+F8: run GetRange. It writes the store's range "
        "to E1:G5."
    ),
    "",
    "If something is wrong, a box has the number and the reason. Some that you may see:",
    "429: the class is not registered (step 2), or for programs of other bits.",
    "462: the server is not reached. The text says at which address, and why.",
    "6: a number of a cell is too large. The text names the cell by its indices.",
    (
        "A cell with a date is put as its number (Value2). A cell with an error, such as #N/A, is "
        "put as an error."
    ),
    "To save this file with its macros choose the type .xlsm.",
]
LIBREOFFICE = [
    ["oaut in LibreOffice: a range of cells in a store"],
    ["Server", "localhost:8765"],
    ["", "Change B2 if the server is elsewhere."],
    [],
    ["1. The server's library is example/table.idl of this folder (com.md, From nothing)."],
    ["2. LibreOffice's Python needs the module oaut (docs/guide/client.md)."],
    [
        "3. Allow this file's macros: Tools, Options, LibreOffice, Security, Macro Security, "
        "Medium. Open it again."
    ],
    [
        "4. Tools, Macros, Run Macro: oaut.ods, oaut_range, put_range. It puts A1:C5 of the sheet "
        "Range into the store."
    ],
    ["5. Change some cells, then run get_range. It writes the store's range to E1:G5."],
    [],
    ["Cell A7 of the sheet Range has the result, or the error."],
    ["The macros' text is in the sheet Macro."],
]


def pages(name):
    """The sheets of a workbook by their names: rows of texts and numbers."""
    with open(f"{ROOT}/{MACROS[name]}", encoding="utf-8") as file:
        macro = [[line] for line in file.read().rstrip("\n").split("\n")]
    start = LIBREOFFICE if name.endswith(".ods") else [[it] for it in EXCEL]
    return {"Start": start, "Range": RANGE, "Macro": macro}


def packed(path, files, seconds):
    """A .zip of texts, in this order; the first one is stored as it is."""
    with zipfile.ZipFile(path, "w") as made:
        for at, (name, text) in enumerate(files):
            entry = zipfile.ZipInfo(name, gmtime(seconds)[:6])
            entry.external_attr, entry.create_system = 0o644 << 16, 3
            entry.compress_type = zipfile.ZIP_DEFLATED if at else zipfile.ZIP_STORED
            made.writestr(entry, text.encode())
    return path


# --- Office Open XML (ECMA-376)

HEAD = '<?xml version="1.0" encoding="UTF-8" standalone="yes"?>\n'
MAIN = "http://schemas.openxmlformats.org/spreadsheetml/2006/main"
KINDS = "http://schemas.openxmlformats.org/officeDocument/2006/relationships"
PACKAGE = "http://schemas.openxmlformats.org/package/2006"
TYPES = "application/vnd.openxmlformats-officedocument.spreadsheetml"


def open_xml(path, seconds):
    """The workbook for Excel."""
    sheets = pages("oaut.xlsx")
    parts = "".join(
        f'<Override PartName="/xl/worksheets/sheet{at}.xml" ContentType="{TYPES}.worksheet+xml"/>'
        for at in range(1, len(sheets) + 1)
    )
    books = "".join(
        f'<sheet name={quoteattr(name)} sheetId="{at}" r:id="rId{at}"/>'
        for at, name in enumerate(sheets, 1)
    )
    links = "".join(
        f'<Relationship Id="rId{at}" Type="{KINDS}/worksheet" Target="worksheets/sheet{at}.xml"/>'
        for at in range(1, len(sheets) + 1)
    )
    files = [
        (
            "[Content_Types].xml",
            f'{HEAD}<Types xmlns="{PACKAGE}/content-types"><Default Extension="rels" '
            'ContentType="application/vnd.openxmlformats-package.relationships+xml"/>'
            '<Default Extension="xml" ContentType="application/xml"/><Override '
            'PartName="/xl/workbook.xml" '
            f'ContentType="{TYPES}.sheet.main+xml"/>{parts}</Types>',
        ),
        (
            "_rels/.rels",
            (
                f'{HEAD}<Relationships xmlns="{PACKAGE}/relationships"><Relationship Id="rId1" '
                f'Type="{KINDS}/officeDocument" Target="xl/workbook.xml"/></Relationships>'
            ),
        ),
        (
            "xl/workbook.xml",
            f'{HEAD}<workbook xmlns="{MAIN}" xmlns:r="{KINDS}"><sheets>{books}</sheets></workbook>',
        ),
        (
            "xl/_rels/workbook.xml.rels",
            f'{HEAD}<Relationships xmlns="{PACKAGE}/relationships">{links}</Relationships>',
        ),
    ]
    files += [
        (f"xl/worksheets/sheet{at}.xml", worksheet(rows))
        for at, rows in enumerate(sheets.values(), 1)
    ]
    return packed(path, files, seconds)


def worksheet(rows):
    def cell(value, at, row):
        place = f"{'ABCDEFG'[at]}{row}"
        if isinstance(value, str):
            return (
                f'<c r="{place}" t="inlineStr"><is><t '
                f'xml:space="preserve">{escape(value)}</t></is></c>'
                if value
                else ""
            )
        return f'<c r="{place}"><v>{value!r}</v></c>'

    inside = "".join(
        f'<row r="{row}">{"".join(cell(it, at, row) for at, it in enumerate(cells))}</row>'
        for row, cells in enumerate(rows, 1)
    )
    return (
        f'{HEAD}<worksheet xmlns="{MAIN}"><cols><col min="1" max="1" width="24" '
        f'customWidth="1"/></cols><sheetData>{inside}</sheetData></worksheet>'
    )


# --- OpenDocument (OASIS 1.2)

SPREADSHEET = "application/vnd.oasis.opendocument.spreadsheet"
NAMES = "urn:oasis:names:tc:opendocument:xmlns"


def open_document(path, seconds):
    """The workbook for LibreOffice, its macros in it."""
    tables = "".join(table(name, rows) for name, rows in pages("oaut.ods").items())
    spaces = " ".join(f'xmlns:{it}="{NAMES}:{it}:1.0"' for it in ("office", "table", "text"))
    content = (
        f"<office:document-content {spaces} "
        f'office:version="1.2"><office:body><office:spreadsheet>{tables}</office:spreadsheet></'
        "office:body></office:document-content>"
    )
    listed = {
        "/": SPREADSHEET,
        "content.xml": "text/xml",
        "Scripts/": "",
        "Scripts/python/": "",
        "Scripts/python/oaut_range.py": "",
    }
    entries = "".join(
        f"<manifest:file-entry manifest:full-path={quoteattr(it)} "
        f"manifest:media-type={quoteattr(kind)}/>"
        for it, kind in listed.items()
    )
    manifest = (
        f'<manifest:manifest xmlns:manifest="{NAMES}:manifest:1.0" '
        f'manifest:version="1.2">{entries}</manifest:manifest>'
    )
    with open(f"{ROOT}/{MACROS['oaut.ods']}", encoding="utf-8") as file:
        macro = file.read()
    head = '<?xml version="1.0" encoding="UTF-8"?>\n'
    files = [
        ("mimetype", SPREADSHEET),
        ("content.xml", head + content),
        ("Scripts/python/oaut_range.py", macro),
        ("META-INF/manifest.xml", head + manifest),
    ]
    return packed(path, files, seconds)


def table(name, rows):
    def cell(value):
        if isinstance(value, str):
            # blanks at the beginning would else be one
            blanks = len(value) - len(value.lstrip(" "))
            spaces = f'<text:s text:c="{blanks}"/>' if blanks else ""
            return (
                f'<table:table-cell office:value-type="string"><text:p>{spaces}'
                f'{escape(value.lstrip(" "))}</text:p></table:table-cell>'
            )
        return f'<table:table-cell office:value-type="float" office:value="{value!r}"/>'

    inside = "".join(
        f'<table:table-row>{"".join(map(cell, row)) or "<table:table-cell/>"}</table:table-row>'
        for row in rows
    )
    return f"<table:table table:name={quoteattr(name)}>{inside}</table:table>"


def both(folder, seconds):
    """Both workbooks, in a folder."""
    return [open_xml(f"{folder}/oaut.xlsx", seconds), open_document(f"{folder}/oaut.ods", seconds)]


if __name__ == "__main__":
    print("\n".join(both(sys.argv[1], int(os.environ.get("SOURCE_DATE_EPOCH", "1000000000")))))
