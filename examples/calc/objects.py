"""A Calc document's macro: a table of a store's objects, whose cells go back into the store.

`fill` writes a row for each object of a coclass, and a column for each of its properties that is
one value without parameters. After that, a cell that you change is put into its object at once. If
the server refuses it, the reason is beside "status", and the cell has its former value again. Each
call is a session of its own, so others may use the store in between. README.md has the steps.
"""
import decimal

import oaut

SETTINGS = ("program", "store", "library", "coclass", "status")
# the row of the table's heads, below the settings
HEADS = len(SETTINGS) + 1
ARRAY = 0x2000
EVENT = "vnd.sun.star.script:objects.py$changed?language=Python&location=document"


def setting(sheet, name):
    """The cell beside a setting's name."""
    return sheet.getCellByPosition(1, SETTINGS.index(name))


def session(sheet):
    """A session over the store that the settings name."""
    program, store, library = (setting(sheet, it).String for it in SETTINGS[:3])
    return oaut.serve(store, library, program=program or "oaut")


def value_of(cell, old):
    """The content of a cell: a number, a text or None. `old` is what the property has now."""
    if cell.Type.value == "EMPTY":
        return None
    if cell.Type.value == "TEXT":
        return cell.String
    if isinstance(old, bool):
        return bool(cell.Value)
    return int(cell.Value) if cell.Value.is_integer() else decimal.Decimal(repr(cell.Value))


def show(cell, value):
    """Writes a value into a cell: as a number if the cell can give the same one back."""
    number = isinstance(value, (int, decimal.Decimal))
    if number and decimal.Decimal(repr(float(value))) == value:
        cell.Value = float(value)
    else:
        cell.String = "" if value is None or value is oaut.EMPTY else str(value)


def watch(sheet, script):
    """Has a script be called for each change of the sheet, or none."""
    import uno

    event = []
    for name, value in ("EventType", "Script"), ("Script", script):
        event.append(uno.createUnoStruct("com.sun.star.beans.PropertyValue"))
        event[-1].Name, event[-1].Value = name, value
    described = uno.Any("[]com.sun.star.beans.PropertyValue", tuple(event) if script else ())
    uno.invoke(sheet.Events, "replaceByName", ("OnChange", described))


def fill(*_):
    """Fills the table anew from the store."""
    sheet = XSCRIPTCONTEXT.getDocument().Sheets.getByIndex(0)  # noqa: F821
    watch(sheet, "")
    try:
        with session(sheet) as server:
            coclass = server.library.coclass(setting(sheet, "coclass").String)
            members = server.library.members(server.library.interface(coclass)).values()
            heads = [it.name for it in members if it.can_get and not it.parameters]
            heads = [it.name for it in members if it.name in heads and not it.vt & ARRAY]
            items = [it for it in server.objects() if it.coclass == coclass.name]
            with server.batch():
                rows = [[getattr(item, head) for head in heads] for item in items]
        said = f"{len(items)} objects"
    except (oaut.Error, LookupError, OSError) as fault:
        heads, items, rows, said = [], [], [], str(fault)
    last = sheet.RangeAddress
    old = sheet.getCellRangeByPosition(0, HEADS, min(last.EndColumn, 255), last.EndRow)
    old.clearContents(1 | 2 | 4 | 16)  # (numbers, dates, texts, formulas)
    for column, head in enumerate(["object", *heads]):
        sheet.getCellByPosition(column, HEADS).String = head
    for row, (item, values) in enumerate(zip(items, rows), HEADS + 1):
        sheet.getCellByPosition(0, row).Value = item.number
        for column, later in enumerate(values, 1):
            show(sheet.getCellByPosition(column, row), later.value)
    setting(sheet, "status").String = said
    watch(sheet, EVENT)


def changed(where, *_):
    """Puts the cells of the table that were changed into their objects."""
    sheet, at, said, back = where.Spreadsheet, where.RangeAddress, "", []
    coclass = setting(sheet, "coclass").String
    cells = []
    for row in range(max(at.StartRow, HEADS + 1), at.EndRow + 1):
        number = int(sheet.getCellByPosition(0, row).Value)
        for column in range(max(at.StartColumn, 1), at.EndColumn + 1):
            head = sheet.getCellByPosition(column, HEADS).String
            if not number or not head:
                break
            cells.append((sheet.getCellByPosition(column, row), number, head))
    if not cells:
        return
    try:
        with session(sheet) as server:
            for cell, number, head in cells:
                item = server.object(number, coclass)
                old = getattr(item, head)
                new = value_of(cell, old)
                try:
                    if new != old:
                        setattr(item, head, new)
                        said = f"put {coclass} {number}, {head}"
                except (oaut.Refused, TypeError, ValueError) as refusal:
                    said = str(refusal)
                back.append((cell, getattr(item, head)))
    except (oaut.Error, LookupError, OSError) as fault:
        said = str(fault)
    # (a cell that is written calls this again, and finds what it holds in the store)
    for cell, value in back:
        if value_of(cell, value) != value:
            show(cell, value)
    if said:
        setting(sheet, "status").String = said


g_exportedScripts = fill, changed
