# Puts the cells A1:C5 of the sheet "Range" into a store, and reads them back into E1:G5.
# Cell A7 has the result, or the error.
import decimal


def _document():
    # (LibreOffice adds this name)
    return globals()["XSCRIPTCONTEXT"].getDocument()


def _range(name):
    return _document().getSheets().getByName("Range").getCellRangeByName(name)


def _say(text):
    _range("A7").getCellByPosition(0, 0).setString(text)


def _value(cell, place):
    """A cell as the store has it: numbers are whole ones or decimals, never floating-point ones."""
    if not isinstance(cell, float):
        return cell
    number = decimal.Decimal(repr(cell))
    if abs(number) >= 2**96 or number.as_tuple().exponent < -28:
        raise ValueError(f"the number of the cell {place} has more digits than a DECIMAL keeps")
    return int(cell) if cell.is_integer() else number


def _cell(value):
    """A value of the store as a cell has it."""
    if isinstance(value, bool):
        return "true" if value else "false"
    if isinstance(value, (int, decimal.Decimal)):
        return float(value)
    return value if isinstance(value, str) else ""


def _with_table(use, failure):
    """Calls with the store's first table; one is made if there is none."""
    try:
        import oaut
    except ImportError:
        _say(
            f"{failure}: LibreOffice's Python has no module oaut; install the client "
            "(docs/guide/client.md)"
        )
        return
    address = (
        _document()
        .getSheets()
        .getByName("Start")
        .getCellRangeByName("B2")
        .getCellByPosition(0, 0)
        .getString()
    )
    try:
        with oaut.connect(address) as session:
            found = session.objects("Table")
            use(oaut, found[0] if found else session.create("Table"))
    except Exception as error:
        _say(f"{failure}: {error}")


def put_range(*_):
    def use(oaut, table):
        cells = _range("A1:C5").getDataArray()
        table.Cells = [
            [_value(it, f"{name}{at}") for name, it in zip("ABC", row)]
            for at, row in enumerate(cells, 1)
        ]
        _say("The range is in the store.")

    _with_table(use, "The range was not put")


def get_range(*_):
    def use(oaut, table):
        cells = table.Cells.value
        if not isinstance(cells, oaut.Array) or len(cells.bounds) != 2:
            _say("The range was not read: put it first")
            return
        (rows, _), (columns, _) = cells.bounds
        target = (
            _range("E1")
            .getCellByPosition(0, 0)
            .getSpreadsheet()
            .getCellRangeByPosition(4, 0, 3 + columns, rows - 1)
        )
        target.setDataArray(
            tuple(
                tuple(_cell(it) for it in cells.cells[row * columns : (row + 1) * columns])
                for row in range(rows)
            )
        )
        _say(f"{rows} rows and {columns} columns were read.")

    _with_table(use, "The range was not read")


g_exportedScripts = (put_range, get_range)
