"""Uses a workbook in LibreOffice without a window, as the system's Python does it over UNO:

    spreadsheet.py PIPE STEP ..

where a step is  open=PATH,  set=SHEET.CELL=TEXT,  get=SHEET.RANGE  (printed as JSON, a line each), 
run=MACRO  or  end.
"""
import json
import sys
import time

import uno
from com.sun.star.beans import PropertyValue


def said(name, value):
    made = PropertyValue()
    made.Name, made.Value = name, value
    return made


def office(pipe):
    """LibreOffice's own context, once it listens."""
    local = uno.getComponentContext()
    resolver = local.ServiceManager.createInstanceWithContext(
        "com.sun.star.bridge.UnoUrlResolver", local
    )
    until = time.monotonic() + 400
    while True:
        try:
            return resolver.resolve(f"uno:pipe,name={pipe};urp;StarOffice.ComponentContext")
        except Exception:
            if time.monotonic() > until:
                raise
            time.sleep(0.2)


def main():
    context = office(sys.argv[1])
    desktop = context.ServiceManager.createInstanceWithContext(
        "com.sun.star.frame.Desktop", context
    )
    document = None
    for step in sys.argv[2:]:
        what, _, rest = step.partition("=")
        if what == "open":
            # (4: macros run without a question)
            document = desktop.loadComponentFromURL(
                f"file://{rest}", "_blank", 0, (said("Hidden", True), said("MacroExecutionMode", 4))
            )
        elif what == "run":
            script = f"vnd.sun.star.script:oaut_range.py${rest}?language=Python&location=document"
            document.getScriptProvider().getScript(script).invoke((), (), ())
        elif what == "end":
            document.close(True)
            desktop.terminate()
        else:
            place, _, value = rest.partition("=")
            sheet, _, cells = place.partition(".")
            found = document.Sheets.getByName(sheet).getCellRangeByName(cells)
            if what == "get":
                print(json.dumps([list(it) for it in found.getDataArray()]), flush=True)
            else:
                try:
                    found.getCellByPosition(0, 0).setValue(float(value))
                except ValueError:
                    found.getCellByPosition(0, 0).setString(value)


main()
