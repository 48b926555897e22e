' What a script got is put back, and of an array that is refused the element is named.
Dim hub, item, stock, a, box(1, 2), days(1), what, number, description
Set hub = CreateObject("Demo.Store")
Set item = CreateObject("Demo.Item")
Set stock = hub.InterfaceOf(item, "DStock")
item.Bigs = Array(1, 5000000000, 2 ^ 62, CCur("922337203685477"))
a = item.Bigs
Same "cells that a Long does not hold", TypeName(a(0)) & " " & TypeName(a(1)) & " " & TypeName(a(2)) & " " & TypeName(a(3)), "Long Currency Decimal Currency"
a(0) = 2
item.Bigs = a
a = item.Bigs
Same "are put back", CStr(a(0)) & " " & CStr(a(1)) & " " & CStr(a(2)) & " " & CStr(a(3)), "2 5000000000 4611686018427387904 922337203685477"
item.Huge = -(2 ^ 63)
a = Array(item.Huge)
item.Bigs = a
Same "the least one", CStr(item.Bigs(0)), "-9223372036854775808"

On Error Resume Next
Tells "a fraction", 458, "Grid: values of this type are not supported: the new value is declared SAFEARRAY(short) and given as SAFEARRAY(VARIANT); element (1) is given as double; CURRENCY and DECIMAL hold this number (DISP_E_BADVARTYPE, 0x80020008)"
item.Grid = Array(1, 2.5): Told
Tells "a number too large", 6, "Grid: the number is too large or too small: the new value is declared SAFEARRAY(short) and given as SAFEARRAY(VARIANT); element (2) is too large or too small: it is given as long (DISP_E_OVERFLOW, 0x8002000A)"
item.Grid = Array(1, 2, 70000): Told
Tells "a text among numbers", 13, "Grid: the value is of another type: the new value is declared SAFEARRAY(short) and given as SAFEARRAY(VARIANT); element (0) is given as BSTR (DISP_E_TYPEMISMATCH, 0x80020005)"
item.Grid = Array("x", 2): Told
box(0, 0) = 1: box(0, 1) = "a": box(0, 2) = 2.5: box(1, 0) = 4: box(1, 1) = 5: box(1, 2) = Now
Tells "a date in a range", 458, "Any: values of this type are not supported: the new value is declared VARIANT and given as SAFEARRAY(VARIANT); element (1, 2) is given as DATE; there are no dates; a text or a number of days holds one (DISP_E_BADVARTYPE, 0x80020008)"
item.Any = box: Told
Tells "a fraction of a CURRENCY too large", 458, "Grid: values of this type are not supported: the new value is declared SAFEARRAY(short) and given as SAFEARRAY(VARIANT); element (0) is given as CURRENCY (DISP_E_BADVARTYPE, 0x80020008)"
item.Grid = Array(CCur("1.5")): Told
WScript.Echo "end"

Sub Tells(case_, number_, description_)
  what = case_
  number = number_
  description = "Demo.Item " & hub.NumberOf(item) & ", " & description_
  Err.Clear
End Sub
Sub Told
  Same what, Err.Number & " " & Err.Source & ": " & Err.Description, number & " Demo.Item: " & description
End Sub
