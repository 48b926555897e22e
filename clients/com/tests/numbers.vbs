' Floating-point numbers: a script's other numbers, and each number of a spreadsheet's cell.
Dim hub, item, stock, a, i, third, what, number, description
Set hub = CreateObject("Demo.Store")
Set item = CreateObject("Demo.Item")
Set stock = hub.InterfaceOf(item, "DStock")
third = 1 / 3
item.Count = 4 / 2
Same "a whole one for a long", item.Count, CLng(2)
item.Count = CDbl(-2147483647) - 1
Same "the least long", item.Count, CLng(-2147483647) - 1
item.Large = 2 ^ 40
Same "a whole one that a hyper holds", CStr(item.Large), "1099511627776"
item.Large = 2 ^ 63 + 2 ^ 11
Same "a whole one that a DECIMAL holds", CStr(item.Large), "9223372036854777856"
item.Flag = CDbl(0)
Same "a whole one for a truth", item.Flag, False
stock.Price = 19.99
Same "the shortest decimal of a fraction", stock.Price, CCur("19.99")
stock.Price = 5
stock.Weight = third
Same "one of 16 places", CStr(stock.Weight), "0.3333333333333333"
stock.Weight = -CSng(0.1)
Same "one of a single", CStr(stock.Weight), "-0.1"
item.Any = 2.5
Same "a fraction for a VARIANT", item.Any, CCur("2.5")
item.Any = third
Same "a longer one for a VARIANT", CStr(item.Any), "0.3333333333333333"
item.Any = 10 / 5
Same "a whole one for a VARIANT", item.Any, CLng(2)
item.Cell(10 / 2, "k", 4 / 2) = "x"
Same "parameters", item.Cell(5, "k", 2), "x"
stock.Rebate("a", 0.5) = 1.5
Same "a parameter that is CURRENCY", stock.Rebate("a", CCur("0.5")), CCur("1.5")
item.Grid = Array(1 / 1, 6 / 2, 3)
Same "cells of an array", item.Grid(1) & TypeName(item.Grid(1)), "3Integer"
Same "an index", item.Grid(4 / 2), CInt(3)
item.Grid(4 / 4) = 9 / 3
Same "an element", item.Grid(1), CInt(3)
stock.Prices = Array(0.25, 1, CCur("2.5"), 4 / 1)
a = stock.Prices
Same "cells of CURRENCY", a(0) & " " & a(1) & " " & a(2) & " " & a(3), "0.25 1 2.5 4"
item.Values = Array(0.5, third, 2 / 1, "x")
a = item.Values
Same "cells of VARIANT", TypeName(a(0)) & " " & CStr(a(1)) & " " & TypeName(a(2)) & " " & a(3), "Currency 0.3333333333333333 Long x"
item.Any = Array(0.75, Empty)
Same "an array for a VARIANT", item.Any(0), CCur("0.75")
Same "the hub's numbers", hub.NumberOf(hub.Object(hub.NumberOf(item) / 1)), hub.NumberOf(item)
item.Names = Array("one", "two")
hub.Redim item, "Names", 6 / 2
Same "a count", UBound(item.Names), CLng(2)

On Error Resume Next
' what is refused, its number, and which type would hold it
Tells "a fraction for a long", 458, "Count: values of this type are not supported: the new value is declared long and given as double; CURRENCY and DECIMAL hold this number (DISP_E_BADVARTYPE, 0x80020008)"
item.Count = 2.5: Told
Tells "0.1 + 0.2, which has 17 places", 458, "Price: values of this type are not supported: the new value is declared CURRENCY and given as double; DECIMAL holds this number, and CCur makes a CURRENCY that is near it (DISP_E_BADVARTYPE, 0x80020008)"
item.Price = 0.1 + 0.2: Told
Tells "16 places for a CURRENCY", 458, "Price: values of this type are not supported: the new value is declared CURRENCY and given as double; DECIMAL holds this number, and CCur makes a CURRENCY that is near it (DISP_E_BADVARTYPE, 0x80020008)"
item.Price = third: Told
Tells "a large one for a CURRENCY", 6, "Price: the number is too large or too small: the new value is declared CURRENCY and given as double; DECIMAL holds this number, and CCur makes a CURRENCY that is near it (DISP_E_OVERFLOW, 0x8002000A)"
item.Price = 2 ^ 50 + 0.25: Told
Tells "a whole one too large for a long", 6, "Count: the number is too large or too small: the new value is declared long and given as double; as a whole number it is a hyper, which CURRENCY and DECIMAL hold too (DISP_E_OVERFLOW, 0x8002000A)"
item.Count = 3000000000: Told
Tells "one beyond DECIMAL", 6, "Exact: the number is too large or too small: the new value is declared DECIMAL and given as double; no type holds a number so large (DISP_E_OVERFLOW, 0x8002000A)"
item.Exact = 1E+30: Told
Tells "one of 29 places", 458, "Exact: values of this type are not supported: the new value is declared DECIMAL and given as double; no type holds this number; a text does (DISP_E_BADVARTYPE, 0x80020008)"
item.Exact = 1E-29: Told
Tells "a whole one for a text", 13, "Name: the value is of another type: the new value is declared BSTR and given as double (DISP_E_TYPEMISMATCH, 0x80020005)"
item.Name = 4 / 2: Told
Tells "a date", 458, "Count: values of this type are not supported: the new value is declared long and given as DATE; there are no dates; a text or a number of days holds one (DISP_E_BADVARTYPE, 0x80020008)"
item.Count = Now: Told
Tells "an object", 458, "Any: values of this type are not supported: the new value is declared VARIANT and given as object; objects are not kept; the hub's NumberOf gives a number that is (DISP_E_BADVARTYPE, 0x80020008)"
Set item.Any = item: Told
Tells "Nothing", 458, "Any: values of this type are not supported: the new value is declared VARIANT and given as object; Nothing is not kept; Null and Empty are (DISP_E_BADVARTYPE, 0x80020008)"
Set item.Any = Nothing: Told
Tells "a fraction in an array", 458, "Grid: values of this type are not supported: the new value is declared SAFEARRAY(short) and given as SAFEARRAY(VARIANT); element (1) is given as double; CURRENCY and DECIMAL hold this number (DISP_E_BADVARTYPE, 0x80020008)"
item.Grid = Array(1, 2.5): Told
Tells "a parameter", 458, "Cell: values of this type are not supported: Row is declared long and given as double; CURRENCY and DECIMAL hold this number (DISP_E_BADVARTYPE, 0x80020008)"
item.Cell(1.5, "k") = "x": Told
Tells "an index that is a fraction", 458, "Grid: values of this type are not supported: an index is given as double; CURRENCY and DECIMAL hold this number (DISP_E_BADVARTYPE, 0x80020008)"
a = item.Grid(1.5): Told
Tells "an index of a text", 13, "Grid: the value is of another type: an index is given as BSTR (DISP_E_TYPEMISMATCH, 0x80020005)"
a = item.Grid("1"): Told
Tells "an argument's name", 13, "Cell: the value is of another type: Row is declared long and given as BSTR (DISP_E_TYPEMISMATCH, 0x80020005)"
a = item.Cell("x", "k"): Told
WScript.Echo "end"

Sub Tells(case_, number_, description_)
  what = case_
  number = number_
  description = "Demo.Item " & hub.NumberOf(item) & ", " & description_
  Err.Clear
End Sub
Sub Told
  Same what, Err.Number & " " & Err.Source & ": " & Err.Description, number & " Demo.Item: " & description
End Sub
