' Texts = 1: a text that is a number goes into a number, as InputBox gives it.
Dim hub, item
Set hub = CreateObject("Demo.Store")
Set item = CreateObject("Demo.Item")
item.Count = "12"
Same "a long", item.Count, CLng(12)
item.Count = "  -7 "
Same "with a sign and blanks", item.Count, CLng(-7)
item.Count = "5.00"
Same "a whole one with places", item.Count, CLng(5)
item.Count = "1." & String(40, "0")
Same "one with more zeros than a DECIMAL has places", item.Count, CLng(1)
item.Price = "19.99"
Same "a CURRENCY", item.Price, CCur("19.99")
item.Price = "3"
Same "a whole CURRENCY", item.Price, CCur("3")
item.Price = "2.50" & String(40, "0")
Same "a CURRENCY with more zeros", item.Price, CCur("2.5")
item.Exact = "9." & String(28, "0")
Same "a DECIMAL that has no bits for its zeros", CDbl(item.Exact), CDbl(9)
item.Exact = "-0." & String(27, "0") & "1" & String(40, "0")
Same "one of 28 places before its zeros", CStr(item.Exact), "-0." & String(27, "0") & "1"
item.Exact = "0.3333333333333333333333333333"
Same "a DECIMAL of 28 places", CStr(item.Exact), "0.3333333333333333333333333333"
item.Large = "18446744073709551615"
Same "an unsigned hyper", CStr(item.Large), "18446744073709551615"
item.Cell("5", "k") = "x"
Same "a parameter", item.Cell(5, "k"), "x"
item.Grid = Array("1", 2, "3")
Same "cells", item.Grid(0) + item.Grid(1) + item.Grid(2), CInt(6)
item.Grid(1) = "20"
Same "an element", item.Grid(1), CInt(20)
item.Name = "12"
Same "a text stays one", item.Name, "12"
item.Any = "12"
Same "and in a VARIANT", item.Any, "12"
On Error Resume Next
item.Count = "many": Refused "no number is 13", Err.Number, 13: Err.Clear
item.Count = "": Refused "no text is 13", Err.Number, 13: Err.Clear
item.Count = "1,000": Refused "a comma is 13", Err.Number, 13: Err.Clear
item.Count = "1.5": Refused "a fraction for a long is 13", Err.Number, 13: Err.Clear
item.Count = "1.2.3": Refused "two points are 13", Err.Number, 13: Err.Clear
item.Count = "&H10": Refused "another base is 13", Err.Number, 13: Err.Clear
item.Count = "3000000000": Refused "one too large for a long is 6", Err.Number, 6: Err.Clear
item.Exact = "0." & String(28, "0") & "1": Refused "29 places for a DECIMAL are 13", Err.Number, 13: Err.Clear
item.Price = "1.23456": Refused "five places for a CURRENCY is 13", Err.Number, 13: Err.Clear
item.Price = "922337203685477.5808": Refused "one too large for a CURRENCY is 6", Err.Number, 6: Err.Clear
item.Exact = "79228162514264337593543950336": Refused "one too large for a DECIMAL is 6", Err.Number, 6: Err.Clear
item.Flag = "1": Refused "a truth is none", Err.Number, 13: Err.Clear
item.Grid = Array("1", "x"): Refused "a cell that is no number is 13", Err.Number, 13: Err.Clear
WScript.Echo "end"
