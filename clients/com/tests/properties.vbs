' Each kind of property, and each refusal.
Dim hub, item, again, a, b, i, box(1, 2)
Set hub = CreateObject("Demo.Store")
Set item = CreateObject("Demo.Item")
Same "the number of the object", hub.NumberOf(item), hub.Count

Same "a long, never put", item.Count, CLng(0)
item.Count = 7
Same "a long", item.Count, CLng(7)
item.count = CLng(-70000)
Same "a name in another case", item.COUNT, CLng(-70000)
item.Name = "Gr" & Chr(252) & "n"
Same "a text, its length and third letter", Len(item.Name) & " " & Asc(Mid(item.Name, 3, 1)), "4 252"
item.Name = ""
Same "the empty text", item.Name, ""
item.Price = CCur("2.5")
Same "a CURRENCY", item.Price, CCur("2.5")
item.Flag = True
Same "a truth", item.Flag, True
Same "a readonly one", item.Version, CLng(0)
item.Exact = 12
Same "a DECIMAL, its type", VarType(item.Exact), CInt(14)

item.Any = "text"
Same "a VARIANT, text", item.Any, "text"
item.Any = Null
Same "a VARIANT, Null", TypeName(item.Any), "Null"
item.Any = Empty
Same "a VARIANT, Empty", TypeName(item.Any), "Empty"
item.Any = CByte(200)
Same "a VARIANT, Byte", item.Any, CByte(200)
item.Any = True
Same "a VARIANT, Boolean", item.Any, True
item.Any = CInt(-5)
Same "a VARIANT, Integer", item.Any, CInt(-5)

item.Large = 5
Same "an unsigned hyper that a Long holds", item.Large, CLng(5)
item.Large = CCur("900000000000")
Same "an unsigned hyper that a CURRENCY holds", item.Large, CCur("900000000000")
item.Large = CCur("922337203685477")
item.Any = CCur("922337203685477")
Same "the largest whole CURRENCY", item.Large, item.Any

item.Cell(5, "k") = "x"
item.Cell(5, "k", 2) = "second page"
Same "a property with parameters", item.Cell(5, "k"), "x"
Same "its default", item.Cell(5, "k", 1), "x"
Same "another argument", item.Cell(5, "k", 2), "second page"
Same "what was never put", item.Cell(6, "k"), ""
a = 5
b = "k"
Same "arguments by reference", item.Cell(a, b), "x"

item.Any = Array(1, "two", True, Null, CCur("4.25"))
a = item.Any
Same "an array, its bound", UBound(a), CLng(4)
Same "an array, a cell", a(1), "two"
Same "an element", item.Any(4), CCur("4.25")
item.Any(1) = "zwei"
Same "an element that was put", item.Any(1), "zwei"
For i = 0 To 5
  box(i \ 3, i Mod 3) = i
Next
item.Any = box
a = item.Any
Same "an array of two bounds", UBound(a, 1) & " " & UBound(a, 2), "1 2"
Same "its cell", a(1, 2), CInt(5)
Same "its element", item.Any(1, 0), CInt(3)
item.Grid = Array(1, 2, 3)
a = item.Grid
Same "an array of Integer as one of VARIANT", UBound(a) & " " & a(2) & " " & TypeName(a(0)), "2 3 Integer"
Same "an element of it", item.Grid(1), CInt(2)
item.Grid(1) = 20
Same "an element of it that was put", item.Grid(1), CInt(20)
item.Row(4) = Array(4, 5, 6)
a = item.Row(4)
Same "an array of a property with a parameter", a(2), CInt(6)
Same "its element", item.Row(4, 1), CInt(5)
item.Row(4, 1) = 50
Same "its element that was put", item.Row(4, 1), CInt(50)
Same "of another argument it has no cells", UBound(item.Row(3)), CLng(-1)
item.Loose("a") = Array("one", 2)
Same "an element of a VARIANT with a parameter", item.Loose("a", 0), "one"
item.Loose("b") = 3
Same "a VARIANT with a parameter", item.Loose("b"), CInt(3)
item.Names = Array("one", "two")
Same "an array of texts", item.Names(1), "two"
item.Values = Array(1, "two", Null)
Same "an array of VARIANT", item.Values(1), "two"
Set again = hub.Object(hub.NumberOf(item))
Same "a second object of the same number", again.Grid(1), CInt(20)

b = 0
For Each a In item.Grid
  b = b + a
Next
Same "For Each", b, CInt(24)
a = item.Names
a(0) = "changed here"
Same "an array that was read is a copy", item.Names(0), "one"
With item
  .Cell(1, "a") = "w"
  Same "With", .Cell(1, "a") & UCase(.Cell(1, "a")), "wW"
End With
item.Count = 10
item.Count = item.Count * 2 - item.Count \ 2
Same "a property in a sum", item.Count, CLng(15)

On Error Resume Next
item.Nothing1 = 5: Refused "a name that is not there is 438", Err.Number, 438: Err.Clear
item.Version = 5: Refused "a put of a readonly one is 438", Err.Number, 438: Err.Clear
a = item.Written: Refused "a get of one that is only put is 438", Err.Number, 438: Err.Clear
item.Count = "12": Refused "a text for a long is 13", Err.Number, 13: Err.Clear
item.Count = 2.5: Refused "a double is 458", Err.Number, 458: Err.Clear
item.Count = Now: Refused "a date is 458", Err.Number, 458: Err.Clear
item.Count = Null: Refused "Null for a long is 13", Err.Number, 13: Err.Clear
item.Count = CCur("3000000000"): Refused "a number too large is 6", Err.Number, 6: Err.Clear
item.Large = -1: Refused "a number too small is 6", Err.Number, 6: Err.Clear
Set item.Any = item: Refused "an object is 458", Err.Number, 458: Err.Clear
a = item.Cell(1): Refused "an argument left out is 449", Err.Number, 449: Err.Clear
a = item.Cell(1, "k", 1, 1): Refused "too many arguments is 450", Err.Number, 450: Err.Clear
a = item.Count(1): Refused "an argument of a long is 450", Err.Number, 450: Err.Clear
item.Count(1) = 5: Refused "a put with an argument of a long is 450", Err.Number, 450: Err.Clear
a = item.Cell("x", "k"): Refused "an argument of another type is 13", Err.Number, 13: Err.Clear
a = item.Cell(1, "k", 70000): Refused "an argument too large is 6", Err.Number, 6: Err.Clear
a = item.Grid(9): Refused "an index out of its bound is 9", Err.Number, 9: Err.Clear
a = item.Grid(1, 1): Refused "an index too many is 9", Err.Number, 9: Err.Clear
a = item.Grid("1"): Refused "an index that is a text is 13", Err.Number, 13: Err.Clear
item.Grid(1) = "x": Refused "a text for an element is 13", Err.Number, 13: Err.Clear
item.Grid(1) = 70000: Refused "an element too large is 6", Err.Number, 6: Err.Clear
item.Any = 5
a = item.Any(1): Refused "an element of what is no array is 13", Err.Number, 13: Err.Clear
item.Any = Array(1, Now): Refused "a date in an array is 458", Err.Number, 458: Err.Clear
item.Any = Array(1, Array(2)): Refused "an array in an array is 458", Err.Number, 458: Err.Clear
item.Grid = Array(1, "x"): Refused "a text for a short in an array is 13", Err.Number, 13: Err.Clear
item.Grid = Array(1, 70000): Refused "a cell too large is 6", Err.Number, 6: Err.Clear
item.Grid = 5: Refused "a number for an array is 13", Err.Number, 13: Err.Clear
item.Count = Array(1): Refused "an array for a number is 13", Err.Number, 13: Err.Clear
item.Clear: Refused "a method is 445", Err.Number, 445: Err.Clear
Set a = hub.Object(999): Refused "an object that is not there", Err.Number, &H80010108: Err.Clear
Set a = hub.Object("1"): Refused "the hub: a text for a number is 13", Err.Number, 13: Err.Clear
Set a = hub.Object(-1): Refused "the hub: a number too small is 6", Err.Number, 6: Err.Clear
Set a = hub.Object: Refused "the hub: an argument left out is 450", Err.Number, 450: Err.Clear
a = hub.NumberOf(5): Refused "the hub: no object is 13", Err.Number, 13: Err.Clear
a = hub.NumberOf(hub): Refused "the hub: no object of a store is 13", Err.Number, 13: Err.Clear
a = hub.Nothing1: Refused "the hub: a name that is not there is 438", Err.Number, 438: Err.Clear
hub.Count = 5: Refused "the hub: a put is 438", Err.Number, 438: Err.Clear
Set a = CreateObject("Demo.Other"): Refused "a class that is not there is 429", Err.Number, 429: Err.Clear
On Error Goto 0
Same "nothing of that has changed", item.Count & " " & item.Grid(1) & " " & item.Any, "15 20 5"
item.Count = 7
item.Any = Array("a", 1)
WScript.Echo "end"
