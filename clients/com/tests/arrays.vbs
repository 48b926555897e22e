' What the hub does to arrays.
Dim hub, item, box(1, 2), a, i
Set hub = CreateObject("Demo.Store")
Set item = CreateObject("Demo.Item")
item.Names = Array("one", "two")
hub.Redim item, "Names", 3
Same "an array grows", UBound(item.Names), CLng(2)
Same "cells stay", item.Names(0) & item.Names(1), "onetwo"
Same "a new cell is empty", item.Names(2), ""
item.Names(2) = "three"
Same "and can be put", item.Names(2), "three"
hub.Redim item, "names", 1
Same "it shrinks", UBound(item.Names), CLng(0)
hub.Redim item, "Names", 2, 10
Same "its lowest index changes", item.Names(10), "one"
hub.Redim item, "Names", 0
Same "it has no cells", UBound(item.Names), CLng(-1)
For i = 0 To 5
  box(i \ 3, i Mod 3) = i
Next
item.Any = box
hub.Redim item, "Any", 4
a = item.Any
Same "the last dimension changes, as by ReDim Preserve", UBound(a, 1) & " " & UBound(a, 2) & " " & a(1, 2) & " " & TypeName(a(1, 3)), "1 3 5 Empty"
hub.Redim item, "Row", 2, 0, 9
Same "an array that was never put, of a property with a parameter", UBound(item.Row(9)), CLng(1)
item.Row(9, 1) = 5
Same "its element", item.Row(9, 1), CInt(5)
item.Grid = Array(1, 2)
Same "a lock", hub.Lock(item, "Grid"), CLng(1)
Same "a second lock", hub.Lock(item, "Grid"), CLng(2)
Same "a lock of one with a parameter", hub.Lock(item, "Row", 9), CLng(1)
item.Grid(1) = 7
Same "an element of a locked array is put", item.Grid(1), CInt(7)
On Error Resume Next
item.Grid = Array(1): Refused "a put of a locked array is 10", Err.Number, 10: Err.Clear
hub.Redim item, "Grid", 5: Refused "Redim of a locked array is 10", Err.Number, 10: Err.Clear
hub.Release item: Refused "Release of an object with a locked array is 10", Err.Number, 10: Err.Clear
On Error Goto 0
Same "it goes", hub.Unlock(item, "Grid"), CLng(1)
Same "the other too", hub.Unlock(item, "Grid"), CLng(0)
Same "that with a parameter too", hub.Unlock(item, "Row", 9), CLng(0)
On Error Resume Next
hub.Unlock item, "Grid": Refused "a lock too few", Err.Number, &H8000FFFF: Err.Clear
hub.Redim item, "Grid", 70000: Refused "too many cells is 5", Err.Number, 5: Err.Clear
hub.Redim item, "Grid", -1: Refused "a count too small is 6", Err.Number, 6: Err.Clear
hub.Redim item, "Grid", "2": Refused "a count that is a text is 13", Err.Number, 13: Err.Clear
hub.Redim item, "Count", 2: Refused "what is no array is 13", Err.Number, 13: Err.Clear
hub.Redim item, "Nothing1", 2: Refused "a name that is not there is 438", Err.Number, 438: Err.Clear
hub.Redim item, "Row", 2: Refused "an argument left out is 449", Err.Number, 449: Err.Clear
hub.Redim item, "Row", 2, 0, "x": Refused "an argument of another type is 13", Err.Number, 13: Err.Clear
hub.Redim item, "Grid": Refused "a count left out is 450", Err.Number, 450: Err.Clear
hub.Lock item, 5: Refused "a name that is a number is 13", Err.Number, 13: Err.Clear
hub.Lock 5, "Grid": Refused "an object that is a number is 13", Err.Number, 13: Err.Clear
hub.Unlock item: Refused "a name left out is 450", Err.Number, 450: Err.Clear
On Error Goto 0
i = hub.Count
hub.Release item
Same "an object that was released is gone", hub.Count, i - 1
On Error Resume Next
a = item.Count: Refused "what is asked of it", Err.Number, &H80010108: Err.Clear
WScript.Echo "end"
