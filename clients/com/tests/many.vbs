' The hub of a store with many objects: a loop over them does not list all of them for each.
Dim hub, item, shelves, i, n, sum, last
Set hub = CreateObject("Demo.Store")
n = hub.Count
For i = 1 To 200
  sum = sum + hub.NumberOf(hub(i)) + hub.NumberOf(hub.Object(i)) + hub.Count
Next
Same "numbers and counts", sum, CLng(200 * 201 + 200 * n)
Set item = CreateObject("Demo.Shelf")
last = hub.NumberOf(item)
Same "one more", hub.Count, n + 1
Same "it is the last one", hub.NumberOf(hub(n + 1)), last
Same "it is found by its number", hub.ClassOf(hub.Object(last)), "Shelf"
Set shelves = hub.Objects("Shelf")
Same "a collection counts its own", shelves.Count, CLng(1)
Same "and has it", hub.NumberOf(shelves(1)), last
Same "the others are of another class", hub.Objects("Item").Count, n
Same "the last of these", hub.NumberOf(hub.Objects("Item")(n)), last - 1
hub.Release hub.Object(100)
Same "one less", hub.Count, n
Same "the next one is in its place", hub.NumberOf(hub(100)), CLng(101)
On Error Resume Next
hub.Object(100): Refused "the number of one that was released", Err.Number, &H80010108: Err.Clear
hub.Object(last + 1): Refused "one that was never given", Err.Number, &H80010108: Err.Clear
hub.Item(0): Refused "the place 0 is 9", Err.Number, 9: Err.Clear
hub.Item(n + 1): Refused "the place behind the last is 9", Err.Number, 9: Err.Clear
shelves.Item(2): Refused "that of a collection is 9", Err.Number, 9: Err.Clear
shelves.Item(0): Refused "and its place 0", Err.Number, 9: Err.Clear
hub.Release item
Same "a collection is empty", shelves.Count, CLng(0)
shelves.Item(1): Refused "and has none", Err.Number, 9: Err.Clear
WScript.Echo "end"
