' The hub as a collection, and one of each coclass.
Dim hub, shelf, item, again, shelves, a, b, i, last
Set hub = CreateObject("Demo.Store")
For i = 1 To 2
  CreateObject "Demo.Item"
  CreateObject "Demo.Shelf"
Next
hub.Release hub.Object(1)
Same "Count", hub.Count, CLng(3)
Same "For Each, in the order of numbers", All(hub), " 2 3 4"
Same "Item is by place", hub.NumberOf(hub.Item(1)) & hub.NumberOf(hub.Item(3)), "24"
Same "and what the hub is without a name", hub.NumberOf(hub(2)), CLng(3)
Set shelves = hub.Objects("shelf")
Same "those of a coclass", shelves.Count & All(shelves) & " " & hub.NumberOf(shelves(2)) & " " & UBound(shelves.Numbers), "2 2 4 4 1"
Same "ClassOf", hub.ClassOf(hub(1)) & hub.ClassOf(hub(2)), "ShelfItem"
b = ""
For Each item In hub
  If b = "" Then Set last = CreateObject("Demo.Item"): hub.Release hub.Object(4)
  b = b & " " & hub.NumberOf(item)
Next
Same "it is stable while objects are made and released", b & "," & All(hub), " 2 3 4, 2 3 5"
Set shelf = hub.Object(2)
Set item = hub.Object(3)
shelf.Price = 2
Set again = hub.InterfaceOf(item, "dstock")
again.Price = 5
Same "a second interface", again.Price & " " & item.Price & " " & hub.NumberOf(again), "5 0 3"
Same "the first one by its name", TypeName(hub.InterfaceOf(again, "DItem").Name), "String"
Same "an interface of an interface", hub.InterfaceOf(hub.InterfaceOf(again, "DItem"), "DStock").Price, CCur(5)
Same "TypeName", TypeName(item) & " " & TypeName(shelf), WScript.Arguments(0)
On Error Resume Next
Set a = hub.Item(0): Refused "a place of none is 9", Err.Number, 9: Err.Clear
Set a = hub.Item(4): Refused "a place behind the last is 9", Err.Number, 9
Same "and what is told", Err.Source & "; " & Err.Description, "Demo.Store; Demo.Store, Item: nothing has this index: place (DISP_E_BADINDEX, 0x8002000B)": Err.Clear
Set a = hub.Objects("Nowhere"): Refused "a coclass that is not there is 438", Err.Number, 438: Err.Clear
Set a = hub.Objects(5): Refused "one that is no text is 13", Err.Number, 13: Err.Clear
Set a = hub.InterfaceOf(shelf, "DItem"): Refused "an interface of another coclass is 430", Err.Number, 430: Err.Clear
a = hub.ClassOf(hub): Refused "the class of no object is 13", Err.Number, 13: Err.Clear
Set a = shelves.Object(2): Refused "a collection has no Object", Err.Number, 438: Err.Clear
For Each a In item
Next
Same "For Each over an object is refused", Err.Number <> 0, True: Err.Clear ' (Wine has one number for all that it finds no elements in)
a = item.Count ' (its DISPID is known from here on: GetIDsOfNames has no room for words)
hub.Release item
a = item.Count
Same "what is told of an object that is gone", Err.Number & " " & Err.Description, "-2147417848 Demo.Item 3, Count: the store has no object with this number; it was released (RPC_E_DISCONNECTED, 0x80010108)"
WScript.Echo "end"

Function All(objects)
  Dim it
  For Each it In objects
    All = All & " " & hub.NumberOf(it)
  Next
End Function
