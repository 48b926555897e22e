' What stands in the store after the server was killed and started again: what properties.vbs has put into object 1.
Dim hub, item, numbers
Set hub = CreateObject("Demo.Store")
numbers = hub.Numbers
Same "the numbers of the objects", numbers(0) & " " & UBound(numbers), "1 " & (hub.Count - 1)
Set item = hub.Object(1)
Same "a long", item.Count, CLng(7)
Same "a text", item.Name, ""
Same "a CURRENCY", item.Price, CCur("2.5")
Same "a truth", item.Flag, True
Same "a property with parameters", item.Cell(5, "k"), "x"
Same "another argument", item.Cell(5, "k", 2), "second page"
Same "an element of a VARIANT", item.Any(0), "a"
Same "an element of an array", item.Grid(1), CInt(20)
Same "an element of an array with a parameter", item.Row(4, 1), CInt(50)
Set item = Nothing
Set item = GetObject("Demo.Store:1")
Same "GetObject", item.Count, CLng(7)
WScript.Echo "end"
