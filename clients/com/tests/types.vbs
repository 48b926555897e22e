' The server ends while it tells of its library, before the first element is asked for.
Dim item
Set item = CreateObject("Demo.Store").Object(1)
Same "an element, once all types are read", item.Grid(1), CInt(2)
item.Grid(1) = 7
Same "an element that was put", item.Grid(1), CInt(7)
WScript.Echo "end"
