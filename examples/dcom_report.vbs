' cscript //nologo dcom_report.vbs NAME HOST: what of DCOM works between this machine and oaut-dcom with examples/full.idl. It leaves no object.
Option Explicit
Dim name, host, file, hub, item, it, number
name = WScript.Arguments(0): host = WScript.Arguments(1)
Set file = CreateObject("Scripting.FileSystemObject").CreateTextFile("dcom_report.txt", True)
On Error Resume Next
Sub Tell(what, well)
  Dim line
  line = what & ": " & well
  If Err.Number <> 0 Then line = line & " (" & Hex(Err.Number) & " " & Err.Source & ": " & Err.Description & ")"
  file.WriteLine line: WScript.Echo line: Err.Clear
End Sub
Set hub = CreateObject(name & ".Store", host): Tell "the hub", IsObject(hub)
Set item = CreateObject(name & ".Item", host): Tell "an object", IsObject(item)
item.Count = 7: Tell "a long", item.Count = 7
item.Name = "H" & ChrW(228) & "user": Tell "a text", item.Name = "H" & ChrW(228) & "user"
item.Name = "": Tell "an empty text", item.Name = ""
item.Price = CCur("19.99"): Tell "a CURRENCY", item.Price = CCur("19.99")
item.Price = 19.99: Tell "a double, with --script", item.Price = CCur("19.99")
item.Flag = True: Tell "a truth value", item.Flag = True
item.Grid = Array(1, 2, 3): Tell "an array", item.Grid(1) = 2
item.Any = Array("one", Empty, 5): Tell "an array of Variant", item.Any(0) = "one" And item.Any(2) = 5
item.Cell(5, "k") = "tea": Tell "parameters", item.Cell(5, "k") = "tea"
item.Count = "x": Tell "a refused put (an error is right)", False
number = hub.NumberOf(item): Tell "hub.NumberOf", number > 0
it = 0: For Each it In hub: number = number: Next: Tell "For Each", IsObject(it)
Tell "TypeName", TypeName(item)
hub.Release item: Tell "hub.Release", True
number = item.Count: Tell "a released object (an error is right)", False
file.Close
