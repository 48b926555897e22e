' The server is gone before the file is there that is the first word, and no name of a member was asked for before. It comes back later.
Dim item, i
Set item = CreateObject("Demo.Store").Object(1)
WaitFor WScript.Arguments(0)
On Error Resume Next
item.Name = "x"
Refused "a put by a name that nobody can be asked for is 462", Err.Number, 462
Same "its description has the member", InStr(Err.Description, "Demo.Item 1, Name: ") > 0, True
Same "and where the server should be, and why it is not reached", InStr(Err.Description, "connection refused") > 0, True
WScript.Echo "refused"
For i = 1 To 3000
  Err.Clear
  item.Name = "y"
  If Err.Number = 0 Then Exit For
  WScript.Sleep 100
Next
Same "it is put once the server is there again", Err.Number, CLng(0)
Same "under its own name", item.Name, "y"
Err.Clear
item.Nothing_of_this_name = 1
Refused "a name that is none is 438 as before", Err.Number, 438
WScript.Echo "end"
