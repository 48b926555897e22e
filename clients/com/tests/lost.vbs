' The server is stopped before the file is there, and killed while it has a put: it is there or not.
Dim item, count
Set item = CreateObject("Demo.Store").Object(1)
item.Count = 41
WaitFor WScript.Arguments(0)
On Error Resume Next
item.Count = 42
Refused "a put that has no reply", Err.Number, &H80010006
Same "the description says which server ended the connection", InStr(Err.Description, "127.0.0.1:") > 0 And InStr(Err.Description, ": the server ") > 0, True
Err.Clear
count = item.Count
Same "a get behind it", Err.Number, CLng(0)
Same "the put was done or not", count = 41 Or count = 42, True
item.Count = 43
Same "a put behind it", item.Count, CLng(43)
WScript.Echo "end"
