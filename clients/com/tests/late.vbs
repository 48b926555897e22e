' The server is stopped before the file is there, and goes on behind the time for a reply.
Dim item
Set item = CreateObject("Demo.Store").Object(1)
WaitFor WScript.Arguments(0)
On Error Resume Next
item.Count = 44
Refused "a put whose reply is late", Err.Number, &H8001011F
WScript.Echo "end"
