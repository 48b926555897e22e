' The server is killed between two calls, before the file is there that is the first word; the connection does not hang up by itself.
Dim item, count
Set item = CreateObject("Demo.Store").Object(1)
item.Count = 41
count = CLng(41)
WaitFor WScript.Arguments(0)
On Error Resume Next
If WScript.Arguments(1) = "get" Then count = item.Count Else item.Count = 41
Same "a call behind the kill", Err.Number, CLng(0)
Err.Clear
Same "what it gives", count, CLng(41)
Same "what is there", item.Count, CLng(41)
WScript.Echo "end"
