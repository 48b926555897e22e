' The server is killed while the script has a lock, before the file is there that is the first word: the lock has ended, and a script that goes on
' as if it had it is told before anything is put.
Dim hub, item
Set hub = CreateObject("Demo.Store")
Set item = hub.Object(1)
item.Count = 41
Same "a lock", hub.Lock(item, "Grid"), CLng(1)
WaitFor WScript.Arguments(0)
On Error Resume Next
If WScript.Arguments(1) = "get" Then item.Count = item.Count + 1
If WScript.Arguments(1) = "put" Then item.Count = 42
If WScript.Arguments(1) = "element" Then item.Grid(0) = 42
Same "the call behind the kill", Hex(Err.Number), "80010006"
Err.Clear
Same "nothing is put", item.Count & " " & item.Grid(0), "41 1"
Same "the next one is well", Err.Number, CLng(0)
Same "the lock is free", hub.Lock(item, "Grid"), CLng(1)
WScript.Echo "end"
