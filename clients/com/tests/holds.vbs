' Holds an object, without a call, until the file is there that is the first word.
Dim item
Set item = CreateObject("Demo.Store").Object(1)
item.Count = 100
WaitFor WScript.Arguments(0)
item.Count = item.Count + 1
Same "what another client has put in between counts", item.Count, CLng(102)
WScript.Echo "end"
