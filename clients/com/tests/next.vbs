' A client that comes second, while another one has put the number that is the first word.
Dim item
Set item = CreateObject("Demo.Store").Object(1)
item.Count = item.Count + 1
Same "it has its turn", item.Count, CLng(WScript.Arguments(0)) + 1
WScript.Echo "end"
