' Another server is there behind the wait, in whose library the DISPIDs are other members'.
Dim hub, item
Set hub = CreateObject("Demo.Store")
Set item = hub.Object(1)
item.Count = 41
WaitFor WScript.Arguments(0)
On Error Resume Next
item.Count = 42
Refused "a put is RPC_S_UNKNOWN_IF", Err.Number, &H800706B5
Same "its description", Err.Description, "Demo.Item 1, Count: the server has another library now; nothing was sent: make the object again (RPC_S_UNKNOWN_IF, 0x800706B5)"
Err.Clear
hub.Remove item
Refused "the object is not removed", Err.Number, &H800706B5
Err.Clear
hub.Redim item, "Grid", 2
Refused "nor is its array changed", Err.Number, &H800706B5
On Error Goto 0
Same "the hub is there as before", hub.Count, CLng(1)
Set item = hub.Object(1)
item.Count = 43
Same "and gives the object anew", item.Count, CLng(43)
Same "with its other member", item.Other, CLng(5)
WScript.Echo "end"
