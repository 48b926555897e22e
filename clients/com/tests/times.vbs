' How long the hub's calls take, in milliseconds each: hub.Object(n), hub(i) and hub.Count of loops over many objects.
Dim hub, item, count, i, begun, turn
Const CALLS = 2000
Set hub = CreateObject("Demo.Store")
count = hub.Count
For turn = 1 To 3
  begun = Timer
  For i = 1 To CALLS
    Set item = hub.Object(1 + (CLng(i) * 7919) Mod count)
  Next
  Tell "hub.Object(n)"
  begun = Timer
  For i = 1 To CALLS
    Set item = hub(1 + (CLng(i) * 7919) Mod count)
  Next
  Tell "hub(i)"
  begun = Timer
  For i = 1 To CALLS
    If hub.Count <> count Then WScript.Echo "another count"
  Next
  Tell "hub.Count"
Next
WScript.Echo "end"
Sub Tell(what)
  WScript.Echo what & " " & CStr(Int((Timer - begun) * 1000000 / CALLS)) & " microseconds, of " & count & " objects"
End Sub
