' Puts numbers that rise from the third word on while its server is killed: each line is a put that was done, or an error. It ends once there is a file.
Dim hub, item, files, number, stop_file, i, key, seen
number = CLng(WScript.Arguments(0))
stop_file = WScript.Arguments(1)
i = CLng(WScript.Arguments(2))
Set files = CreateObject("Scripting.FileSystemObject")
Set hub = CreateObject("Demo.Store")
On Error Resume Next
Do
  Err.Clear
  Set item = hub.Object(number)
  If Err.Number = 0 Then Exit Do
  WScript.Echo "error get " & Err.Number & " " & Err.Description
Loop
Do Until files.FileExists(stop_file)
  i = i + 1
  key = "key " & (i Mod 20)
  Err.Clear
  item.Cell(1, key) = CStr(i)
  If Err.Number = 0 Then
    WScript.Echo "put " & key & ": " & i
  Else
    WScript.Echo "error put " & Err.Number & " " & Err.Description
    WScript.Echo "tried " & key & ": " & i
  End If
  Err.Clear
  seen = item.Cell(1, key)
  If Err.Number = 0 Then
    WScript.Echo "got " & key & ": " & seen
  Else
    WScript.Echo "error get " & Err.Number & " " & Err.Description
  End If
Loop
WScript.Echo "end"
