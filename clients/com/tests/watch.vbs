' Waits for changes, of the hub or of a coclass: a line for each wait. Of an error the number, and what is told of it.
Dim hub, times, i, given, got
Set hub = CreateObject("Demo.Store")
If WScript.Arguments(0) <> "" Then Set hub = hub.Objects(WScript.Arguments(0))
times = Split(WScript.Arguments(1), ",")
On Error Resume Next
For i = 0 To UBound(times)
  given = times(i)
  If IsNumeric(given) Then given = CDbl(given)
  got = hub.WaitForChange(given)
  If Err.Number <> 0 Then
    WScript.Echo Err.Number & " " & Err.Description
  Else
    WScript.Echo TypeName(got) & " " & got
  End If
  Err.Clear
Next
WScript.Echo "end"
