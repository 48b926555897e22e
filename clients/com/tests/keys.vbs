' The keys of a property of an object: their number, and a line for each. Of an error the number, and what is told of it.
Dim hub, keys, key, part, told
Set hub = CreateObject("Demo.Store")
On Error Resume Next
keys = hub.Keys(hub.Object(CLng(WScript.Arguments(0))), WScript.Arguments(1))
If Err.Number <> 0 Then
  WScript.Echo Err.Number & " " & Err.Description
Else
  WScript.Echo UBound(keys) + 1
  For Each key In keys
    told = ""
    If IsArray(key) Then
      For Each part In key
        told = told & TypeName(part) & " " & part & ";"
      Next
    Else
      told = TypeName(key) & " " & key
    End If
    WScript.Echo told
  Next
End If
WScript.Echo "end"
