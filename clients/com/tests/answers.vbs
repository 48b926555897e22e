' Each code that a server may answer: it answers a put of N with the code at that place of a table. Err.Description is what docs/guide/com.md says of it.
Dim item, i
Set item = CreateObject("Demo.Item")
On Error Resume Next
For i = 0 To WScript.Arguments(0) - 1
  Err.Clear
  item.Count = CLng(i)
  WScript.Echo Err.Number & "|" & Err.Source & "|" & Err.Description
Next
WScript.Echo "end"
