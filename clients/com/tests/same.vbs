' Stands before each script of the tests: cases are told a line each, and the last line is "end".
Option Explicit
Sub Same(what, got, want)
  If TypeName(got) = TypeName(want) And CStr(got) = CStr(want) Then
    WScript.Echo "ok   " & what
  Else
    WScript.Echo "BAD  " & what & ": " & TypeName(got) & " " & CStr(got) & ", wanted " & TypeName(want) & " " & CStr(want)
  End If
End Sub
Sub Refused(what, number, want)
  If number = want Then
    WScript.Echo "ok   " & what
  Else
    WScript.Echo "BAD  " & what & ": 0x" & Hex(number) & ", wanted 0x" & Hex(want)
  End If
End Sub
' Tells the test to go on, and waits until it has made a file.
Sub WaitFor(file)
  Dim files
  Set files = CreateObject("Scripting.FileSystemObject")
  WScript.Echo "ready"
  Do Until files.FileExists(file)
  Loop
End Sub
