' A counter sheet: adds to a cell, and prints the column. What it has put is there after a stop of the server.
'
'     cscript //nologo sheet.vbs ROW COLUMN NUMBER
'
' The server serves example/sheet.idl, and is registered by regsvr32 /n /i:Desk@HOST:PORT oautcom.dll, or by sheet.reg.
Option Explicit
Dim hub, sheets, sheet, row, column, name, total

row = WScript.Arguments(0)
column = WScript.Arguments(1)

' the first sheet that is there; CreateObject makes one more at each run
Set hub = CreateObject("Desk.Store")
Set sheets = hub.Objects("Sheet")
If sheets.Count = 0 Then
  Set sheet = CreateObject("Desk.Sheet")
Else
  Set sheet = sheets(1)
End If

' a new row: the array grows by one text, as by ReDim Preserve
If Not Has(sheet.Rows, row) Then
  hub.Redim sheet, "Rows", UBound(sheet.Rows) + 2
  sheet.Rows(UBound(sheet.Rows)) = row
End If

sheet.Cell(row, column) = sheet.Cell(row, column) + CLng(WScript.Arguments(2))

For Each name In sheet.Rows
  WScript.Echo name & ": " & sheet.Cell(name, column)
  total = total + sheet.Cell(name, column)
Next
WScript.Echo "total: " & total

Function Has(names, wanted)
  Dim it
  Has = False
  For Each it In names
    If it = wanted Then Has = True
  Next
End Function
