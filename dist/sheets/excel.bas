' Puts the cells A1:C5 of the sheet "Range" into a store, and reads them back into E1:G5.
' Written after the documentation of Excel and VBA; it was not run in Excel.
Option Explicit

' The first table of the store; one is made if there is none.
Private Function FirstTable() As Object
    Dim hub As Object, tables As Object
    Set hub = CreateObject("Desk.Store")
    Set tables = hub.Objects("Table")
    If tables.Count = 0 Then
        Set FirstTable = CreateObject("Desk.Table")
    Else
        Set FirstTable = tables.Item(1)
    End If
End Function

Public Sub PutRange()
    Dim table As Object
    On Error GoTo Failed
    Set table = FirstTable()
    ' Value2 has a date as its number: the store has no dates
    table.Cells = ThisWorkbook.Worksheets("Range").Range("A1:C5").Value2
    MsgBox "The range is in the store.", vbInformation, "oaut"
    Exit Sub
Failed:
    MsgBox "The range was not put: " & Err.Description, vbExclamation, "oaut, error " & Err.Number
End Sub

Public Sub GetRange()
    Dim table As Object, found As Variant, rows As Long, columns As Long
    On Error GoTo Failed
    Set table = FirstTable()
    found = table.Cells
    rows = UBound(found, 1) - LBound(found, 1) + 1
    columns = UBound(found, 2) - LBound(found, 2) + 1
    ThisWorkbook.Worksheets("Range").Range("E1").Resize(rows, columns).Value = found
    MsgBox rows & " rows and " & columns & " columns were read.", vbInformation, "oaut"
    Exit Sub
Failed:
    MsgBox "The range was not read: " & Err.Description, vbExclamation, "oaut, error " & Err.Number
End Sub
