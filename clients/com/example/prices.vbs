' What the marks of each counter sheet are worth. A column's price is kept in the sheet's second interface.
'
'     cscript //nologo prices.vbs COLUMN MARKS MONEY
'
' where so many marks cost so much: "tea 4 1" makes 0.25 the price of one. Run sheet.vbs first, which makes the sheet.
Option Explicit
Dim hub, sheet, prices, column, price, name, marks

column = WScript.Arguments(0)
price = CDbl(WScript.Arguments(2)) / CDbl(WScript.Arguments(1)) ' a double, as any quotient is

Set hub = CreateObject("Desk.Store")
For Each sheet In hub.Objects("Sheet")
  ' a script sees an object as one interface at a time: this is the one that has prices
  Set prices = hub.InterfaceOf(sheet, "DPrices")

  ' 0.25 is a CURRENCY exactly, and is put as that; 1 / 3 is none, and the refusal says so
  If Not IsPut(prices, column, price) Then
    price = CCur(price)
    WScript.Echo "rounded to " & price
    IsPut prices, column, price
  End If

  marks = 0
  For Each name In sheet.Rows
    marks = marks + sheet.Cell(name, column)
  Next
  WScript.Echo hub.ClassOf(sheet) & " " & hub.NumberOf(sheet) & ": " & marks & " marks, " & marks * prices.Price(column)
Next

Function IsPut(prices, column, price)
  On Error Resume Next
  prices.Price(column) = price
  IsPut = Err.Number = 0
  If Err.Number <> 0 Then WScript.Echo Err.Number & ": " & Err.Description
End Function
