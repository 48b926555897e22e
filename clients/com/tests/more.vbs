' Another server is there behind the wait, whose library has members more.
Dim item
Set item = CreateObject("Demo.Store").Object(1)
item.Grid = Array(1, 2)
Same "an element", item.Grid(1), CInt(2)
On Error Resume Next
item.Later(1) = 5
Refused "a member that is not there yet is 438", Err.Number, 438
Err.Clear
On Error Goto 0
WaitFor WScript.Arguments(0)
item.Later = Array(3, 4)
Same "an element of a new member", item.Later(1), CInt(4)
item.More(2) = Array(5, 6)
Same "an element of a new member with a parameter", item.More(2, 1), CInt(6)
Same "an old member", item.Count, CLng(0)
WScript.Echo "end"
