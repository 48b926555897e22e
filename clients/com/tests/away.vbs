' There is no server.
Dim hub, item, count
Set hub = CreateObject("Demo.Store")
On Error Resume Next
count = hub.Count
Refused "a server that is not there is 462", Err.Number, 462
Same "the description says where it should be, and why it is not reached", InStr(Err.Description, "127.0.0.1:") > 0 And InStr(Err.Description, "connection refused") > 0, True
Err.Clear
Set item = CreateObject("Demo.Item")
Refused "CreateObject tells 429 whatever is wrong", Err.Number, 429
WScript.Echo "end"
