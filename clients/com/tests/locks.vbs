' Holds a lock until the file is there that is the first word.
Dim hub, item
Set hub = CreateObject("Demo.Store")
Set item = hub.Object(1)
Same "the first lock", hub.Lock(item, "Grid"), CLng(1)
WaitFor WScript.Arguments(0)
Same "it is there yet", hub.Lock(item, "Grid"), CLng(2)
Same "it goes", hub.Unlock(item, "Grid"), CLng(1)
Same "and the first one", hub.Unlock(item, "Grid"), CLng(0)
item.Count = 7
WScript.Echo "end"
