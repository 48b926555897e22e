' The hub of a store whose list of objects is longer than any other reply. A lock shows that the connection stays.
Dim hub, item, count, it, seen
count = CLng(WScript.Arguments(0))
Set hub = CreateObject("Demo.Store")
Set item = hub.Object(1)
Same "a lock", hub.Lock(item, "Grid"), CLng(1)
Same "their count", hub.Count, count
Same "the last one", hub.NumberOf(hub(count)), count
Same "their numbers", UBound(hub.Numbers), count - 1
For Each it In hub
  seen = seen + hub.NumberOf(it)
  If seen = 3 Then Exit For
Next
Same "a loop", seen, CLng(3)
Same "those of a class", hub.Objects("Item").Count, count
Same "the lock is there", hub.Unlock(item, "Grid"), CLng(0)
WScript.Echo "end"
