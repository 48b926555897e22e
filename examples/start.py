import oaut

with oaut.open("items.store", "items.idl") as server:
    item = server.create("Item")
    item.Count = 7
    item.Cell[2026, "supplier"] = "Two Rivers"
    item.Grid = [[1, 2, 3], [4, 5, 6]]

with oaut.open("items.store") as server:  # another server opens the same file
    item = server.objects()[0]
    print(item, item.Count, item.Cell[2026, "supplier"], item.Grid[1, 2], list(item.Grid))
    try:
        item.Count = "many"
    except oaut.TypeMismatch as refusal:
        print(refusal)
