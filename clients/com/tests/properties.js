// The same in short from JScript, with what VBScript cannot say.
function same(what, got, want) {
  var well = typeof got == typeof want && got === want;
  WScript.Echo((well ? "ok   " : "BAD  ") + what + (well ? "" : ": " + typeof got + " " + escape(got) + ", wanted " + want));
}
// The number of VBScript's, in 0x800A0000, where the engines have one for the code.
function refused(what, call, want) {
  var number = 0;
  try { call(); } catch (e) { number = e.number; }
  same(what, (number < 0 ? number + 4294967296 : number).toString(16), want);
}
var hub = new ActiveXObject("Demo.Store"), item = new ActiveXObject("Demo.Item");
item.Count = 8;
same("a long", item.Count, 8);
item.Name = "Gr\u00fc\u00dfe \u2603 \ud83d\ude00";
same("a text", item.Name, "Gr\u00fc\u00dfe \u2603 \ud83d\ude00");
item.Flag = true;
same("a truth", item.Flag, true);
item.Any = null;
same("a VARIANT, null", item.Any, null);
item.Any = undefined;
same("a VARIANT, undefined", item.Any, undefined);
item.Any = "12";
same("a VARIANT, a text", item.Any, "12");
item.Large = 5;
same("an unsigned hyper", item.Large, 5);
item.Cell(5, "k") = "x";
same("a property with parameters", item.Cell(5, "k"), "x");
same("another argument", item.Cell(5, "k", 2), "");
same("a CURRENCY", (item.Price = 2, Number(item.Price)), 2);
item.Grid = (function () { var first = hub.Object(1); return first.Grid; })();
same("an array of another object", new VBArray(item.Grid).toArray().join(), "1,20,3");
same("an element", item.Grid(1), 20);
item.Grid(1) = 21;
same("an element that was put", item.Grid(1), 21);
item.Large = 3000000000;
same("3000000000, a double here", Number(item.Large), 3000000000);
item.Price = 0.25;
same("a fraction for a CURRENCY", Number(item.Price), 0.25);
refused("a fraction for a long", function () { item.Count = 2.5; }, "800a01ca");
refused("3000000000 for a long", function () { item.Count = 3000000000; }, "800a0006");
refused("a text for a long", function () { item.Count = "12"; }, "800a000d");
refused("a JScript array, an object", function () { item.Any = [1, 2]; }, "800a01ca");
refused("an index out of its bound", function () { return item.Grid(9); }, "800a0009");
refused("a method", function () { item.Clear(); }, "800a01bd");
refused("a readonly one", function () { item.Version = 5; }, "800a01b6");
refused("an object that is not there", function () { return hub.Object(999); }, "80010108");
var told = "";
try { item.Count = "12"; } catch (e) { told = e.message; }
same("what is told of a refusal", told, "Demo.Item " + hub.NumberOf(item) + ", Count: the value is of another type: the new value is declared long and given as BSTR (DISP_E_TYPEMISMATCH, 0x80020005)");
var count = 0;
for (var each = new Enumerator(hub); !each.atEnd(); each.moveNext()) count++;
same("an Enumerator over the hub", count, hub.Count);
same("an object by its place", hub.NumberOf(hub(hub.Count)), hub.NumberOf(item));
same("a name that is not there", item.Nowhere, undefined);
same("its number", hub.NumberOf(item), hub.Count);
WScript.Echo("end");
