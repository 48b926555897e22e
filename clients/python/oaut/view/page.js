// @ts-check
"use strict";
/* The page of `python3 -m oaut view`. Each text of a store becomes a text node, never markup. */

/** @typedef {{type: string, text?: string, hex?: string, length?: number, null?: boolean, number?: boolean, refused?: string, bounds?: number[][], cells?: number}} Value */
/** @typedef {{name: string, type: string, optional: boolean, default?: string}} Parameter */
/** @typedef {{name: string, dispid: number, kind: string, type: string, get: boolean, put: boolean, parameters: Parameter[], interface: string, line?: number | null}} Member */
/** @typedef {Member & {value: Value}} Property */
/** @typedef {{key: string, keys: Value[], value: Value}} KeyRow */
/** @typedef {{name: string, guid: string, members: Member[], line: number | null}} Interface */
/** @typedef {{name: string, guid: string, interfaces: {name: string, default: boolean}[], count: number, line: number | null}} Coclass */
/** @typedef {{interfaces: Interface[], coclasses: Coclass[], text: string | null, write: boolean, store: string | null}} Library */

/** How often what is looked at is read again, in milliseconds, and how long a change is marked. */
const PERIOD = 500, MARKED = 2500;
/** After how long values are read again though no change was told, and how long after one they are, since keys may come later. */
const AGAIN = 30000, SETTLES = 3000;
/** How long a reading and a change may take, and after how long the page says that there is no answer. */
const READ_WITHIN = 60000, CHANGE_WITHIN = 60000, LATE = 2000;

/** The token stands behind # in the address, and leaves it: it is kept for this tab and this port alone. */
const TOKEN = (() => {
  const given = new URLSearchParams(location.hash.slice(1)).get("token");
  if (given !== null) {
    sessionStorage.setItem("token", given);
    window.history.replaceState(null, "", location.pathname);
  }
  return sessionStorage.getItem("token") ?? "";
})();
// (a new token in the address of a page that is open loads nothing by itself)
addEventListener("hashchange", () => { if (location.hash.startsWith("#token=")) location.reload(); });
/** The height of a row of the table, as the style has it, and how many columns stand at first. */
const ROW = 32, COLUMNS = 8;

/** @type {Library} */
let library = {interfaces: [], coclasses: [], text: null, write: false, store: null};
let paused = false;
/** The moment of what is shown, and the one since which a reading waits, or 0. */
let read = 0, waits = 0;
/** What reads again what is shown now. @type {() => Promise<void>} */
let again = async () => {};
/** The count of changes that was told last, null where none is told; when it changed, and when values were read. @type {number | null} */
let count = null;
let changed = 0, asked = 0;
/** Counts the views, so that an answer for one that is gone is dropped. */
let view = 0;

/** @param {string} id */
const $ = id => /** @type {HTMLElement} */ (document.getElementById(id));

/**
 * An element with its properties and what stands in it.
 * @param {string} tag @param {Object<string, any>} given @param {...(Node | string | null)} inside
 * @returns {any}
 */
function make(tag, given = {}, ...inside) {
  const made = document.createElement(tag);
  for (const [name, it] of Object.entries(given)) {
    if (name.startsWith("on")) made.addEventListener(name.slice(2), it);
    else if (name in made && name !== "role" && name !== "list") /** @type {any} */ (made)[name] = it;
    else if (it !== null && it !== undefined) made.setAttribute(name, String(it));
  }
  made.append(...inside.filter(it => it !== null).map(it => /** @type {Node | string} */ (it)));
  return made;
}

/** A name as the server compares it: A to Z are folded, and nothing else. @param {string} name */
const fold = name => name.replace(/[a-z]/g, it => it.toUpperCase());

/** A number of objects, in words. @param {number} count */
const counted = count => `${count.toLocaleString("en")} ${count === 1 ? "object" : "objects"}`;

/** @param {string} path @param {Object<string, any>} [words] @param {Object<string, string>} [body] */
async function ask(path, words = {}, body) {
  const query = new URLSearchParams(Object.entries(words).map(([name, it]) => [name, String(it)]));
  /** @type {Object<string, string>} */
  const headers = {Authorization: `Bearer ${TOKEN}`};
  if (body) headers["Content-Type"] = "application/json";
  const within = body ? CHANGE_WITHIN : READ_WITHIN;
  const ends = new AbortController(), timer = setTimeout(() => ends.abort(), within);
  let response, text;
  try {
    response = await fetch(`api/${path}?${query}`, {method: body ? "POST" : "GET", headers, body: body && JSON.stringify(body), signal: ends.signal, credentials: "omit"});
    text = await response.text();
  } catch (error) {
    throw new Error(ends.signal.aborted ? `no reply within ${within / 1000} s${body ? ": the change may have been made" : ""}` : `the page's own server does not answer: ${/** @type {Error} */ (error).message}`);
  } finally {
    clearTimeout(timer);
  }
  let found;
  try {
    found = JSON.parse(text);
  } catch {
    found = {error: text.trim() || `status ${response.status}`};
  }
  if (!response.ok) throw new Error(found.error);
  return found;
}

/** @param {string} text @param {...Node} behind */
function say(text, ...behind) {
  $("said").replaceChildren(text, ...behind);
}

/** @param {unknown} error */
function fault(error) {
  $("fault").textContent = error ? String(/** @type {Error} */ (error).message ?? error) : "";
  $("fault").hidden = !error;
}

// --- values

/** A text with the characters that would turn it around as their numbers. @param {string} it */
const visible = it => it.replace(/[\u061c\u200e\u200f\u202a-\u202e\u2066-\u2069]/g, one => `⟨U+${one.charCodeAt(0).toString(16).toUpperCase().padStart(4, "0")}⟩`);

/**
 * A value as it is shown; `whole` asks for all of a long text.
 * @param {Value} it @param {(() => Promise<Value>) | null} [whole] @returns {HTMLElement}
 */
function shown(it, whole = null) {
  if (it.refused !== undefined) return make("span", {className: "refused"}, it.refused);
  if (it.bounds) {
    const told = it.bounds.map(([count, lowest]) => lowest ? `${count} from ${lowest}` : `${count}`);
    return make("span", {}, `${told.join(" × ")} `, make("span", {className: "kind"}, it.type));
  }
  if (it.null) return make("span", {className: "none"}, it.type === "EMPTY" ? "empty" : "null");
  const made = make("span", {className: it.hex === undefined ? "text" : "text hex"}, it.hex ?? visible(it.text ?? ""));
  if (it.length === undefined) return made;
  const rest = `… ${it.length.toLocaleString("en")} ${it.hex === undefined ? "characters" : "bytes"}`;
  const more = whole ? make("button", {className: "plain", onclick: async () => {
    try {
      made.replaceWith(shown({...await whole(), length: undefined}));
      more.remove();
    } catch (error) {
      fault(error);
    }
  }}, `${rest}, show all`) : make("span", {className: "none"}, rest);
  return make("span", {}, made, " ", more);
}

/** Shows a value in a place, and marks it where it is another one than before. @param {HTMLElement} place @param {Value} it @param {(() => Promise<Value>) | null} [whole] */
function show(place, it, whole = null) {
  const told = JSON.stringify(it);
  if (place.dataset.told === told) return;
  const before = place.dataset.told ?? place.dataset.before;
  place.dataset.told = told;
  place.replaceChildren(shown(it, whole));
  place.classList.toggle("number", Boolean(it.number));
  if (before === undefined || before === told) return;
  place.classList.add("changed");
  setTimeout(() => place.classList.remove("changed"), MARKED);
}

const LINE_END = /\r\n?|\n/;

/**
 * A text as it was edited in an area, which has \n for each line end: what stands before and behind the edited part keeps
 * its bytes, and new lines end as the first one does.
 * @param {string} before @param {string} after
 */
function edited(before, after) {
  // where each character of the area's text stands in the one before
  const places = [];
  for (let at = 0; at < before.length; at++) {
    places.push(at);
    if (before[at] === "\r" && before[at + 1] === "\n") at++;
  }
  places.push(before.length);
  const shown = before.replace(/\r\n?/g, "\n");
  const most = Math.min(shown.length, after.length);
  let head = 0, tail = 0;
  while (head < most && shown[head] === after[head]) head++;
  while (tail < most - head && shown[shown.length - 1 - tail] === after[after.length - 1 - tail]) tail++;
  const middle = after.slice(head, after.length - tail).replace(/\n/g, before.match(LINE_END)?.[0] ?? "\n");
  return before.slice(0, places[head]) + middle + before.slice(places[shown.length - tail]);
}

/** @param {Parameter} it */
const parameter = it => `${it.type} ${it.name}${it.default !== undefined ? ` = ${it.default}` : it.optional ? " (may be left out)" : ""}`;

/** @param {Member} it */
const signature = it => `${it.type} ${it.name}${it.parameters.length || it.kind === "method" ? `(${it.parameters.map(parameter).join(", ")})` : ""}`;

// --- the library's tree

/** @param {string} name @param {string} about @param {() => void} open @param {Node[] | null} inside */
function branch(name, about, open, inside) {
  const item = make("li", {role: "treeitem", tabIndex: -1, "aria-selected": "false"},
    make("span", {className: "name"}, name, " ", make("span", {className: "kind"}, about)));
  item.dataset.name = fold(name);
  if (inside) {
    item.setAttribute("aria-expanded", "false");
    item.append(make("ul", {role: "group"}, ...inside));
  }
  item.addEventListener("click", (/** @type {MouseEvent} */ event) => {
    event.stopPropagation();
    if (inside) item.setAttribute("aria-expanded", String(item.getAttribute("aria-expanded") !== "true"));
    choose(item);
    open();
  });
  item.open = open;
  return item;
}

/** @param {HTMLElement} item */
function choose(item) {
  for (const it of $("tree").querySelectorAll("[role=treeitem]")) {
    /** @type {HTMLElement} */ (it).tabIndex = -1;
    it.setAttribute("aria-selected", String(it === item));
  }
  item.tabIndex = 0;
  item.focus();
}

function tree() {
  const members = (/** @type {Interface} */ face) => face.members.map(it => {
    const readonly = it.kind === "method" ? " method" : it.put ? "" : " read-only";
    const about = `${it.type}${it.parameters.length ? `(${it.parameters.map(one => one.name).join(", ")})` : ""} ${it.dispid}${readonly}`;
    const made = branch(it.name, about, () => text(it.line ?? null, face, it), null);
    made.title = `${signature(it)}, DISPID ${it.dispid}`;
    return made;
  });
  const face = (/** @type {Interface} */ it, about = "dispinterface") => branch(it.name, about, () => text(it.line, it), members(it));
  const classes = library.coclasses.map(of => {
    const own = of.interfaces.map(one => {
      const found = library.interfaces.find(it => it.name === one.name);
      return found ? face(found, one.default ? "default" : "interface") : null;
    });
    const made = branch(of.name, counted(of.count), () => objects(of), own.filter(Boolean));
    made.title = `coclass ${of.guid}`;
    return made;
  });
  const used = new Set(library.coclasses.flatMap(it => it.interfaces.map(one => one.name)));
  const alone = library.interfaces.filter(it => !used.has(it.name)).map(it => face(it));
  $("tree").replaceChildren(...classes, ...alone);
  const first = /** @type {HTMLElement | null} */ ($("tree").querySelector("[role=treeitem]"));
  if (!first) return;
  first.tabIndex = 0;
  // (of one coclass all is shown at once)
  if (classes.length === 1) for (const it of $("tree").querySelectorAll("[aria-expanded]")) it.setAttribute("aria-expanded", "true");
}

$("search").addEventListener("input", () => {
  const asked = fold(/** @type {HTMLInputElement} */ ($("search")).value.trim());
  const items = /** @type {HTMLElement[]} */ ([...$("tree").querySelectorAll("[role=treeitem]")]);
  const found = new Set(asked ? items.filter(it => (it.dataset.name ?? "").includes(asked)) : items);
  for (const it of items) {
    const inside = [...it.querySelectorAll("[role=treeitem]")].some(one => found.has(/** @type {HTMLElement} */ (one)));
    const above = it.parentElement?.closest("[role=treeitem]");
    it.hidden = !found.has(it) && !inside && !(above && found.has(/** @type {HTMLElement} */ (above)));
    if (it.hasAttribute("aria-expanded")) it.setAttribute("aria-expanded", String(Boolean(asked) && inside));
  }
  say(asked ? `${found.size} names have ${asked}` : "");
});

$("tree").addEventListener("keydown", event => {
  const items = /** @type {HTMLElement[]} */ ([...$("tree").querySelectorAll("[role=treeitem]")])
    .filter(it => it.offsetParent !== null && !it.hidden);
  const at = items.indexOf(/** @type {HTMLElement} */ (document.activeElement));
  const here = items[at];
  if (!here) return;
  const isOpen = here.getAttribute("aria-expanded");
  const above = /** @type {HTMLElement | null} */ (here.parentElement?.closest("[role=treeitem]") ?? null);
  const to = {ArrowDown: items[at + 1], ArrowUp: items[at - 1], Home: items[0], End: items[items.length - 1]}[event.key];
  if (to) choose(to);
  else if (event.key === "ArrowRight" && isOpen === "false") here.setAttribute("aria-expanded", "true");
  else if (event.key === "ArrowRight" && isOpen === "true" && items[at + 1]) choose(items[at + 1]);
  else if (event.key === "ArrowLeft" && isOpen === "true") here.setAttribute("aria-expanded", "false");
  else if (event.key === "ArrowLeft" && above) choose(above);
  else if (event.key === "Enter" || event.key === " ") /** @type {any} */ (here).open();
  else return;
  event.preventDefault();
});

// --- views

/** Begins a view: a tab is chosen, and what was shown goes. @param {string} name @param {...Node} inside */
function begin(name, ...inside) {
  view += 1;
  for (const it of ["objects", "text", "status"]) {
    $(`tab-${it}`).setAttribute("aria-selected", String(it === name));
    $(`tab-${it}`).tabIndex = it === name ? 0 : -1;
  }
  $("main").setAttribute("aria-labelledby", `tab-${name}`);
  $("main").replaceChildren(...inside);
  return view;
}

/** Has what is shown read again by a call, at once and from then on. @param {() => Promise<void>} call */
function follow(call) {
  const own = view;
  again = async () => {
    const begun = performance.now();
    waits ||= begun;
    try {
      await call();
      waits = 0;
      if (own !== view) return;
      read = performance.now();
      fault(null);
    } catch (error) {
      if (own === view) fault(error);
    }
  };
  return again();
}

/** @type {{of: Coclass, columns: string[] | null, sort: string, down: boolean, filters: Object<string, string>, top: number} | null} */
let table = null;

/** The table of a coclass's objects. @param {Coclass} of */
function objects(of) {
  const face = library.interfaces.find(it => it.name === (of.interfaces.find(one => one.default) ?? of.interfaces[0]).name);
  const members = (face?.members ?? []).filter(it => it.kind === "property" && it.get && !it.parameters.length);
  if (table?.of.guid !== of.guid) table = {of, columns: null, sort: "", down: false, filters: {}, top: 0};
  const now = table;
  const names = now.columns ??= members.slice(0, COLUMNS).map(it => it.name);
  const columns = members.filter(it => names.includes(it.name));
  const more = make("select", {"aria-label": "show or hide a column", hidden: members.length <= COLUMNS, onchange: () => {
    now.columns = names.includes(more.value) ? names.filter(it => it !== more.value) : [...names, more.value];
    objects(of);
  }}, make("option", {value: ""}, "columns .."), ...members.map(it => make("option", {value: it.name}, `${names.includes(it.name) ? "− " : "+ "}${it.name}`)));
  const sizes = `6.5rem repeat(${columns.length}, minmax(8rem, 1fr))`;
  const heading = make("h2", {tabIndex: -1}, of.name, " ", make("span", {className: "kind", id: "count"}));
  const lines = make("div", {className: "lines", role: "rowgroup"});
  let fresh = false;
  lines.style.minWidth = `calc(6.5rem + ${columns.length} * 8rem)`;
  const head = make("div", {className: "row", role: "row"});
  const filters = make("div", {className: "row", role: "row"});
  head.style.gridTemplateColumns = filters.style.gridTemplateColumns = sizes;
  head.style.minWidth = filters.style.minWidth = lines.style.minWidth;
  for (const it of [null, ...columns]) {
    const name = it?.name ?? "#";
    const cell = make("div", {role: "columnheader", "aria-sort": "none"}, make("button", {title: it ? signature(it) : "the object's number", onclick: () => {
      now.down = now.sort === name && !now.down;
      now.sort = name;
      fresh = true;
      sorted();
      again();
    }}, it?.name ?? "Object"));
    cell.dataset.name = name;
    head.append(cell);
    filters.append(make("div", {role: "gridcell"}, it ? make("input", {
      type: "search", "aria-label": `${it.name} contains, or is as in > 5`, placeholder: "text, or > 5", value: now.filters[it.name] ?? "", onchange: (/** @type {Event} */ event) => {
        now.filters[it.name] = /** @type {HTMLInputElement} */ (event.target).value;
        fresh = true;
        grid.scrollTop = 0;
        again();
      },
    }) : ""));
  }
  const sorted = () => {
    for (const it of head.children) {
      const own = it.dataset.name === now.sort;
      it.setAttribute("aria-sort", own ? now.down ? "descending" : "ascending" : "none");
      it.firstChild.textContent = `${it.dataset.name === "#" ? "Object" : it.dataset.name}${own ? now.down ? " ▾" : " ▴" : ""}`;
    }
  };
  sorted();
  const grid = make("div", {role: "grid", "aria-label": `objects of ${of.name}`, "aria-readonly": "true", tabIndex: -1},
    make("div", {className: "head", role: "rowgroup"}, head, filters), lines);
  const order = make("span", {className: "kind"});
  const anew = make("button", {hidden: true, onclick: () => { fresh = true; again(); }}, "Order anew");
  const maker = library.write ? [make("button", {id: "create", onclick: () => create(of)}, `Create ${of.name}`)] : [];
  const own = begin("objects", heading, make("div", {className: "tools"}, ...maker, more, order, anew), grid);
  /** @type {Map<number, HTMLElement>} */
  const there = new Map();
  let focus = 0, found = 0;

  async function load() {
    const from = Math.max(0, Math.floor(grid.scrollTop / ROW) - 8);
    const count = Math.ceil(grid.clientHeight / ROW) + 16;
    /** @type {Object<string, any>} */
    const words = {coclass: of.guid, from, count, columns: columns.map(it => it.name).join(",")};
    if (now.sort) Object.assign(words, {sort: now.sort, down: now.down ? 1 : 0});
    for (const [name, it] of Object.entries(now.filters)) if (it.trim()) words[`f.${name}`] = it;
    if (fresh) words.fresh = 1;
    fresh = false;
    const told = await ask("rows", words);
    if (own !== view) return;
    found = told.found;
    lines.style.height = `${found * ROW}px`;
    grid.setAttribute("aria-rowcount", String(found + 2));
    $("count").textContent = told.found === told.of ? counted(told.of) : `${told.found.toLocaleString("en")} of ${counted(told.of)}`;
    const isOrdered = Boolean(words.sort && words.sort !== "#" || Object.keys(words).some(it => it.startsWith("f.")));
    order.textContent = isOrdered ? `ordered and filtered by values of ${Math.round(told.ordered)} s ago` : "";
    anew.hidden = !isOrdered;
    const kept = new Set();
    told.rows.forEach((/** @type {{number: number, cells: Value[]}} */ it, /** @type {number} */ at) => {
      const place = told.from + at;
      kept.add(place);
      let row = there.get(place);
      if (!row || row.dataset.number !== String(it.number)) {
        row?.remove();
        row = line(place, it.number);
        there.set(place, row);
        lines.append(row);
      }
      it.cells.forEach((value, column) => show(/** @type {HTMLElement} */ (row?.children[column + 1]), value));
    });
    for (const [place, row] of there) {
      if (!kept.has(place)) {
        row.remove();
        there.delete(place);
      }
    }
    if (!document.documentElement.dataset.painted) {
      requestAnimationFrame(() => { document.documentElement.dataset.painted ||= String(Math.round(performance.now())); });
    }
  }

  /** @param {number} place @param {number} number */
  function line(place, number) {
    const row = make("div", {className: "row", role: "row", "aria-rowindex": place + 3, tabIndex: place === focus ? 0 : -1, onclick: () => object(number, of)},
      make("div", {role: "rowheader", className: "number"}, String(number)), ...columns.map(() => make("div", {role: "gridcell"})));
    row.style.gridTemplateColumns = sizes;
    row.style.top = `${place * ROW}px`;
    row.dataset.number = String(number);
    return row;
  }

  grid.addEventListener("keydown", async (/** @type {KeyboardEvent} */ event) => {
    const row = /** @type {HTMLElement} */ (event.target);
    if (!row.classList.contains("row")) return;
    if (event.key === "Enter") return object(Number(row.dataset.number), of);
    const page = Math.max(1, Math.floor(grid.clientHeight / ROW) - 4);
    const step = {ArrowDown: 1, ArrowUp: -1, PageDown: page, PageUp: -page, Home: -found, End: found}[event.key];
    if (step === undefined) return;
    event.preventDefault();
    row.tabIndex = -1;
    focus = Math.max(0, Math.min(found - 1, focus + step));
    const head = grid.firstElementChild?.clientHeight ?? 0;
    if (focus * ROW < grid.scrollTop) grid.scrollTop = focus * ROW;
    if ((focus + 1) * ROW + head > grid.scrollTop + grid.clientHeight) grid.scrollTop = (focus + 1) * ROW + head - grid.clientHeight;
    if (!there.has(focus)) await again();
    const to = there.get(focus);
    if (to) {
      to.tabIndex = 0;
      to.focus();
    }
  });
  let later = 0;
  grid.addEventListener("scroll", () => {
    now.top = grid.scrollTop;
    clearTimeout(later);
    later = setTimeout(() => again(), 30);
  });
  return follow(load).then(() => {
    if (own === view && now.top) grid.scrollTop = now.top;
  });
}

/** Puts what was typed at a place, and says so. @param {Object<string, any>} place @param {string} words */
async function put(place, words) {
  const texts = Object.fromEntries(Object.entries(place).map(([name, one]) => [name, String(one)]));
  const done = await ask("put", {}, {...texts, words});
  say(`put ${done.undo} `, make("button", {onclick: undo}, "Undo"));
  await again();
}

/** A field for a value, which Enter puts. @param {string} name @param {() => void} submit */
function field(name, submit) {
  // (a text field removes line ends from what it is given, and an area makes \n of all of them)
  const input = make("textarea", {"aria-label": name, rows: 1, spellcheck: false, autocomplete: "off"});
  input.addEventListener("keydown", (/** @type {KeyboardEvent} */ event) => {
    if (event.key !== "Enter" || event.shiftKey) return;
    event.preventDefault();
    submit();
  });
  return input;
}

/** Says beside a field why it was refused. @param {HTMLElement} told @param {HTMLElement} input @param {unknown} error */
function refuse(told, input, error) {
  told.className = "refused";
  told.textContent = /** @type {Error} */ (error).message;
  input.setAttribute("aria-invalid", "true");
}

/** A form that makes a value for new keys of a property. @param {Object<string, any>} place @param {any} it */
function keyAdder(place, it) {
  const words = it.parameters.map((/** @type {Parameter} */ one) => field(`${one.name}, ${parameter(one)}`, () => made.requestSubmit()));
  const value = field(`value of ${it.name}`, () => made.requestSubmit()), told = make("span", {role: "alert"});
  const made = make("form", {hidden: true, onsubmit: async (/** @type {Event} */ event) => {
    event.preventDefault();
    try {
      await put({...place, keys: JSON.stringify(words.map((/** @type {HTMLTextAreaElement} */ one) => one.value))}, value.value);
      told.textContent = "";
      made.hidden = true;
      await again();
    } catch (error) {
      refuse(told, value, error);
    }
  }}, ...it.parameters.flatMap((/** @type {Parameter} */ one, /** @type {number} */ at) => [make("span", {className: "kind"}, parameter(one)), words[at]]),
  make("span", {className: "kind"}, `= ${it.type}`), value, make("button", {}, "Put"), make("button", {type: "button", onclick: () => { made.hidden = true; }}, "Leave"), told);
  const open = make("button", {className: "add", "aria-label": `add a key of ${it.name}`, onclick: () => {
    made.hidden = !made.hidden;
    told.textContent = "";
    if (!made.hidden) words[0]?.focus();
  }}, "Add a key");
  return make("div", {}, open, made);
}

/** What gives an object up, once it is said twice. @param {number} number @param {Coclass} of */
function releaser(number, of) {
  const told = make("span", {role: "alert"});
  const made = make("form", {hidden: true, onsubmit: async (/** @type {Event} */ event) => {
    event.preventDefault();
    try {
      await ask("release", {}, {object: String(number)});
      // (the form stays open until the view is another one: nothing reads the object again)
      say(`${of.name} ${number} is released`);
      await refresh();
      objects(library.coclasses.find(it => it.guid === of.guid) ?? of);
    } catch (error) {
      told.className = "refused";
      told.textContent = /** @type {Error} */ (error).message;
    }
  }}, make("span", {}, `${of.name} ${number} is then gone for ever, with all its values.`), make("button", {}, "Release it"),
  make("button", {type: "button", onclick: () => { made.hidden = true; }}, "Leave"), told);
  return make("div", {className: "tools"}, make("button", {className: "release", onclick: () => { made.hidden = !made.hidden; told.textContent = ""; }}, "Release"), made);
}

/** Makes an object, and shows it. @param {Coclass} of */
async function create(of) {
  try {
    const made = await ask("create", {}, {coclass: of.guid});
    await refresh();
    say(`${made.coclass} ${made.number} is made`);
    object(made.number, of);
  } catch (error) {
    say(/** @type {Error} */ (error).message);
  }
}

/** One object with all its cells. @param {number} number @param {Coclass} of */
function object(number, of) {
  const inside = make("div", {});
  const heading = make("h2", {tabIndex: -1}, `${of.name} ${number}`);
  const own = begin("objects", make("div", {className: "tools"}, make("button", {onclick: () => objects(of)}, `◂ all of ${of.name}`)), heading, inside,
    ...(library.write ? [releaser(number, of)] : []));
  heading.focus();
  /** How many keys of each property are shown. @type {Object<string, number>} */
  const shows = {};
  /** @type {Map<string, HTMLElement>} */
  const there = new Map();
  let shape = "";

  /** @param {Member} it @param {string} [key] */
  const place = (it, key) => ({object: number, interface: it.interface, member: it.name, ...(key ? {key} : {})});

  /** The cell of a value, and the form that changes it. @param {Member} it @param {string} key */
  function cell(it, key) {
    const spot = make("div", {});
    there.set(`${it.interface}/${it.dispid}/${key}`, spot);
    const made = make("td", {className: "value"}, spot);
    if (library.write && it.put) made.append(form(it, key));
    return made;
  }

  /** @param {Member} it @param {string} key */
  function form(it, key) {
    const input = field(`new value of ${it.name}`, () => made.requestSubmit());
    let before = "";
    const told = make("span", {role: "alert"});
    const made = make("form", {hidden: true, onsubmit: async (/** @type {Event} */ event) => {
      event.preventDefault();
      try {
        const words = edited(before, input.value);
        if (words === before) {
          made.hidden = true;
          say("nothing was changed");
          return;
        }
        await put(place(it, key), words);
        told.className = "done";
        told.textContent = "";
        made.hidden = true;
        await again();
      } catch (error) {
        refuse(told, input, error);
      }
    }}, input, make("button", {}, "Put"), make("button", {type: "button", onclick: () => { made.hidden = true; }}, "Leave"), told);
    const open = make("button", {className: "plain", "aria-label": `change ${it.name}`, onclick: async () => {
      if (!made.hidden) {
        made.hidden = true;
        return;
      }
      told.textContent = "";
      input.removeAttribute("aria-invalid");
      try {
        const now = await ask("words", place(it, key));
        before = now.words;
        input.placeholder = now.exact ? "" : "these bytes are no text; a new text replaces all of them";
      } catch (error) {
        fault(error);
        return;
      }
      input.value = before;
      input.rows = Math.min(12, before.split(LINE_END).length);
      made.hidden = false;
      input.select();
    }}, "change");
    const around = document.createDocumentFragment();
    around.append(open, made);
    return around;
  }

  /** Shows what was read in its cell. @param {Member} it @param {string} key @param {Value} value */
  function fill(it, key, value) {
    const spot = there.get(`${it.interface}/${it.dispid}/${key}`);
    if (!spot) return;
    const before = spot.dataset.told;
    show(spot, value, () => ask("value", place(it, key)));
    if (value.bounds && before !== spot.dataset.told) spot.append(" ", make("button", {onclick: () => array(it, key, number, of)}, "Show cells"));
  }

  return follow(async () => {
    const told = await ask("object", {object: number});
    for (const face of told.interfaces) {
      for (const it of face.tables) {
        const more = shows[`${it.interface}/${it.dispid}`];
        if (more) Object.assign(it, await ask("keys", {...place(it), count: more}));
      }
    }
    if (own !== view) return;
    const now = JSON.stringify(told.interfaces.map((/** @type {any} */ face) => face.tables.map((/** @type {any} */ it) => [it.total, it.rows.map((/** @type {any} */ row) => row.key)])));
    if (now !== shape || !inside.firstChild) {
      shape = now;
      build(told);
    }
    for (const face of told.interfaces) {
      for (const it of face.properties) fill(it, "", it.value);
      for (const it of face.tables) for (const row of it.rows) fill(it, row.key, row.value);
    }
  });

  /** @param {any} told */
  function build(told) {
    const marks = new Map([...there].map(([name, spot]) => [name, spot.dataset.told]));
    there.clear();
    inside.replaceChildren(...told.interfaces.flatMap((/** @type {any} */ face) => [
      make("h3", {}, face.name, face.default ? make("span", {className: "kind"}, " default") : null),
      face.properties.length ? make("div", {className: "scroll"}, make("table", {},
        make("thead", {}, make("tr", {}, ...["Property", "Type", "Value"].map(it => make("th", {scope: "col"}, it)))),
        make("tbody", {}, ...face.properties.map((/** @type {Property} */ it) => make("tr", {},
          make("th", {scope: "row"}, it.name, it.put ? null : make("span", {className: "kind"}, " read-only")), make("td", {}, it.type), cell(it, "")))))) : null,
      ...face.tables.flatMap((/** @type {any} */ it) => keyed(it)),
    ].filter(Boolean)));
    for (const [name, spot] of there) {
      const mark = marks.get(name);
      if (mark !== undefined) spot.dataset.before = mark;
    }
  }

  /** A property with parameters, by its keys. @param {any} it */
  function keyed(it) {
    const name = `${it.interface}/${it.dispid}`;
    const heading = make("h3", {}, it.name, make("span", {className: "kind"}, ` ${signature(it)}`));
    const adder = library.write && it.put ? keyAdder(place(it), it) : null;
    if (!it.known) return [heading, make("p", {className: "none"}, "the keys are in the store's file, which is not known here"), adder].filter(Boolean);
    if (!it.total) return [heading, make("p", {className: "none"}, "no value was put"), adder].filter(Boolean);
    const rows = it.rows.map((/** @type {any} */ row) => make("tr", {}, ...row.keys.map((/** @type {Value} */ one) => make("th", {scope: "row"}, shown(one))), cell(it, row.key)));
    const more = it.rows.length < it.total ? make("button", {onclick: () => {
      shows[name] = Math.min(200, it.rows.length + 60);
      again();
    }}, `${it.rows.length} of ${it.total.toLocaleString("en")} keys, show more`) : null;
    return [heading, make("div", {className: "scroll"}, make("table", {},
      make("thead", {}, make("tr", {}, ...it.parameters.map((/** @type {Parameter} */ one) => make("th", {scope: "col"}, one.name)), make("th", {scope: "col"}, it.type))),
      make("tbody", {}, ...rows))), more, adder].filter(Boolean);
  }
}

/** The cells of an array. @param {Member} it @param {string} key @param {number} number @param {Coclass} of */
function array(it, key, number, of) {
  const heading = make("h2", {tabIndex: -1}, `${of.name} ${number}, ${it.name}`);
  const tools = make("div", {className: "tools"}), inside = make("div", {className: "scroll"});
  const change = library.write && it.put ? cellChange(it, {object: number, interface: it.interface, member: it.name, ...(key ? {key} : {})}) : null;
  const own = begin("objects", make("div", {className: "tools"}, make("button", {onclick: () => object(number, of)}, `◂ ${of.name} ${number}`)), heading, tools,
    ...(change ? [change.form] : []), inside);
  heading.focus();
  /** @type {{at: number[], row: number, column: number}} */
  const now = {at: [], row: 0, column: 0};
  let shape = "";
  return follow(async () => {
    const told = await ask("array", {object: number, interface: it.interface, member: it.name, key, at: now.at.join(","), row: now.row, column: now.column});
    if (own !== view) return;
    const bounds = /** @type {number[][]} */ (told.bounds);
    const [rows, columns] = bounds.length > 1 ? bounds.slice(-2) : [bounds[0], [1, 0]];
    const size = told.cells.length, width = told.cells[0]?.length ?? 0;
    const looks = JSON.stringify([bounds, told.at, told.row, told.column]);
    if (looks !== shape) {
      shape = looks;
      now.at = told.at;
      const step = (/** @type {string} */ name, /** @type {"row" | "column"} */ what, /** @type {number} */ part, /** @type {number} */ all) => part < all ? [
        make("button", {disabled: now[what] === 0, onclick: () => { now[what] = Math.max(0, now[what] - part); again(); }}, `◂ ${name}`),
        make("span", {className: "kind"}, `${now[what] + 1} to ${Math.min(all, now[what] + part)} of ${all}`),
        make("button", {disabled: now[what] + part >= all, onclick: () => { now[what] += part; again(); }}, `${name} ▸`)] : [];
      tools.replaceChildren(make("span", {className: "kind"}, `${told.type}, ${bounds.map(([count, lowest]) => `${count} from ${lowest}`).join(" × ")}`),
        ...told.at.map((/** @type {number} */ at, /** @type {number} */ place) => make("label", {}, `bound ${place + 1}: `, make("input", {
          type: "number", min: bounds[place][1], max: bounds[place][0] + bounds[place][1] - 1, value: at + bounds[place][1],
          onchange: (/** @type {Event} */ event) => { now.at[place] = Number(/** @type {HTMLInputElement} */ (event.target).value) - bounds[place][1]; again(); },
        }))), ...step("rows", "row", 200, rows[0]), ...step("columns", "column", 64, columns[0]));
      const first = bounds.length > 1 ? [...Array(width).keys()].map(at => String(at + told.column + columns[1])) : [it.name];
      inside.replaceChildren(make("table", {className: "grid"},
        make("thead", {}, make("tr", {}, make("th", {}), ...first.map(one => make("th", {scope: "col"}, one)))),
        make("tbody", {}, ...told.cells.map((/** @type {Value[]} */ line, /** @type {number} */ at) => make("tr", {}, make("th", {scope: "row"}, String(at + told.row + rows[1])), ...line.map(() => make("td", {})))))));
      if (!size) inside.replaceChildren(make("p", {className: "none"}, "the array has no cells"));
    }
    const body = inside.querySelector("tbody");
    told.cells.forEach((/** @type {Value[]} */ line, /** @type {number} */ at) => line.forEach((value, column) => show(/** @type {HTMLElement} */ (body?.rows[at].cells[column + 1]), value)));
    if (change && body) change.over(body, (/** @type {number} */ row, /** @type {number} */ column) => {
      const last = bounds.length > 1 ? [row + told.row + rows[1], column + told.column + columns[1]] : [row + told.row + rows[1]];
      return [...told.at.map((/** @type {number} */ at, /** @type {number} */ place) => at + bounds[place][1]), ...last];
    });
  });
}

/**
 * What changes a cell of an array: a click or Enter on it opens the form, arrows go from cell to cell.
 * @param {Member} it @param {Object<string, any>} place
 */
function cellChange(it, place) {
  let cell = "", before = "";
  /** @type {HTMLElement | null} */
  let opener = null;
  const name = make("span", {className: "kind"}), told = make("span", {role: "alert"});
  const input = field("new value of the cell", () => form.requestSubmit());
  const leave = () => {
    form.hidden = true;
    opener?.focus();
  };
  const form = make("form", {hidden: true, className: "cell", onsubmit: async (/** @type {Event} */ event) => {
    event.preventDefault();
    try {
      const words = edited(before, input.value);
      if (words === before) say("nothing was changed");
      else await put({...place, cell}, words);
      leave();
      await again();
    } catch (error) {
      refuse(told, input, error);
    }
  }}, name, input, make("button", {}, "Put"), make("button", {type: "button", onclick: leave}, "Leave"), told);

  /** @param {HTMLTableSectionElement} body @param {(row: number, column: number) => number[]} indices */
  function over(body, indices) {
    if (body.dataset.changes) return;
    body.dataset.changes = "1";
    /** @param {EventTarget | null} target */
    const at = target => /** @type {HTMLTableCellElement | null} */ (/** @type {HTMLElement} */ (target).closest?.("td") ?? null);
    /** @param {HTMLTableCellElement} spot */
    const open = async spot => {
      cell = indices(/** @type {HTMLTableRowElement} */ (spot.parentElement).sectionRowIndex, spot.cellIndex - 1).join(",");
      opener = spot;
      told.textContent = "";
      input.removeAttribute("aria-invalid");
      try {
        const now = await ask("words", {...place, cell});
        before = now.words;
        input.placeholder = now.exact ? "" : "these bytes are no text; a new text replaces all of them";
      } catch (error) {
        fault(error);
        return;
      }
      name.textContent = `${it.name}[${cell}]`;
      input.value = before;
      input.rows = Math.min(12, before.split(LINE_END).length);
      form.hidden = false;
      input.focus();
      input.select();
    };
    for (const spot of body.querySelectorAll("td")) spot.tabIndex = -1;
    const first = body.querySelector("td");
    if (first) first.tabIndex = 0;
    body.addEventListener("click", event => {
      const spot = at(event.target);
      if (spot) open(spot);
    });
    body.addEventListener("keydown", event => {
      const spot = at(event.target);
      if (!spot) return;
      const row = /** @type {HTMLTableRowElement} */ (spot.parentElement), rows = body.rows;
      const to = {ArrowRight: spot.nextElementSibling, ArrowLeft: spot.previousElementSibling,
        ArrowDown: rows[row.sectionRowIndex + 1]?.cells[spot.cellIndex], ArrowUp: rows[row.sectionRowIndex - 1]?.cells[spot.cellIndex]}[event.key];
      if (event.key === "Enter") open(spot);
      else if (to instanceof HTMLTableCellElement && to.tagName === "TD") {
        spot.tabIndex = -1;
        to.tabIndex = 0;
        to.focus();
      } else return;
      event.preventDefault();
    });
  }
  return {form, over};
}

/** The library's text, or a member's words where the text is not known. @param {number | null} [line] @param {Interface} [face] @param {Member} [member] */
function text(line = null, face, member) {
  const lines = (library.text ?? "").split("\n").map((it, at) => make("span", {className: at === line ? "at" : "", id: `line-${at}`}, it));
  const about = member ? make("p", {}, signature(member), make("span", {className: "kind"}, ` DISPID ${member.dispid} of ${face?.name}, ${member.kind}${member.kind === "property" && !member.put ? ", read-only" : ""}`)) : null;
  const inside = [make("h2", {tabIndex: -1}, "Library"), about,
    library.write ? another() : null,
    library.text === null ? make("p", {className: "none"}, "its text is in the store's file, which is not known here") : make("pre", {tabIndex: 0, "aria-label": "canonical text"}, ...lines)];
  begin("text", ...inside.filter(it => it !== null).map(it => /** @type {Node} */ (it)));
  again = async () => { read = performance.now(); };
  again();
  if (line !== null) lines[line]?.scrollIntoView({block: "center"});
}

/** What gives the server another library: what would be lost is listed before. */
function another() {
  const told = make("div", {role: "status"});
  const file = make("input", {type: "file", id: "another", accept: ".idl", onchange: async () => {
    if (!file.files?.[0]) return;
    const given = await file.files[0].text();
    try {
      const lost = (await ask("compare", {}, {text: given})).lost;
      told.replaceChildren(lost.length ? make("div", {className: "refused"}, "It would lose:", make("ul", {}, ...lost.map((/** @type {string} */ it) => make("li", {}, it))))
        : make("button", {onclick: async () => {
          try {
            await ask("replace", {}, {text: given});
            say("the library was replaced");
            await refresh();
            text();
          } catch (error) {
            told.replaceChildren(make("span", {className: "refused"}, /** @type {Error} */ (error).message));
          }
        }}, "Nothing is lost: replace the library"));
    } catch (error) {
      told.replaceChildren(make("span", {className: "refused"}, /** @type {Error} */ (error).message));
    }
  }});
  return make("div", {className: "tools"}, make("label", {htmlFor: "another"}, "Another library"), file, told);
}

async function undo() {
  try {
    const done = await ask("undo", {}, {});
    say(`taken back: object ${done.object}, ${done.member}`);
    await again();
  } catch (error) {
    say(/** @type {Error} */ (error).message);
  }
}

/** What was told of a gateway, moment by moment. @type {{at: number, told: Object<string, number>}[]} */
const history = [];

/** How the store and the gateway do. */
function status() {
  const inside = make("div", {});
  const own = begin("status", make("h2", {tabIndex: -1}, "How it runs"), inside);
  return follow(async () => {
    const told = await ask("status");
    if (own !== view) return;
    const size = (/** @type {number} */ it) => `${it.toLocaleString("en")} bytes`;
    const words = "format" in told ? [["Format of the file", told.format], ["Library", told.library],
      ["Room left in the bank", `${size(told.room)} of ${size(told.bank_size)}`], ["Next checkpoint", `after ${size(told.checkpoint)} more`],
      ["Groups since the last one", `${told.groups.toLocaleString("en")}, of ${size(told.groups_size)}`], ["Objects at that time", size(told.snapshot_size)]] : [];
    const list = make("dl", {}, ...words.flatMap(([name, it]) => [make("dt", {}, String(name)), make("dd", {}, String(it))]));
    if (!words.length) list.append(make("dt", {}, "Store"), make("dd", {className: "none"}, "its file is not known here"));
    const charts = make("div", {className: "charts"});
    if (told.gateway?.error) charts.append(make("p", {className: "refused"}, told.gateway.error));
    else if (told.gateway) {
      history.push({at: performance.now(), told: told.gateway});
      while (history.length > 600) history.shift();
      charts.append(...figures());
    }
    inside.replaceChildren(list, charts);
  });
}

/** Of the counters of two moments what a chart shows. @typedef {(now: Object<string, number>, before: Object<string, number>, seconds: number) => number} Figure */

/** @param {string} name @returns {Figure} */
const level = name => now => now[name] ?? 0;
/** @param {string} name @returns {Figure} */
const rate = name => (now, before, seconds) => Math.max(0, (now[name] ?? 0) - (before[name] ?? 0)) / seconds;
/** The middle of what was seen between two moments. @param {string} name @param {number} [times] @returns {Figure} */
const middle = (name, times = 1) => (now, before) => {
  const count = (now[`${name}_count`] ?? 0) - (before[`${name}_count`] ?? 0);
  return count > 0 ? ((now[`${name}_sum`] ?? 0) - (before[`${name}_sum`] ?? 0)) / count * times : 0;
};

/** @type {[string, Figure][]} */
const CHARTS = [
  ["requests a second", rate("requests_total")], ["requests in a group", middle("batch_requests")],
  ["a group takes, ms", middle("commit_seconds", 1000)], ["a client waits, ms", middle("wait_seconds", 1000)],
  ["clients", level("clients")], ["clients that wait", level("clients_waiting")], ["locks", level("locks")],
  ["bytes a second, in", rate("received_bytes_total")], ["bytes a second, out", rate("sent_bytes_total")],
];

/** The charts of what a gateway has told over the last minutes, and of each code that it refused with. */
function figures() {
  const last = history[history.length - 1].told;
  const refused = Object.keys(last).filter(it => it.startsWith("refused ")).map(it => /** @type {[string, Figure]} */ ([`${it}, a second`, rate(it)]));
  return [...CHARTS, ...refused].map(([name, of]) => {
    const all = history.slice(1).map(({at, told}, place) => of(told, history[place].told, Math.max(.001, (at - history[place].at) / 1000)));
    if (!all.length) all.push(0);
    const most = Math.max(1e-9, ...all);
    const path = document.createElementNS("http://www.w3.org/2000/svg", "path");
    path.setAttribute("d", all.map((it, at) => `${at ? "L" : "M"}${(at / Math.max(1, all.length - 1) * 100).toFixed(2)} ${(30 - it / most * 28).toFixed(2)}`).join(""));
    const drawn = document.createElementNS("http://www.w3.org/2000/svg", "svg");
    drawn.setAttribute("viewBox", "0 0 100 31");
    drawn.setAttribute("preserveAspectRatio", "none");
    drawn.setAttribute("role", "img");
    const told = all[all.length - 1].toLocaleString("en", {maximumSignificantDigits: 4});
    drawn.setAttribute("aria-label", `${name}: now ${told}, at most ${most.toLocaleString("en", {maximumSignificantDigits: 4})}`);
    drawn.append(path);
    return make("figure", {}, make("figcaption", {}, make("span", {}, name), make("b", {}, told)), drawn);
  });
}

// --- the page

async function refresh() {
  library = await ask("library");
  $("store").textContent = library.store ?? "";
  document.title = library.store ? `${library.store} · oaut` : "oaut";
  tree();
}

const tabs = {objects: () => { const of = table?.of ?? library.coclasses.find(it => it.count) ?? library.coclasses[0]; if (of) objects(of); }, text: () => text(), status: () => status()};
for (const [name, open] of Object.entries(tabs)) $(`tab-${name}`).addEventListener("click", open);
$("tabs").addEventListener("keydown", event => {
  const names = Object.keys(tabs), at = names.findIndex(it => $(`tab-${it}`) === document.activeElement);
  const to = {ArrowRight: at + 1, ArrowLeft: at - 1, Home: 0, End: names.length - 1}[event.key];
  if (to === undefined) return;
  event.preventDefault();
  const tab = $(`tab-${names[(to + names.length) % names.length]}`);
  tab.focus();
  tab.click();
});
$("pause").addEventListener("click", () => {
  paused = !paused;
  $("pause").setAttribute("aria-pressed", String(paused));
  $("pause").textContent = paused ? "Go on" : "Pause";
});

/** Whether there may be something new. Where changes are told, that is after one; what is shown is as new as the answer. */
async function news() {
  if ($("tab-status").getAttribute("aria-selected") === "true" || waits) return true;
  const before = count, now = performance.now();
  try {
    count = (await ask("wait", {after: before ?? ""})).count;
  } catch {
    count = null;
  }
  if (count === null || count !== before) changed = performance.now();
  if (now - changed < SETTLES || now - asked > AGAIN) return true;
  read = performance.now();
  return false;
}

/** Nothing is asked for while nobody looks. */
async function live() {
  for (;;) {
    await new Promise(go => setTimeout(go, PERIOD));
    if (document.hidden || paused || document.querySelector("form:not([hidden])") || !await news()) continue;
    asked = performance.now();
    await again();
  }
}

// by itself, since an answer may be long in coming
setInterval(() => {
  const now = performance.now(), age = (now - read) / 1000;
  const late = waits && now - waits > LATE && now - read > LATE;
  const since = new Date(Date.now() - (now - (read || waits))).toLocaleTimeString();
  $("age").textContent = late ? `no reply since ${since}` : read ? `read ${age < 10 ? age.toFixed(1) : Math.round(age)} s ago` : "not read yet";
  $("age").classList.toggle("refused", Boolean(late));
}, 200);

refresh().then(() => { tabs.objects(); live(); }, error => { fault(error); live(); });
