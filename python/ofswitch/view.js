// Shows what the element `data` has, which view.py writes: the rows of an event file with their notes, the changes of the tables,
// and where a frame goes. All text is put into the page as text, never as markup.
const byId = (id) => document.getElementById(id);

// deflated, in base64: JSON, and after it the rows with their notes, each after an empty line
function unpacked(text) {
  const letters = atob(text), bytes = new Uint8Array(letters.length);
  for (let at = 0; at < bytes.length; at++) bytes[at] = letters.charCodeAt(at);
  return new Response(new Blob([bytes]).stream().pipeThrough(new DecompressionStream("deflate"))).text();
}
const [head, ...rows] = (await unpacked(byId("data").textContent)).split("\n\n");
const data = JSON.parse(head);
const { lines, entries, changes } = data;
// the steps of the frame, and those of them with which something else leaves than before
const ways = data.frame ? data.frame.ways : [], fates = ways.filter((it) => it.differs);

// the lanes of the line of time, the first three of which are also kinds of rows
const LANES = { controller: "controller", ports: "ports", frames: "frames", removed: "FLOW_REMOVED", frame: "the frame's fate" };
if (!data.frame) delete LANES.frame;
const KINDS = ["controller", "ports", "frames", "time", "comments"];
// by the first letter of a row, such as that of `connect` and `c`
const KIND_OF = { c: "controller", l: "controller", f: "frames", p: "ports", t: "time" };
const ROW_HEIGHT = 24, LANE_HEIGHT = 20, KEPT_EACH = 256, MOST_ENTRIES = 200, MOST_ARGUMENTS = 10000;

const made = (name, more, ...inside) => {
  const it = document.createElement(name);
  for (const [key, value] of Object.entries(more)) it.setAttribute(key, value);
  it.append(...inside);
  return it;
};

// does it when nobody has asked for it again for a moment; browsers limit how often a page may change its address
const waiting = {};
function later(name, action) {
  clearTimeout(waiting[name]);
  waiting[name] = setTimeout(action, 150);
}

// of each row its kind, and the seconds since the start
const kinds = [], clock = [];
for (const text of rows) {
  const last = clock.length ? clock[clock.length - 1] : 0;
  kinds.push(KIND_OF[text[0]] || "comments");
  clock.push(text[0] === "t" ? Math.max(last, parseInt(text.slice(2)) / 1e9) : last);
}

// the places of the rows that the list shows, and the place of the row that is selected
let shown = [], selected = -1, isWhole = false;

// how many of the items have a place that is at most this one; the items are in order
function upTo(items, placeOf, place) {
  let [low, high] = [0, items.length];
  while (low < high) {
    const middle = (low + high) >> 1;
    if (placeOf(items[middle]) <= place) low = middle + 1;
    else high = middle;
  }
  return low;
}
const seconds = (place) => `${clock[place].toFixed(3)} s`;
const changesUpTo = (place) => upTo(changes, (it) => it[0], place);
const fatesUpTo = (place) => upTo(fates, (it) => it.row, place);

// ---- rows

function summary(place) {
  const [row, ...notes] = rows[place].split("\n");
  const outer = notes.filter((it) => !it.startsWith(" "));
  return (/^[cf] /.test(row) && outer.length ? outer : [row, ...outer]).join(", ");
}

function filterRows() {
  const wanted = byId("search").value.toLowerCase();
  const on = new Set(KINDS.filter((it) => byId(`kind-${it}`).checked));
  shown = [];
  for (let place = 0; place < rows.length; place++)
    if (on.has(kinds[place]) && (!wanted || rows[place].toLowerCase().includes(wanted))) shown.push(place);
  byId("inner").style.height = `${shown.length * ROW_HEIGHT}px`;
  sayStatus();
  showSelected();
}

const sayStatus = () => {
  const at = selected < 0 ? "" : `line ${lines[selected]}, ${seconds(selected)}; `;
  byId("status").textContent = `${at}${shown.length} of ${rows.length} rows are shown`;
};

// draws only the rows that are visible
function drawList() {
  const list = byId("list");
  const first = Math.max(0, Math.floor(list.scrollTop / ROW_HEIGHT) - 5);
  const parts = shown.slice(first, first + Math.ceil(list.clientHeight / ROW_HEIGHT) + 10).map((place, at) => {
    const it = made("div", { class: "item", role: "option", id: `line-${lines[place]}`, "aria-selected": String(place === selected), "aria-setsize": shown.length, "aria-posinset": first + at + 1 },
      made("span", { class: "number" }, String(lines[place])), made("span", { class: "clock" }, seconds(place)), made("span", { class: kinds[place] }, summary(place)));
    it.style.top = `${(first + at) * ROW_HEIGHT}px`;
    it.addEventListener("click", () => select(place));
    return it;
  });
  byId("inner").replaceChildren(...parts);
}

function showSelected() {
  const list = byId("list"), top = Math.max(0, upTo(shown, (it) => it, selected) - 1) * ROW_HEIGHT;
  if (top < list.scrollTop || top > list.scrollTop + list.clientHeight - ROW_HEIGHT) list.scrollTop = top - list.clientHeight / 2;
  if (selected >= 0) list.setAttribute("aria-activedescendant", `line-${lines[selected]}`);
  drawList();
}

function select(place) {
  if (rows[place] === undefined) return;
  selected = place;
  isWhole = false;
  later("address", () => history.replaceState(null, "", `#line-${lines[place]}`));
  byId("slider").value = place;
  byId("slider").setAttribute("aria-valuetext", `line ${lines[place]}, ${seconds(place)}`);
  moveCursor();
  sayStatus();
  showSelected();
  drawRow();
  drawFrame();
  drawTables();
}

function link(place) {
  const it = made("a", { href: `#line-${lines[place]}` }, `line ${lines[place]}`);
  // at once, and not when the browser has changed the address, which another row may do meanwhile
  it.addEventListener("click", (event) => { event.preventDefault(); select(place); });
  return it;
}

function drawRow() {
  const [row, ...notes] = rows[selected].split("\n");
  byId("row-head").textContent = `Line ${lines[selected]}, ${seconds(selected)}: ${kinds[selected]}`;
  const parts = [made("pre", { "aria-label": "the row" }, row)];
  if (kinds[selected] === "frames" && notes.length) parts.push(way(notes));
  else if (kinds[selected] !== "comments") parts.push(made("pre", { "aria-label": "what it did" }, notes.join("\n") || "nothing is answered or sent"));
  byId("row-body").replaceChildren(...parts);
}

// the path of the frame of a row, by its notes, with the entries that it hit
function way(notes) {
  const steps = notes.filter((it) => !it.startsWith(" ")).map((note) => {
    const hit = hitOf(note), box = made("li", {}, note);
    const entry = hit && entriesOf(hit[0])[hit[1]];
    if (entry) box.append(made("small", {}, `priority ${entry[1]}, ${entry[2]}`), made("small", {}, entry[3]));
    return box;
  });
  return made("ol", { class: "way", "aria-label": "the path of the frame" }, ...steps);
}
const hitOf = (note) => (/^table (\d+): entry (\d+)/.exec(note) || []).slice(1).map(Number).slice(0, 2);
const entriesOf = (table) => stateAfter(changesUpTo(selected)).map((it) => entries[it]).filter((it) => it[0] === String(table));

// ---- tables, which are kept as changes

const kept = [[]];

// the list with other items at a place; it may be the same list
function changed(list, place, gone, come) {
  if (come.length > MOST_ARGUMENTS) return [...list.slice(0, place), ...come, ...list.slice(place + gone)];
  list.splice(place, gone, ...come);
  return list;
}

// the numbers of the entries after so many changes
function stateAfter(count) {
  const near = Math.min(kept.length - 1, Math.floor(count / KEPT_EACH));
  let state = [...kept[near]];
  for (let at = near * KEPT_EACH; at < count; at++) {
    for (const edit of changes[at][1]) state = changed(state, ...edit);
    if (at + 1 === kept.length * KEPT_EACH) kept.push([...state]);
  }
  return state;
}

// the entries now, with those that the selected row removed: [entry, mark]
function markedEntries() {
  const count = changesUpTo(selected);
  if (!count || changes[count - 1][0] !== selected) return stateAfter(count).map((it) => [entries[it], ""]);
  let marked = stateAfter(count - 1).map((it) => [entries[it], ""]), stayed = 0;
  for (const [place, gone, come] of changes[count - 1][1]) {
    const from = place + stayed, old = marked.slice(from, from + gone);
    const keys = (items) => new Set(items.map((it) => it.slice(0, 3).join(" ")));
    const before = keys(old.map((it) => it[0])), after = keys(come.map((it) => entries[it]));
    const mark = (entry, others, two, one) => [entry, others.has(entry.slice(0, 3).join(" ")) ? two : one];
    const items = [...old.map(([it]) => mark(it, after, "before", "removed")), ...come.map((it) => mark(entries[it], before, "changed", "added"))];
    marked = changed(marked, from, gone, items);
    stayed += gone;
  }
  return marked;
}

function drawTables() {
  const byTable = new Map();
  for (const it of markedEntries()) {
    if (!byTable.has(it[0][0])) byTable.set(it[0][0], []);
    byTable.get(it[0][0]).push(it);
  }
  const hits = rows[selected].split("\n").map(hitOf).filter((it) => it.length).map(String);
  const parts = [...byTable].map(([name, items]) => table(name, items, hits));
  byId("tables-head").textContent = `Tables after line ${lines[selected]}`;
  byId("tables-body").replaceChildren(...(parts.length ? parts : [made("p", {}, "There are no entries and no groups.")]));
}

function table(name, items, hits) {
  const isGroups = name === "groups", body = made("tbody", {});
  let place = 0, left = 0;
  for (const [entry, mark] of items) {
    const isGone = mark === "removed" || mark === "before";
    const sign = mark || (hits.includes(`${name},${place}`) ? "hit" : "");
    const number = isGone ? "" : isGroups ? entry[1] : String(place);
    place += !isGone;
    if (!sign && !isWhole && place > MOST_ENTRIES) left++;
    else body.append(made("tr", { class: sign }, ...[number, ...(isGroups ? entry.slice(2, 4) : entry.slice(1)), sign].map((it) => made("td", {}, it))));
  }
  if (left) {
    const all = made("button", { type: "button" }, `show ${left} more`);
    all.addEventListener("click", () => { isWhole = true; drawTables(); });
    body.append(made("tr", {}, made("td", { colspan: 6 }, all)));
  }
  const heads = isGroups ? ["group", "kind", "buckets", "this row"] : ["entry", "priority", "match", "instructions", "more", "this row"];
  const head = made("tr", {}, ...heads.map((it) => made("th", { scope: "col" }, it)));
  return made("table", {}, made("caption", {}, isGroups ? "groups" : `table ${name}`), made("thead", {}, head), body);
}

// ---- where the frame goes

function drawFrame() {
  if (!data.frame) return;
  const now = fatesUpTo(selected) - 1, fate = fates[now], current = ways[upTo(ways, (it) => it.row, selected) - 1];
  const items = fates.map((it, at) => made("li", at === now ? { "aria-current": "true" } : {}, link(it.row), `, ${seconds(it.row)}: ${it.leaves.join(", ")}`));
  const parts = [made("p", {}, made("code", {}, `port ${data.frame.port}: ${data.frame.frame}`)),
    made("ol", { class: "fates", "aria-label": "the rows that change where it goes" }, ...items)];
  if (fate) parts.push(made("p", {}, `After line ${lines[selected]}: ${fate.leaves.join(", ")}`));
  if (current) parts.push(made("pre", { "aria-label": "its steps" }, current.steps.join("\n")));
  if (fate && fate.picture) {
    const image = made("img", { src: fate.picture, alt: "tables and groups as boxes, with blue arrows for the steps of the frame" });
    parts.push(made("figure", {}, made("figcaption", {}, `The tables after line ${lines[fate.row]}, with the path of the frame in blue`), image));
  }
  byId("frame").hidden = false;
  byId("frame-body").replaceChildren(...parts);
}

// ---- the line of time

const fateRows = new Set(fates.map((it) => it.row));
const lanesOf = (place) => [kinds[place], rows[place].includes("to the controller: FLOW_REMOVED") && "removed", fateRows.has(place) && "frame"];

// where a row is on the line, from 0 to 1
const end = rows.length ? clock[rows.length - 1] : 0;
let isByTime = end > 0;
const along = (place) => (isByTime ? clock[place] / end : place / Math.max(1, rows.length - 1));
const moveCursor = () => { byId("cursor").style.left = `${100 * along(selected)}%`; };

function drawLine() {
  const canvas = byId("marks"), context = canvas.getContext("2d"), names = Object.keys(LANES), counts = names.map(() => 0);
  canvas.width = canvas.clientWidth;
  canvas.height = LANE_HEIGHT * names.length;
  const drawn = names.map(() => -1);
  const colors = names.map((it) => getComputedStyle(document.documentElement).getPropertyValue(`--${it}`));
  for (let place = 0; place < rows.length; place++)
    for (const name of lanesOf(place)) {
      const lane = names.indexOf(name);
      const left = Math.round(along(place) * (canvas.width - 2));
      if (lane < 0 || ++counts[lane] && drawn[lane] === left) continue;
      drawn[lane] = left;
      context.fillStyle = colors[lane];
      context.fillRect(left, lane * LANE_HEIGHT + 3, 2, LANE_HEIGHT - 6);
    }
  canvas.setAttribute("aria-label", names.map((it, at) => `${LANES[it]}: ${counts[at]} rows`).join(", "));
}

function selectAt(event) {
  const wanted = event.offsetX / byId("marks").clientWidth;
  select(Math.max(0, upTo(rows.map((_, place) => place), along, wanted) - 1));
}

// ---- what a person does

const step = (by) => select(shown[Math.max(0, Math.min(shown.length - 1, upTo(shown, (it) => it, selected) - 1 + by))]);
const nextOf = (items, placeOf) => selectOf(items[upTo(items, placeOf, selected)], placeOf);
const lastOf = (items, placeOf) => selectOf(items[upTo(items, placeOf, selected - 1) - 1], placeOf);
const selectOf = (item, placeOf) => item !== undefined && select(placeOf(item));
const ACTIONS = {
  j: () => step(1), k: () => step(-1), "/": () => byId("search").focus(),
  "]": () => nextOf(changes, (it) => it[0]), "[": () => lastOf(changes, (it) => it[0]),
  "}": () => nextOf(fates, (it) => it.row), "{": () => lastOf(fates, (it) => it.row),
};
const LIST_ACTIONS = {
  ArrowDown: () => step(1), ArrowUp: () => step(-1), PageDown: () => step(20), PageUp: () => step(-20), Home: () => step(-rows.length), End: () => step(rows.length),
};

function onKey(event) {
  if (event.ctrlKey || event.altKey || event.metaKey || /^(INPUT|SELECT)$/.test(event.target.tagName)) return;
  const action = ACTIONS[event.key] || (event.target.id === "list" && LIST_ACTIONS[event.key]);
  if (!action) return;
  event.preventDefault();
  action();
}

function fromHash(event) {
  const { hash } = event ? new URL(event.newURL) : location;
  const [, number] = /^#line-(\d+)$/.exec(hash) || [null, Infinity];
  select(Math.max(0, upTo(lines, (it) => it, Number(number)) - 1));
}

for (const it of Object.values(LANES)) byId("lanes").append(made("div", { "aria-hidden": "true" }, it));
for (const it of KINDS) byId("kinds").append(made("label", {}, made("input", { type: "checkbox", id: `kind-${it}`, checked: "" }), ` ${it}`));
byId("slider").max = rows.length - 1;
byId("scale").value = isByTime ? "time" : "row";
byId("search").addEventListener("input", () => later("search", filterRows));
byId("filter").addEventListener("submit", (event) => { event.preventDefault(); nextOf(shown, (it) => it); });
byId("kinds").addEventListener("change", filterRows);
byId("scale").addEventListener("change", (event) => { isByTime = end > 0 && event.target.value === "time"; drawLine(); moveCursor(); });
byId("slider").addEventListener("input", (event) => select(Number(event.target.value)));
byId("marks").addEventListener("click", selectAt);
byId("list").addEventListener("scroll", drawList);
addEventListener("keydown", onKey);
addEventListener("hashchange", fromHash);
addEventListener("resize", () => { drawLine(); drawList(); });
matchMedia("(prefers-color-scheme: dark)").addEventListener("change", drawLine);
filterRows();
drawLine();
fromHash();
document.body.setAttribute("aria-busy", "false");
