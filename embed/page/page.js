// The page: asks the workers about what is typed, and shows what they answer.
const $ = (id) => document.getElementById(id);
const FIELDS = ["table", "frame", "port", "requirements", "other"];
const examples = JSON.parse($("examples").textContent);

// ---- the workers

async function compiled() {
  const packed = Uint8Array.from(atob($("module").textContent), (it) => it.charCodeAt(0));
  const stream = new Blob([packed]).stream().pipeThrough(new DecompressionStream("gzip"));
  return WebAssembly.compile(await new Response(stream).arrayBuffer());
}

// Asks a worker of its own. A question that comes before the answer to the one before takes that one's place, which then has none.
function asker(module) {
  const source = URL.createObjectURL(new Blob([$("calls").textContent]));
  let worker, busy = false;
  const begin = () => {
    worker = new Worker(source);
    worker.postMessage(module);
  };
  begin();
  return (question) => new Promise((done) => {
    if (busy) {
      worker.terminate();
      begin();
    }
    busy = true;
    worker.onmessage = ({ data }) => {
      busy = false;
      if (data.fault) {
        worker.terminate();
        begin();
      }
      done(data);
    };
    worker.postMessage(question);
  });
}

// ---- what is shown

function element(name, words, properties = {}) {
  const it = document.createElement(name);
  it.append(...[words].flat());
  return Object.assign(it, properties);
}

// Why there is no text: by its status, and the line that is at fault.
function whyNone({ status, line }, what) {
  if (status === 1) return "The switch does not have this port.";
  if (status === 3) return "Memory ran out.";
  return line ? `Line ${line} of ${what} is not read.` : `${what} is not read.`;
}

function textOf(found, what) {
  if (!found) return "";
  if (found.fault) return found.fault;
  const missing = found.status === 5 && found.document?.command !== "diff" ? "Ports are named that the switch does not have, or frames are undecided.\n" : "";
  return missing + (found.text || whyNone(found, what));
}

// Where a frame leaves, each place once.
function exitsOf({ steps, effects }) {
  const places = effects.map((it) => (it.effect === "frame" ? `out by port ${it.port}` : "to the controller"));
  if (steps.some((it) => it.step === "TTL expired" || (it.step === "output" && it.port === "controller"))) places.push("to the controller");
  return places.length ? [...new Set(places)] : ["nothing leaves"];
}

// The way of a frame: its port, the lookups, and where it leaves.
function draw({ port, document: trace }) {
  const lookups = trace.steps.filter((it) => it.step === "entry" || it.step === "miss");
  const boxes = [[`port ${port}`, "comes in"], ...lookups.map((it) => [`table ${it.table}`, it.step === "miss" ? "no entry" : `entry ${it.entry}, priority ${it.priority}`])];
  const ends = exitsOf(trace).map((it) => [it, ""]);
  const WIDE = 162, HIGH = 54, height = Math.max(1, ends.length) * HIGH, middle = height / 2;
  const label = (words, x, y) => `<text x="${x + 66}" y="${y}" text-anchor="middle">${words}</text>`;
  const box = ([first, second], x, y) => `<rect x="${x}" y="${y - 20}" width="132" height="40" rx="4"/>` + (second ? label(first, x, y - 3) + label(second, x, y + 13) : label(first, x, y + 5));
  const line = (x, y, to) => `<path d="M${x} ${y} C${x + 15} ${y} ${x + 15} ${to} ${x + 30} ${to}" marker-end="url(#tip)"/>`;
  const parts = boxes.map((it, i) => box(it, i * WIDE + 2, middle) + (i ? line(i * WIDE - 28, middle, middle) : ""));
  ends.forEach((it, i) => parts.push(box(it, boxes.length * WIDE + 2, (i + 0.5) * HIGH) + line(boxes.length * WIDE - 28, middle, (i + 0.5) * HIGH)));
  const said = [...boxes, ...ends].map((it) => it.join(" ")).join(", ");
  const width = (boxes.length + 1) * WIDE;
  return `<svg role="img" aria-label="${said}" width="${width}" height="${height}" viewBox="0 0 ${width} ${height}"><defs><marker id="tip" viewBox="0 0 8 8" refX="8" refY="4" markerWidth="7" markerHeight="7" orient="auto"><path d="M0 0L8 4L0 8"/></marker></defs>${parts.join("")}</svg>`;
}

function showTrace(found) {
  const none = found.ofFrame ? "The words of the frame have no meaning, or no frame has these fields." : textOf(found, "the table");
  $("trace").textContent = found.document ? found.text : "";
  $("way").innerHTML = found.document ? draw(found) : "";
  $("outcome").textContent = found.document ? `The frame: ${exitsOf(found.document).join(", ")}.` : none;
}

const entryName = (it) => (it.line ? `line ${it.line}` : `table ${it.table} entry ${it.entry}`);

// What a report finds: the line, if there is one, and the words.
function findingsOf({ check, lines }) {
  if (check.status === 2) {
    const { faults = [], refused = [] } = lines ? JSON.parse(lines) : {};
    const said = faults.map((it) => [it.line, it.words.map((word) => `${word.word}: ${word.why}`).join("; ")]);
    for (const it of refused) said.push([it.line, `is refused by the switch: ${it.error ?? "an error"}`]);
    return said[0]?.[0] === check.line ? said : [[check.line, "is not read"]];
  }
  if (!check.document) return [];
  const flows = check.document.flows.filter((it) => it.verdict !== "wins");
  const said = flows.map((it) => [it.line, it.verdict + (it.shadowed_by ? `: shadowed by ${it.shadowed_by.map(entryName).join(", ")}` : ""), entryName(it)]);
  return [...said, ...check.document.remarks.map((it) => [it.line, it.remark, "group" in it ? `group ${it.group}` : `table ${it.table}`])];
}

function goTo(line) {
  const before = $("table").value.split("\n").slice(0, line), end = before.join("\n").length;
  $("table").focus();
  $("table").setSelectionRange(end - before.at(-1).length, end);
  $("table").scrollTop = (line - 5) * 18;
}

function showGutter(marked = new Set()) {
  const count = $("table").value.split("\n").length;
  $("gutter").replaceChildren(...Array.from({ length: count }, (_, i) => (marked.has(i + 1) ? element("b", `! ${i + 1}\n`) : `${i + 1}\n`)));
  $("gutter").scrollTop = $("table").scrollTop;
}

function showReports(found) {
  if (found.fault) found = { check: found };
  const findings = found.check.fault ? [] : findingsOf(found);
  const place = (line, name) => (line ? element("button", `line ${line}`, { type: "button", onclick: () => goTo(line) }) : name);
  $("findings").replaceChildren(...findings.map(([line, words, name]) => element("li", [place(line, name), ` ${words}`], { className: "fault" })));
  showGutter(new Set(findings.map(([line]) => line)));
  $("report").textContent = textOf(found.check, "the table");
  $("summary").textContent = $("report").textContent.trimEnd().split("\n").at(-1);
  const verdicts = found.require?.document?.requirements ?? [];
  $("verdicts").replaceChildren(...verdicts.map((it) => element("li", `line ${it.line} ${it.verdict}: ${it.requirement}`, { className: it.verdict })));
  $("required").textContent = textOf(found.require, "the requirements");
  $("differences").textContent = textOf(found.diff, "one of the tables");
}

// ---- what is typed

const typed = () => Object.fromEntries(FIELDS.map((id) => [id, $(id).value]));

function fill(given) {
  for (const id of FIELDS) $(id).value = given[id] ?? (id === "port" ? "1" : "");
}

// A link has what is typed behind its #, as base64 of JSON.
const linkOf = (given) => "#" + btoa(String.fromCharCode(...new TextEncoder().encode(JSON.stringify(given)))).replaceAll("+", "-").replaceAll("/", "_");

function linked() {
  try {
    const octets = Uint8Array.from(atob(location.hash.slice(1).replaceAll("-", "+").replaceAll("_", "/")), (it) => it.charCodeAt(0));
    return location.hash.length > 1 ? JSON.parse(new TextDecoder().decode(octets)) : null;
  } catch {
    return null;
  }
}

async function begin() {
  const module = await compiled(), askTrace = asker(module), askReports = asker(module);
  let turn = 0, pause;
  const ask = async () => {
    const own = ++turn, began = performance.now(), { table, frame, port, requirements, other } = typed();
    document.body.ariaBusy = "true";
    showGutter();
    clearTimeout(pause);
    const reported = new Promise((done) => {
      pause = setTimeout(async () => done(showReports(await askReports({ table, requirements, other }))), 200);
    });
    showTrace(await askTrace({ table, frame: frame.trim(), port: Number(port) }));
    document.body.dataset.milliseconds = performance.now() - began;
    document.body.dataset.shown ??= performance.now();
    await reported;
    if (own === turn) document.body.ariaBusy = "false";
  };
  $("example").append(...examples.map((it, i) => element("option", it.name, { value: i })));
  $("example").onchange = () => {
    fill(examples[$("example").value]);
    ask();
  };
  $("link").onclick = async () => {
    history.replaceState(null, "", linkOf(typed()));
    $("linked").textContent = await navigator.clipboard.writeText(location.href).then(() => "Copied.", () => "It is in the address bar.");
  };
  $("table").onscroll = () => ($("gutter").scrollTop = $("table").scrollTop);
  for (const id of FIELDS) $(id).oninput = ask;
  onhashchange = () => {
    fill(linked() ?? examples[0]);
    ask();
  };
  onhashchange();
}

begin();
