// The calls of the library (embed/ofswitch.h) in a worker. The first message is the module; each further one asks about texts, and has one answer.
"use strict";
let it;
const STEPS = 100000n;
const encoded = (text) => new TextEncoder().encode(text);
const octetsOf = (digits) => Uint8Array.from(digits.match(/../g) ?? [], (two) => parseInt(two, 16));
const digitsOf = (octets) => Array.from(octets, (octet) => octet.toString(16).padStart(2, "0")).join("");

// What a call gives. Bytes go in as an address and a length, numbers as they are, and {port} as the address of a number, which the call may change.
function call(name, ...words) {
  const taken = [], cells = [];
  const take = (size) => {
    const at = it.page_take(BigInt(size));
    if (!at) throw new Error("memory ran out");
    taken.push(at);
    return at;
  };
  const view = (at, size) => new DataView(it.memory.buffer, Number(at), size);
  const copy = (octets) => {
    const at = take(octets.length);
    new Uint8Array(it.memory.buffer, Number(at), octets.length).set(octets);
    return [at, BigInt(octets.length)];
  };
  const given = words.flatMap((word) => {
    if (word instanceof Uint8Array) return copy(word);
    if (typeof word !== "object") return [word];
    const at = take(4);
    cells.push([word, at]);
    view(at, 4).setUint32(0, word.port, true);
    return [at];
  });
  try {
    const answer = take(24);
    for (let room = 65536; ; ) {
      const text = take(room);
      it[`ofswitch_${name}`](...given, text, BigInt(room), answer);
      const said = view(answer, 24), length = Number(said.getBigUint64(0, true));
      if (length <= room) {
        for (const [word, at] of cells) word.port = view(at, 4).getUint32(0, true);
        const octets = new Uint8Array(it.memory.buffer, Number(text), length).slice();
        return { status: said.getUint8(16), line: Number(said.getBigUint64(8, true)), octets };
      }
      room = length;
    }
  } finally {
    for (const at of taken) it.page_give_back(at);
  }
}

const textOf = (found) => ({ status: found.status, line: found.line, text: new TextDecoder().decode(found.octets) });

// A report in words, and its document.
function told(name, ...words) {
  const found = textOf(call(name, ...words, true));
  const { text } = textOf(call(name, ...words, false));
  return { ...found, document: text && JSON.parse(text) };
}

// A frame is digits, or words that `trace` takes.
function trace({ table, port, frame }) {
  const comes = { port };
  let octets = octetsOf(frame);
  if (!/^(?:[0-9a-f]{2})*$/i.test(frame)) {
    const said = call("frame_in_words", comes, encoded(frame));
    if (said.status) return { status: said.status, ofFrame: true };
    octets = said.octets;
  }
  return { port: comes.port, frame: digitsOf(octets), ...told("trace", encoded(table), comes.port, octets) };
}

function reports({ table, requirements, other }) {
  const file = encoded(table), check = told("check", file, STEPS);
  // flow text and event files have no such word, and each table of ovs-ofctl has it
  const isImported = /\bactions?=/.test(table);
  if (check.status === 2) return { check, lines: isImported ? textOf(call("import", file, false, false)).text : "" };
  return {
    check,
    require: requirements.trim() && told("require", file, encoded(requirements), STEPS),
    diff: other.trim() && told("diff", file, encoded(other), false, STEPS),
  };
}

onmessage = ({ data }) => {
  if (data instanceof WebAssembly.Module) {
    it = new WebAssembly.Instance(data).exports;
    return;
  }
  try {
    postMessage("frame" in data ? trace(data) : reports(data));
  } catch (fault) {
    postMessage({ fault: String(fault) });
  }
};
