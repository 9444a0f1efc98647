// The page's worker: it has the image, and answers what the page asks. `Reader` and what belongs to it come from
// reader.mjs, the rules for programs from programs.mjs, those of what Linux misreads from linux.mjs, and MODULE is the bytes
// of the WebAssembly module; tools/page puts all into one script.

const PART = 1 << 22;        // how much of a file is read at a time
const SHOWN = 256;           // how many bytes of a file or around a fault are shown
const WALKED = 1000;         // how many entries are looked at in one call
const WORKED = 200;          // for how many milliseconds a call works before it answers, or tells how far it is

const ready = Reader.of(MODULE);
const text = new TextDecoder("utf-8", { fatal: true });
const rows = new Map();      // of each directory that was asked for, the entries that are still to come
let reader, format, walk;

// A name or a text as it is shown: bytes that are not UTF-8 or not visible are escaped.
function shown(bytes) {
  try {
    const whole = text.decode(bytes);
    return /[\p{C}\p{Zl}\p{Zp}]/u.test(whole) ? escaped(bytes) : whole;
  } catch { return escaped(bytes); }
}

// Reads a file part by part into the module's memory, and checks it.
async function open(file) {
  reader = await ready;
  rows.clear();
  walk = null;
  if (!reader.room(file.size)) return { error: MEMORY, length: file.size };
  let said = performance.now();
  for (let at = 0; at < file.size; at += PART) {
    reader.write(at, new Uint8Array(await file.slice(at, at + PART).arrayBuffer()));
    if (performance.now() - said > WORKED) {
      postMessage({ progress: at / file.size });
      said = performance.now();
    }
  }
  const began = performance.now(), told = reader.check();
  format = told.format;
  return { ...told, length: file.size, milliseconds: performance.now() - began, around: around(told.at, file.size) };
}

// The bytes around an offset, from a multiple of 16 on.
function around(at, size) {
  const from = Math.max(0, Math.min(at - (at % 16) - 32, size - (size % 16)));
  return { from, bytes: reader.bytes.slice(reader.data + from, reader.data + Math.min(size, from + 96)) };
}

function row(path, entry) {
  const whole = joined(path, entry.name), stat = reader.statNode(entry.node);
  const link = stat.kind === 3 ? shown(reader.readlinkNode(entry.node).bytes) : null;
  return { name: shown(entry.name), path: whole, stat, link };
}

// The next entries of a directory, at most `count`; the first call begins at its start.
function entries(path, count, anew) {
  const key = escaped(path), found = [];
  if (anew || !rows.has(key)) {
    const coming = reader.entries(reader.open(path));
    rows.set(key, { coming, next: coming.next() });
  }
  const held = rows.get(key);
  for (; !held.next.done && found.length < count; held.next = held.coming.next()) {
    found.push(row(path, held.next.value));
  }
  return { rows: found, more: !held.next.done };
}

// The runs of an open file's bytes in the image.
function runs(file) {
  const found = [];
  for (;;) {
    const { at, len, error } = reader.lend(file, Number.MAX_SAFE_INTEGER);
    if (error || len === 0) return found;
    const last = found.at(-1);
    if (last && last.at + last.len === at) last.len += len; else found.push({ at, len });
  }
}

// A file's runs and its first bytes.
function details(path) {
  const found = runs(reader.open(path)), first = found[0];
  const from = reader.data + (first?.at ?? 0), bytes = reader.bytes.slice(from, from + Math.min(first?.len ?? 0, SHOWN));
  return { runs: found.slice(0, 1000), count: found.length, bytes };
}

// All bytes of a file, as parts of the image.
function contents(path) {
  return runs(reader.open(path)).map(({ at, len }) => reader.bytes.slice(reader.data + at, reader.data + at + len));
}

// Goes on with the walk through the tree, and tells which bytes are whose.
function pieces() {
  walk ??= { open: [], first: true, programs: [], misreads: [], rules: new Misreads(image, format),
    count: { bytes: 0, kinds: Array(8).fill(0) } };
  const found = [], add = (at, len, what, path) => { if (len) found.push([at, len, what, path]); };
  const kinds = walk.count.kinds, root = new Uint8Array([47]);
  if (walk.first) {
    walk.open.push({ path: root, coming: reader.entries(reader.open(root)) });
    kinds[1]++;
    walk.first = false;
    const { node } = reader.lookup(root);
    misread("/", [...walk.rules.ofVolume(), ...walk.rules.ofName(node, reader.statNode(node), [])]);
  }
  const began = performance.now();
  let seen = 0;
  while (walk.open.length && seen < WALKED && performance.now() - began < WORKED) {
    const { path, coming } = walk.open.at(-1), { value: entry, done } = coming.next();
    if (done) { walk.open.pop(); continue; }
    seen++;
    const { node } = entry, whole = joined(path, entry.name), name = shown(whole), stat = reader.statNode(node);
    kinds[stat.kind]++;
    add(entry.at, entry.name.length, "name", name);
    if (stat.kind === 1) walk.open.push({ path: whole, coming: reader.entries(reader.openNode(node)) });
    const link = stat.kind === 3 ? reader.readlinkNode(node) : null;
    if (link) add(link.at, link.len, "link", name);
    misread(name, walk.rules.ofName(node, stat, entry.name, link?.bytes));
    if (stat.kind === 2) {
      walk.count.bytes += stat.size;
      const places = runs(reader.openNode(node));
      for (const { at, len } of places) add(at, len, "data", name);
      note(name, stat.size, places[0]);
    }
  }
  return { found, seen, more: walk.open.length > 0, count: walk.count };
}

// The bytes of the image.
const image = () => reader.bytes.subarray(reader.data, reader.data + reader.accessible);

// Keeps a file for `programs` if it is a program for a machine with or without an MMU. `run` is the first run of its bytes.
function note(path, size, run) {
  if (run && isProgram(image().subarray(run.at, run.at + run.len), true)) {
    walk.programs.push({ path, start: run.at, len: run.len, size });
  }
}

// Keeps the numbers of what Linux misreads in a name.
function misread(path, numbers) { for (const number of numbers) walk.misreads.push({ number, path }); }

// What Linux misreads in the names that the walk came to, in the order of the list.
const misreads = () => walk.misreads;

// What Linux does with the programs that the walk came to, in the order of the list.
function programs(how) {
  const bytes = image(), found = walk.programs;
  return found.filter(({ start, len }) => isProgram(bytes.subarray(start, start + len), how.noMmu))
    .map((it) => ({ path: it.path, at: it.start, ...verdictOf(bytes, it, how) }));
}

const CALLS = { open, entries, details, contents, pieces, programs, misreads };

onmessage = async ({ data: { id, call, words } }) => {
  try {
    postMessage({ id, answer: await CALLS[call](...words) });
  } catch (error) {
    postMessage({ id, failed: String(error?.message ?? error) });
  }
};
