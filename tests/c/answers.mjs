// Answers `check`, `list` and `serve` as romtool does, over the library in WebAssembly and web/reader.mjs.
//
//     node answers.mjs MODULE check|list|serve IMAGE
//
// With HIGH in the environment the image and the heap are above 2^31, where addresses have the highest bit of 32; status
// 77 then says that there is no such memory.
import { readFileSync, writeSync } from "node:fs";
import { escaped, joined, KINDS, MEMORY, Reader } from "../../web/reader.mjs";

const [module, word, name] = process.argv.slice(2);
const ERRORS = ["", "ENOENT", "ENOTDIR", "ELOOP", "ENAMETOOLONG", "EINVAL", "EBADF", "EISDIR", "ENXIO", "EMFILE", "ERANGE"];
// the names of the faults by number, as the header for C has them
const HEADER = readFileSync(new URL("../../include/romtool.h", import.meta.url), "utf8");
const FAULTS = Object.fromEntries([...HEADER.matchAll(/case (\d+)u: return "(\w+)";/g)].map((it) => it.slice(1)));
const reader = await Reader.of(readFileSync(module));
const out = [];

const statLine = (s) => `${s.ino} ${KINDS[s.kind]} ${s.mode.toString(8).padStart(4, "0")} ${s.uid} ${s.gid} ${s.size} ` +
  `${s.major} ${s.minor}`;

function list(path) {
  const stat = reader.stat(path, false);
  if (stat.error) throw new Error("a listed name leads nowhere");
  out.push(`${statLine(stat)} ${escaped(path)}${stat.kind === 3 ? " " + escaped(reader.readlink(path).bytes) : ""}`);
  if (stat.kind === 1) {
    for (const entry of reader.entries(reader.open(path))) {
      const whole = joined(path, entry.name);
      const stat = reader.stat(whole, false), node = reader.statNode(entry.node);
      if (stat.kind !== entry.kind || statLine(stat) !== statLine(node)) throw new Error("an entry of another kind");
      if (stat.kind === 3 && reader.readlink(whole).at !== reader.readlinkNode(entry.node).at) throw new Error("another text");
      if (stat.kind !== 3 && !reader.readlinkNode(entry.node).error) throw new Error("a text of what is no link");
      list(whole);
    }
  }
}

const hex = (bytes) => bytes.length ? Buffer.from(bytes).toString("hex") : "-";
const errorLine = (error) => `err ${ERRORS[error]}`;
const placeLine = (place) => place.error ? errorLine(place.error) : `ok ${place.at} ${place.len} ${hex(place.bytes)}`;
const doneLine = (error) => error ? errorLine(error) : "ok";

function decoded(text) {
  const bytes = Buffer.from(text, "latin1").toString("latin1");
  if (bytes === "-") return new Uint8Array(0);
  const plain = bytes.replace(/%([0-9a-fA-F]{2})/g, (_, digits) => String.fromCharCode(parseInt(digits, 16)));
  return new Uint8Array(Buffer.from(plain, "latin1"));
}

const closed = () => ({ error: 6, held: new Uint8Array(64), used: false });
const slots = Array.from({ length: 64 }, closed);

function opened(path) {
  const file = reader.open(path);
  if (file.error) return errorLine(file.error);
  const at = slots.findIndex((slot) => !slot.used);
  if (at < 0) return "err EMFILE";
  slots[at] = { ...file, used: true, path };
  return `ok ${at}`;
}

function byPath(asked, path) {
  switch (asked) {
    case "lookup": { const { error, node } = reader.lookup(path); return error ? errorLine(error) : `ok ${node}`; }
    case "stat": case "lstat": {
      const stat = reader.stat(path, asked === "stat");
      return stat.error ? errorLine(stat.error) : `ok ${statLine(stat)}`;
    }
    case "readlink": return placeLine(reader.readlink(path));
    case "open": return opened(path);
  }
  return null;
}

function byFile(asked, fd, one, two) {
  const at = fd < 64n ? Number(fd) : -1, slot = at >= 0 ? slots[at] : closed();
  switch (asked) {
    case "fstat": { const stat = reader.fstat(slot); return stat.error ? errorLine(stat.error) : `ok ${statLine(stat)}`; }
    case "read": {
      const { error, bytes } = reader.read(slot, one);
      return error ? errorLine(error) : `ok ${bytes.length} ${hex(bytes)}`;
    }
    case "lend": return placeLine(reader.lend(slot, one));
    case "map": {
      const place = reader.map(slot, one, two);
      // the library maps no bytes of an empty file, and a server refuses them
      return placeLine(two === 0n && !place.error ? { error: 5, at: 0, len: 0 } : place);
    }
    case "seek": return doneLine(reader.seek(slot, one));
    case "readdir": {
      const { error, entry } = reader.readdir(slot);
      return error ? errorLine(error) : entry ? `ok ${escaped(entry.name)} ${entry.node}` : "ok end";
    }
    case "rewind": {
      const stat = reader.fstat(slot);
      if (stat.error || stat.kind !== 1) return errorLine(stat.error || 2);
      slots[at] = { ...reader.open(slot.path), used: true, path: slot.path };
      return "ok";
    }
    case "close": if (at >= 0) slots[at] = closed(); return slot.used ? "ok" : errorLine(6);
  }
  throw new Error(`what is ${asked}?`);
}

function serve() {
  const lines = readFileSync(0).toString("latin1").split("\n");
  if (lines.at(-1) === "") lines.pop();
  for (const line of lines) {
    if (line === "quit") { out.push("ok"); return; }
    const space = line.indexOf(" "), asked = space < 0 ? line : line.slice(0, space), rest = space < 0 ? "" : line.slice(space + 1);
    const numbers = rest.split(" ").filter(Boolean);
    out.push(byPath(asked, decoded(rest)) ?? byFile(asked, ...[0, 1, 2].map((i) => BigInt(numbers[i] ?? 0))));
  }
}

const image = readFileSync(name);
if (!reader.room(image.length)) throw new Error("no memory for the image");
if (process.env.HIGH) {
  reader.data = 0xa0000040;
  if (!reader.reaches(reader.data + image.length + 64)) process.exit(77);
}
reader.write(0, image);
const told = reader.check();
if (told.error === MEMORY) process.exitCode = 3;
else if (told.error) {
  out.push(`fault ${told.fault} ${FAULTS[told.fault]} at ${told.at}`);
  process.exitCode = 1;
} else if (word === "check") out.push(`ok ${told.format} ${told.references} ${told.depth}`);
else if (word === "list") list(new Uint8Array([47]));
else serve();
const text = Buffer.from(out.map((line) => line + "\n").join(""), "latin1");
for (let at = 0; at < text.length;) at += writeSync(1, text, at);
