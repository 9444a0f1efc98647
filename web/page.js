// The page asks the worker, and shows its answers. FAULTS and SENTENCES are the tables of the code, by number; EXPLAINED
// has place, cause and cure of each fault from docs/FAULTS.md, REASONS the meanings of those of `xip` from docs/PROTOCOL.md,
// MISREADS name, explanation and cure of what Linux misreads from docs/LINUX.md;
// WORKER is the text of the worker. tools/page puts them before this text.

const ROWS = 500;            // how many rows of a directory or a table are shown at first, and then with each button
const CELLS = 4096, COLUMNS = 64;               // of the picture at most, and in each of its rows,
const FEW_CELLS = 1024, FEW_COLUMNS = 32;       // or on a narrow display
const WALKED = 20000;        // so many entries of the tree are looked at for the picture, then more with a button,
const WALKS = 3000;          // or as many as these milliseconds allow
const KINDS = ["", "directory", "file", "link", "block device", "character device", "socket", "named pipe"];
const MANY = ["", "directories", "files", "links", "block devices", "character devices", "sockets", "named pipes"];
const WHATS = {
  other: "records, tables, sums and padding", name: "names", data: "contents of files", link: "texts of links",
  behind: "behind the image", fault: "the fault",
};
const MAGIC = 3, SHORT = 2;  // the faults of files that may be no image
const MAGICS = ["-rom1fs-", "\x45\x3d\xcd\x28", "\x28\xcd\x3d\x45"];
const narrow = matchMedia("(max-width: 40rem)");
const at = (id) => document.getElementById(id);
const number = (value) => value.toLocaleString("en-US");
const first = (text) => text.replace(/^./, (letter) => letter.toUpperCase());

// ---- the worker

let worker, waiting = new Map(), asked = 0;

function begin() {
  worker?.terminate();
  waiting = new Map();
  picture = null;
  worker = new Worker(URL.createObjectURL(new Blob([WORKER], { type: "text/javascript" })));
  const calls = waiting;
  worker.onmessage = ({ data }) => {
    if ("progress" in data) { say(`Reading, ${Math.round(100 * data.progress)} %`); return; }
    const [done, fails] = calls.get(data.id);
    calls.delete(data.id);
    if ("failed" in data) fails(new Error(data.failed)); else done(data.answer);
  };
  worker.onerror = (event) => { for (const [, fails] of calls.values()) fails(new Error(event.message)); };
}

const ask = (call, ...words) => new Promise((done, fails) => {
  waiting.set(++asked, [done, fails]);
  worker.postMessage({ id: asked, call, words });
});

// ---- small things

function say(words) { at("status").textContent = words; }

function made(kind, text, more = {}) {
  const it = Object.assign(document.createElement(kind), more);
  if (text !== undefined) it.textContent = text;
  return it;
}

// A row of a table. A cell is a text, a number, or an offset, which is shown with its address.
function tableRow(cells, head) {
  const row = made("tr");
  cells.forEach((cell, i) => {
    const it = made(head && i === 0 ? "th" : "td", typeof cell === "number" ? number(cell) : cell.offset ? "" : cell);
    if (typeof cell !== "string" && !head) it.className = "number";
    if (cell.offset) it.append(...cell.offset);
    if (head && i === 0) it.scope = "row";
    row.append(it);
  });
  return row;
}

// Bytes in lines of 16, or of 8 on a narrow display, with the one at `marked` marked.
function dump(where, from, bytes, marked) {
  const wide = narrow.matches ? 8 : 16;
  where.replaceChildren();
  for (let line = 0; line < bytes.length; line += wide) {
    where.append(address(from + line), "  ");
    const part = bytes.slice(line, line + wide);
    part.forEach((byte, i) => {
      const digits = byte.toString(16).padStart(2, "0");
      where.append(from + line + i === marked ? made("mark", digits) : digits, " ");
    });
    const seen = Array.from(part, (byte) => byte > 31 && byte < 127 ? String.fromCharCode(byte) : ".").join("");
    where.append("   ".repeat(wide - part.length), ` ${seen}\n`);
  }
  where.again = () => dump(where, from, bytes, marked);
}

// A text in which `code` is between grave accents.
function withCode(where, text) {
  where.replaceChildren(...text.split("`").map((part, i) => i % 2 ? made("code", part) : part));
}

// ---- addresses

let base = 0;                // the address of the image's first byte

// An offset as an address, in the form of `romtool map`.
function hex(offset) {
  const digits = (base + offset).toString(16);
  return `0x${digits.padStart(digits.length > 8 ? 16 : 8, "0")}`;
}

// The same as an element, which follows the address that the user types.
function address(offset) {
  const it = made("span", hex(offset), { className: "address" });
  it.dataset.offset = offset;
  return it;
}

const offset = (value) => ({ offset: [`${number(value)} `, address(value)] });

// Why an image of so many bytes cannot begin at an address that is typed, or nothing.
function whyNot(text, length) {
  if (!/^(0x)?[0-9a-f]+$/i.test(text)) return `${text} is not a hexadecimal number, such as 0x08000000.`;
  const value = BigInt(text.replace(/^(0x)?/i, "0x"));
  if (value >> 32n) return `${text} has more than 32 bits.`;
  if (value + BigInt(length) > 1n << 32n) return `From ${text} on, the image would end behind 0xffffffff.`;
  return "";
}

// Reads the address that is typed, for an image of so many bytes. One that cannot be is refused in words: the addresses stay.
function rebase(length) {
  const text = at("base").value.trim(), why = text && whyNot(text, length);
  if (!why) base = text ? Number.parseInt(text, 16) : 0;
  at("base-said").textContent = why && `${why} The addresses on this page count from ${hex(0)}.`;
  at("base").setAttribute("aria-invalid", why !== "");
}

function rebaseAll() {
  rebase(picture?.told.length ?? 0);
  for (const it of document.querySelectorAll("[data-offset]")) it.textContent = hex(Number(it.dataset.offset));
  if (picture) choose(picture.chosen);
  if (picture?.told.error === 0) showPrograms().catch(failed);
}

// ---- the verdict

// Whether a file does not begin as an image does.
function isNone(told) {
  const front = told.around?.from === 0 ? String.fromCharCode(...told.around.bytes.slice(0, 8)) : "";
  return told.error === 14 && (told.fault === MAGIC || told.fault === SHORT) && !MAGICS.some((it) => front.startsWith(it));
}

// Shows where a fault is, its cause, and what to do.
function explain(fault) {
  const { place, cause, cure } = EXPLAINED[fault] ?? {};
  at("explained").hidden = !place;
  if (!place) return;
  withCode(at("fault-place"), place);
  withCode(at("cause"), cause);
  withCode(at("cure"), cure);
}

function verdict(told) {
  const isGood = told.error === 0, isFault = told.error === 14;
  at("line").className = isGood ? "good" : "bad";
  at("line").textContent = isGood ? `ok ${told.format} ${told.references} ${told.depth}`
    : isFault ? `fault ${told.fault} ${FAULTS[told.fault] ?? "Unknown"} at ${told.at}` : "out of memory";
  at("sentence").textContent = isGood ? "The image is valid: its bytes hold one tree of files."
    : isFault ? first(`${SENTENCES[told.fault] ?? "an unknown fault"}.`)
    : "The browser refused memory for this image, so nothing is known of it.";
  at("place").replaceChildren(...(isFault ? ["Offset: ", ...offset(told.at).offset] : []));
  at("around").hidden = !isFault || told.at >= told.length;
  if (isFault && told.at < told.length) dump(at("hex"), told.around.from, told.around.bytes, told.at);
  else if (isFault) at("sentence").textContent += " The offset is behind the last byte.";
  if (isNone(told)) at("sentence").textContent += " This file is no image: it is neither romfs nor cramfs.";
  explain(isFault ? told.fault : 0);
}

function facts(name, told) {
  const rows = [["name", name], ["length of the file", `${number(told.length)} bytes`]];
  if (told.error === 0) {
    rows.push(["format", { romfs: "romfs", cramfs: "cramfs", "cramfs-be": "cramfs, big-endian" }[told.format]],
      ["bytes of the image", number(told.size)], ["bytes behind it", number(told.length - told.size)],
      ["references to records", number(told.references)], ["most names on a path", number(told.depth)],
      ["offset of the root", offset(told.root)]);
  }
  if (told.milliseconds !== undefined) {
    rows.push(["time of the check", `${told.milliseconds.toFixed(1)} ms`],
      ["memory of the check", `${number(told.memory)} bytes`]);
  }
  at("facts").tBodies[0].replaceChildren(...rows.map((cells) => tableRow(cells, true)));
}

// ---- the tree

function note({ stat, link }) {
  const device = stat.kind === 4 || stat.kind === 5 ? `, ${stat.major}:${stat.minor}` : "";
  const size = stat.kind === 2 ? `, ${number(stat.size)} bytes` : "";
  const mode = stat.mode.toString(8).padStart(4, "0"), leads = link === null ? "" : `, leads to ${link}`;
  return `${KINDS[stat.kind]}${size}${device}, mode ${mode}, owner ${stat.uid}:${stat.gid}${leads}`;
}

function itemOf(row) {
  const item = made("li"), text = made("span", note(row), { className: "note" });
  if (row.stat.kind === 1) {
    item.append(directory(row.name, row.path, text));
  } else if (row.stat.kind === 2) {
    const button = made("button", row.name, { type: "button" });
    button.onclick = () => showFile(row).catch(failed);
    item.append(button, text);
  } else {
    item.append(row.name, text);
  }
  return item;
}

// A directory, whose entries are asked for when it is opened.
function directory(name, path, text) {
  const whole = made("details"), head = made("summary", name), list = made("ul");
  if (text) head.append(text);
  whole.append(head, list);
  whole.ontoggle = () => {
    if (whole.open && !whole.asked) {
      whole.asked = true;
      fill(list, path, true).catch(failed);
    }
  };
  return whole;
}

async function fill(list, path, anew) {
  const { rows, more } = await ask("entries", path, ROWS, anew);
  const items = rows.map(itemOf);
  if (anew && !items.length) items.push(made("li", "empty", { className: "note" }));
  list.append(...items);
  if (!anew) items[0]?.querySelector("button, summary")?.focus();
  if (more) {
    const item = made("li"), button = made("button", `Show ${ROWS} more`, { type: "button" });
    button.onclick = () => { item.remove(); fill(list, path, false).catch(failed); };
    item.append(button, made("span", `${number(list.children.length)} are shown`, { className: "note" }));
    list.append(item);
  }
}

async function showFile(row) {
  const { runs, count, bytes } = await ask("details", row.path);
  at("details").hidden = false;
  at("details-head").textContent = row.name;
  at("details-line").textContent = note(row) + (count > 1 ? `, in ${number(count)} pieces` : "");
  at("runs").replaceChildren(...runs.map((run) => tableRow([offset(run.at), run.len])));
  at("first").hidden = !bytes.length;
  if (bytes.length) dump(at("first"), runs[0].at, bytes, -1);
  at("save").onclick = () => save(row).catch(failed);
  at("details-head").focus();
}

async function save(row) {
  const link = made("a", "", { href: URL.createObjectURL(new Blob(await ask("contents", row.path))), download: row.name });
  link.click();
  setTimeout(() => URL.revokeObjectURL(link.href), 60000);
}

// ---- programs

let programs = [];           // what Linux does with each

// The words for a program.
function programRow(it) {
  const item = made("li"), isIn = !it.reason, words = made("span", undefined, { className: "note" });
  if (isIn) {
    words.append(`${number(it.inPlace)} pages in place, ${number(it.copied)} copied, ${number(it.zero)} of zeros`);
    if (it.shared) {
      words.append(`. Other data is in the last page, so Linux copies it: pad the source to ${number(it.shared + 1)} bytes`);
    }
  } else {
    const why = made("span");
    withCode(why, REASONS[it.reason]);
    words.append(`${number(it.pages)} pages copied; ${it.reason}: `, why);
  }
  item.append(made("b", it.path), " ", address(it.at), " ");
  item.append(made("span", isIn ? "in place" : "not in place", { className: isIn ? "good" : "bad" }), " ", words);
  return item;
}

function morePrograms() {
  const shown = at("programs").children.length;
  at("programs").append(...programs.slice(shown, shown + ROWS).map(programRow));
  at("more-programs").hidden = shown + ROWS >= programs.length;
}

// Shows the programs that the walk came to, as `romtool xip` has them.
async function showPrograms() {
  const mine = picture, how = { base, noMmu: at("no-mmu").checked, isRomfs: mine.told.format === "romfs" };
  const found = await ask("programs", how);
  if (mine !== picture) return;
  programs = found;
  const isIn = programs.filter((it) => !it.reason), sum = (key) => programs.reduce((n, it) => n + (it[key] ?? 0), 0);
  const count = `${number(isIn.length)} of ${number(programs.length)}${mine.more ? " so far" : ""}`;
  withCode(at("programs-line"), programs.length ? `Programs executed in place: ${count}; pages in place: ${number(sum("inPlace"))}, ` +
    `copied: ${number(sum("copied") + sum("pages"))}. The rules are those of \`romtool xip\`, with the image at ${hex(0)} in flash.`
    : `No program or library was found${mine.more ? " so far" : ""}.`);
  at("programs").replaceChildren();
  morePrograms();
}

// ---- what Linux misreads

let misreads = [];           // the number and the path of each

// A kind of what Linux misreads, with its paths.
function misreadItem(kind) {
  const { name, linux, cure } = MISREADS[kind], item = made("li"), words = made("span", undefined, { className: "note" });
  const paths = misreads.filter((it) => it.number === kind).map(({ path }) => path), list = made("ul");
  withCode(words, `Linux ${linux}. ${cure.startsWith("not in") ? "It is" : "What to do:"} ${cure}.`);
  list.append(...paths.slice(0, ROWS).map((path) => made("li", path)));
  if (paths.length > ROWS) list.append(made("li", `and ${number(paths.length - ROWS)} more`, { className: "note" }));
  item.append(made("b", `${kind} ${name}`), " ", words, list);
  return item;
}

// Shows what Linux misreads in the names that the walk came to.
async function showMisreads() {
  const mine = picture, found = await ask("misreads");
  if (mine !== picture) return;
  misreads = found;
  const count = misreads.length ? `${number(misreads.length)} thing${misreads.length > 1 ? "s" : ""}` : "nothing";
  withCode(at("misreads-line"), `Linux misreads ${count} in ${mine.more ? "this part of the image" : "this image"}, by the rules of ` +
    "`romtool linux`.");
  at("misreads").replaceChildren(...Object.keys(MISREADS).map(Number)
    .filter((kind) => misreads.some((it) => it.number === kind)).map(misreadItem));
}

// ---- the picture

let picture;                 // what is drawn: the image's length, the pieces, the cell that is chosen

function newPicture(told) {
  picture = { told, end: told.error === 0 ? told.size : told.length, pieces: [], chosen: 0, shown: 0 };
  layOut();
  at("pieces").replaceChildren();
}

// Divides the picture into cells for the width of the display.
function layOut() {
  const { told, end, pieces } = picture, columns = narrow.matches ? FEW_COLUMNS : COLUMNS;
  const cell = Math.max(1, 2 ** Math.ceil(Math.log2(Math.max(told.length, 1) / (narrow.matches ? FEW_CELLS : CELLS))));
  const count = Math.max(1, Math.ceil(told.length / cell));
  const what = Array.from({ length: count }, (_, i) => i * cell >= end ? "behind" : "other");
  Object.assign(picture, { columns, cell, count, what });
  for (const piece of pieces) mark(...piece);
  if (told.error === 14 && told.at < told.length) mark(told.at, 1, "fault");
  at("scale").textContent = `The image from its first byte on, in rows of ${columns} cells. Each cell is ${number(cell)} ` +
    `byte${cell === 1 ? "" : "s"}. A cell with several things has the colour of the one that comes first below.`;
  at("picture").setAttribute("aria-valuemax", count - 1);
}

// what a cell shows if it has several things: the later one
const RANK = ["behind", "other", "name", "link", "data", "fault"];

function mark(from, len, what) {
  const { cell, count } = picture, last = Math.min(count - 1, Math.floor((from + len - 1) / cell));
  for (let i = Math.floor(from / cell); i <= last; i++) {
    if (RANK.indexOf(what) > RANK.indexOf(picture.what[i])) picture.what[i] = what;
  }
}

function draw() {
  const canvas = at("picture"), style = getComputedStyle(document.documentElement);
  const { columns } = picture, rows = Math.ceil(picture.count / columns);
  const size = Math.max(4, Math.floor(canvas.parentNode.clientWidth * devicePixelRatio / columns));
  canvas.style.width = `${columns * size / devicePixelRatio}px`;
  canvas.width = columns * size;
  canvas.height = rows * size;
  const pen = canvas.getContext("2d"), colour = (what) => style.getPropertyValue(`--${what}`);
  const colours = Object.fromEntries(RANK.map((what) => [what, colour(what)]));
  picture.what.forEach((what, i) => {
    pen.fillStyle = colours[what];
    pen.fillRect((i % columns) * size, Math.floor(i / columns) * size, size - 1, size - 1);
  });
  pen.strokeStyle = colour("text");
  pen.lineWidth = 3;
  const row = Math.floor(picture.chosen / columns), column = picture.chosen % columns;
  pen.strokeRect(column * size + 1, row * size + 1, size - 3, size - 3);
}

const ofPath = (what, path) => `${{ data: "contents of", link: "text of the link", name: "name of" }[what]} ${path}`;

// The words for the cell that is chosen.
function words() {
  const { cell, chosen, told, pieces } = picture, from = chosen * cell, end = Math.min(told.length, from + cell);
  const names = [];
  for (const [first, len, what, path] of pieces) {
    if (first < end && first + len > from && names.push(ofPath(what, path)) === 4) break;
  }
  const more = names.length > 3 ? `${names.slice(0, 3).join(", ")} and more` : names.join(", ");
  const last = Math.max(from, end - 1), addresses = `${hex(from)} to ${hex(last)}`;
  return `Offset ${number(from)} to ${number(last)} (${addresses}): ${more || WHATS[picture.what[chosen]]}`;
}

function choose(cell) {
  picture.chosen = Math.max(0, Math.min(picture.count - 1, cell));
  const text = words(), canvas = at("picture");
  canvas.setAttribute("aria-valuenow", picture.chosen);
  canvas.setAttribute("aria-valuetext", text);
  at("where").textContent = text;
  draw();
}

function morePieces() {
  const next = picture.pieces.slice(picture.shown, picture.shown + ROWS);
  at("pieces").append(...next.map(([from, len, what, path]) => tableRow([offset(from), len, ofPath(what, path)])));
  picture.shown += next.length;
  at("more-pieces").hidden = picture.shown >= picture.pieces.length;
}

async function walkOn() {
  const began = performance.now(), mine = picture;
  let more = true, count, seen = 0;
  while (more && seen < WALKED && performance.now() - began < WALKS) {
    const answer = await ask("pieces");
    if (mine !== picture) return;
    ({ more, count } = answer);
    picture.more = more;
    seen += answer.seen;
    for (const piece of answer.found) { picture.pieces.push(piece); mark(...piece); }
  }
  const kinds = count.kinds.map((many, kind) => many ? `${number(many)} ${(many === 1 ? KINDS : MANY)[kind]}` : "")
    .filter(Boolean).join(", ");
  at("walked").textContent = `${more ? "Looked at so far" : "In the tree"}: ${kinds}; ${number(count.bytes)} bytes in files.` +
    (more ? " The picture shows only these." : "");
  at("more-walk").hidden = !more;
  morePieces();
  choose(picture.chosen);
  await showPrograms();
  await showMisreads();
}

// ---- an image

function failed(error) {
  say(`That did not work: ${error.message}`);
  at("stop").hidden = true;
}

async function look(file) {
  begin();
  const mine = worker;
  at("result").hidden = true;
  at("stop").hidden = false;
  say(`Reading ${file.name}`);
  const told = await ask("open", file);
  if (mine !== worker) return;
  at("stop").hidden = true;
  at("result").hidden = false;
  at("details").hidden = true;
  base = 0;
  rebase(told.length);
  verdict(told);
  facts(file.name, told);
  newPicture(told);
  at("tree").replaceChildren();
  at("walked").textContent = "";
  at("more-walk").hidden = at("more-pieces").hidden = true;
  at("tree-part").hidden = at("programs-part").hidden = at("misreads-part").hidden = told.error !== 0;
  at("picture-part").hidden = isNone(told);
  say(`${file.name}: ${at("line").textContent}`);
  choose(told.error === 14 ? Math.floor(told.at / picture.cell) : 0);
  if (told.error === 0) {
    const root = directory("/", new Uint8Array([47])), item = made("li");
    item.append(root);
    at("tree").append(item);
    root.open = true;
    await walkOn();
  }
  document.documentElement.dataset.done = file.name;
}

function take(files) { if (files.length) look(files[0]).catch(failed); }

at("file").onclick = (event) => { event.target.value = ""; }; // so that the same file can be chosen again
at("file").onchange = (event) => take(event.target.files);
at("stop").onclick = () => { begin(); say("Stopped"); at("stop").hidden = true; at("file").focus(); };
at("more-walk").onclick = () => walkOn().catch(failed);
at("more-pieces").onclick = morePieces;
at("picture").onkeydown = (event) => {
  const { columns } = picture, page = 8 * columns;
  const by = { ArrowRight: 1, ArrowLeft: -1, ArrowDown: columns, ArrowUp: -columns, PageDown: page,
    PageUp: -page, Home: -Infinity, End: Infinity }[event.key];
  if (by === undefined || event.ctrlKey || event.metaKey || event.altKey) return;
  event.preventDefault();
  choose(picture.chosen + by);
};
at("picture").onpointerdown = at("picture").onpointermove = (event) => {
  if (event.type === "pointermove" && event.pointerType === "touch" && !event.buttons) return;
  const box = event.target.getBoundingClientRect(), { columns } = picture, size = box.width / columns;
  choose(Math.floor((event.clientY - box.top) / size) * columns + Math.floor((event.clientX - box.left) / size));
};
addEventListener("resize", () => picture && draw());
narrow.addEventListener("change", () => {
  if (!picture) return;
  const from = picture.chosen * picture.cell;
  layOut();
  choose(Math.floor(from / picture.cell));
  for (const id of ["hex", "first"]) at(id).again?.();
});
at("base").onchange = rebaseAll;
at("no-mmu").onchange = () => showPrograms().catch(failed);
at("more-programs").onclick = morePrograms;
matchMedia("(prefers-color-scheme: dark)").addEventListener("change", () => picture && draw());
addEventListener("dragover", (event) => { event.preventDefault(); document.body.classList.add("over"); });
addEventListener("dragleave", () => document.body.classList.remove("over"));
addEventListener("drop", (event) => {
  event.preventDefault();
  document.body.classList.remove("over");
  take(event.dataTransfer.files);
});
at("legend").append(...[...RANK].reverse().map((what) => {
  const item = made("li"), box = made("span", "", { ariaHidden: "true" });
  box.style.background = `var(--${what})`;
  item.append(box, WHATS[what]);
  return item;
}));
