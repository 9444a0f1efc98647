// A reader of romfs and cramfs images over the library as a WebAssembly module, which tools/page links. The calls are
// those of include/romtool.h, and so are the numbers of errors. Paths and names are bytes. Bytes of the image are views
// of the module's memory: they end with the next call of `room` or `check`. Copy what is to stay.

export const FORMATS = ["", "romfs", "cramfs", "cramfs-be"];
export const KINDS = "?dflbcsp";
export const MEMORY = 15;

// where things are behind the module's own data: a struct romtool_image, an answer, a path, the image
const ANSWER = 64, PATH = 256, BYTES = 8192;
// how much memory a check is offered at first, and at most
const LEAST = 1 << 20, MOST = 1 << 29;

// not by bits, of which JavaScript has 32 with a sign
const aligned = (n) => Math.ceil(n / 64) * 64;

export class Reader {
  // Makes a reader of the bytes of a module.
  static async of(module) {
    const { instance } = await WebAssembly.instantiate(module, {});
    return new Reader(instance.exports);
  }

  constructor(calls) {
    this.calls = calls;
    this.base = aligned(calls.__heap_base.value);
    this.size = 0;
  }

  get bytes() { return new Uint8Array(this.calls.memory.buffer); }
  get view() { return new DataView(this.calls.memory.buffer); }

  // Makes the memory reach to `end`, and tells whether it does.
  reaches(end) {
    const lacks = end - this.calls.memory.buffer.byteLength;
    if (lacks <= 0) return true;
    try { this.calls.memory.grow(Math.ceil(lacks / 65536)); return true; } catch { return false; }
  }

  // Makes room for an image of `size` bytes; what was there is gone. `write` fills it, part by part.
  room(size) {
    this.size = size;
    this.data = this.base + BYTES;
    if (!this.reaches(this.data + size + 64)) return false;
    this.bytes.fill(0, this.base, this.base + 64);
    return true;
  }

  write(at, part) { this.bytes.set(part, this.data + at); }

  // Checks the image that was written. A check that is refused memory is made again with more.
  check() {
    const area = aligned(this.data + this.size);
    let error = MEMORY, room = LEAST;
    for (; error === MEMORY && room <= MOST && this.reaches(area + room); room *= 4) {
      this.calls.romtool_area(area, BigInt(room));
      error = this.calls.romtool_check_v3(this.base, this.data, BigInt(this.size));
      if (this.calls.romtool_area_blocks() !== 0n) throw new Error("memory that was not given back");
    }
    const at = (place) => this.view.getUint32(this.base + place, true);
    this.accessible = at(32);
    return { error, format: FORMATS[at(20)], fault: at(24), at: at(28), size: at(32), root: at(36), references: at(40),
      depth: at(44), memory: Number(this.calls.romtool_area_most()) };
  }

  // Puts a path where the calls find it, and gives its length as they take it.
  path(path) {
    const part = path.subarray(0, 4096);
    this.bytes.set(part, this.base + PATH);
    return BigInt(part.length);
  }

  word(place) { return this.view.getUint32(this.base + ANSWER + place, true); }
  long(place) { return Number(this.view.getBigUint64(this.base + ANSWER + place, true)); }

  answeredStat() {
    const [error, ino, kind, mode, uid, gid, size, major, minor] = Array.from({ length: 9 }, (_, i) => this.word(4 * i));
    return { error, ino, kind, mode, uid, gid, size, major, minor };
  }

  answeredPlace() {
    const error = this.word(0), at = this.word(4), len = this.long(8);
    if (at + len > this.size) throw new Error("a place outside of the image");
    return { error, at, len, bytes: this.bytes.subarray(this.data + at, this.data + at + len) };
  }

  lookup(path, follow = true) {
    this.calls.rom32_lookup_v3(this.base + ANSWER, this.base, this.base + PATH, this.path(path), follow ? 1 : 0);
    return { error: this.word(0), node: this.word(4) };
  }

  stat(path, follow = true) {
    this.calls.rom32_stat_v3(this.base + ANSWER, this.base, this.base + PATH, this.path(path), follow ? 1 : 0);
    return this.answeredStat();
  }

  readlink(path) {
    this.calls.rom32_readlink_v3(this.base + ANSWER, this.base, this.base + PATH, this.path(path));
    return this.answeredPlace();
  }

  // The same by the number of a node, without a look-up.
  statNode(node) {
    this.calls.rom32_stat_node_v3(this.base + ANSWER, this.base, node);
    return this.answeredStat();
  }

  readlinkNode(node) {
    this.calls.rom32_readlink_node_v3(this.base + ANSWER, this.base, node);
    return this.answeredPlace();
  }

  // An open file is kept as the bytes of its struct, and is put back for each call.
  open(path) {
    const at = this.base + ANSWER;
    const error = this.calls.romtool_open_v3(at, this.base, this.base + PATH, this.path(path));
    return { error, held: this.bytes.slice(at, at + 64) };
  }

  openNode(node) {
    const at = this.base + ANSWER;
    const error = this.calls.romtool_open_node_v3(at, this.base, node);
    return { error, held: this.bytes.slice(at, at + 64) };
  }

  // Makes a call on an open file. The file is at ANSWER, and what the call answers 64 bytes behind it.
  on(file, call) {
    const at = this.base + ANSWER;
    this.bytes.set(file.held, at);
    this.bytes.fill(0, at + 64, at + 104);
    const error = call(at, at + 64);
    file.held = this.bytes.slice(at, at + 64);
    this.bytes.copyWithin(at, at + 64, at + 104);
    return error;
  }

  fstat(file) {
    this.on(file, (at, to) => this.calls.rom32_fstat_v3(to, at));
    return this.answeredStat();
  }

  map(file, from, len) {
    this.on(file, (at, to) => this.calls.rom32_map_v3(to, at, BigInt(from), BigInt(len)));
    return this.answeredPlace();
  }

  lend(file, most) {
    this.on(file, (at, to) => this.calls.rom32_lend_v3(to, at, BigInt(most)));
    return this.answeredPlace();
  }

  seek(file, position) { return this.on(file, (at) => this.calls.romtool_seek_v3(at, BigInt(position))); }

  // Copies the next bytes, at most `most`, by way of memory behind the image.
  read(file, most) {
    const room = Math.min(Number(most), 1 << 24), buffer = aligned(this.data + this.size);
    if (!this.reaches(buffer + room)) throw new Error("no memory to read to");
    const error = this.on(file, (at, to) => this.calls.romtool_read_v3(at, buffer, BigInt(room), to));
    return { error, bytes: this.bytes.slice(buffer, buffer + this.long(0)) };
  }

  // The next entry: its name, which is a copy, where it lies, and its node with its kind; null at the end.
  readdir(file) {
    const error = this.on(file, (at, to) => this.calls.romtool_readdir_v3(at, to));
    if (error || !this.word(20)) return { error, entry: null };
    const name = this.word(0), len = this.long(8), node = this.word(16), kind = this.word(24);
    if (name < this.data || name + len > this.data + this.size) throw new Error("a name outside of the image");
    return { error, entry: { name: this.bytes.slice(name, name + len), at: name - this.data, node, kind } };
  }

  // The entries of an open directory, one after the other.
  *entries(file) {
    if (file.error) throw new Error(`error ${file.error} of a directory`);
    for (;;) {
      const { error, entry } = this.readdir(file);
      if (error) throw new Error(`error ${error} of a directory`);
      if (!entry) return;
      yield entry;
    }
  }
}

// The path of an entry of a directory, whose own path is `/` or has no slash at its end.
export function joined(path, name) {
  const front = path.length === 1 ? 0 : path.length, out = new Uint8Array(front + 1 + name.length);
  out.set(path.subarray(0, front));
  out[front] = 47;
  out.set(name, front + 1);
  return out;
}

// Bytes as romtool prints them: one word of ASCII, with what is not by its number.
export const escaped = (bytes) => Array.from(bytes, (byte) => byte > 32 && byte < 127 && byte !== 37
  ? String.fromCharCode(byte) : "%" + byte.toString(16).toUpperCase().padStart(2, "0")).join("");
