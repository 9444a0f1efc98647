// What Linux misreads in a valid image: the rules of `romtool linux` (docs/PROTOCOL.md, What Linux misreads). They are not
// proved here: tests/test_page.py compares them with `romtool linux`.

// The two fields of a word of an inode of cramfs, of which the first has so many bits.
function fieldsAt(view, at, bits, isBig) {
  const word = view.getUint32(at, !isBig), rest = 32 - bits;
  return isBig ? [word >>> rest, word & (2 ** rest - 1)] : [word & (2 ** bits - 1), word >>> bits];
}

// Whether Linux, which keeps 12 and 20 bits of these numbers, has others for a device.
function isOtherDevice(stat, major, minor) {
  const kept = (major * 2 ** 20 + minor) % 2 ** 32;
  return (stat.kind === 4 || stat.kind === 5) && (Math.floor(kept / 2 ** 20) !== stat.major || kept % 2 ** 20 !== stat.minor);
}

// How many units of 16 bytes a name with its zero takes.
const units = (length) => Math.floor((length + 16) / 16);

// The numbers of what Linux misreads in a volume, and then in its names.
export class Misreads {
  // `image` returns the bytes of the image.
  constructor(image, format) {
    this.image = image;
    this.isRomfs = format === "romfs";
    this.isBig = format === "cramfs-be";
    this.known = new Map();    // what Linux keeps of the first file of each table
  }

  get bytes() { return this.image(); }
  get view() { return new DataView(this.bytes.buffer, this.bytes.byteOffset, this.bytes.length); }

  ofVolume() { return this.isRomfs && this.bytes.indexOf(0, 16) - 16 > 143 ? [5] : []; }

  // `name` is that of an entry, and empty for the root; `link` are the bytes of a link's text. Names come in the order of the list.
  ofName(node, stat, name, link) {
    const holds = this.isRomfs ? this.inRomfs(node, stat, name) : this.inCramfs(node, stat, name);
    holds[8] = link?.includes(0);
    return Object.keys(holds).filter((number) => holds[number]).map(Number);
  }

  inRomfs(node, stat, { length }) {
    const { bytes, view } = this, own = bytes.indexOf(0, node + 16) - node - 16;
    return { 3: length === 128, 4: length > 128, 6: isOtherDevice(stat, view.getUint16(node + 4), view.getUint16(node + 6)),
      10: length <= 128 && stat.size > 0 && units(own) !== units(Math.min(own, 128)) };
  }

  inCramfs(node, stat, { length }) {
    const { view, isBig } = this, { kind, mode, size } = stat, isKnown = (kind === 2 || kind === 3) && size > 0;
    const [words, table] = fieldsAt(view, node + 8, 6, isBig), [numbers] = fieldsAt(view, node + 4, 24, isBig);
    const kept = [kind, mode, stat.uid, stat.gid, size].join(" ");
    if (isKnown && !this.known.has(table)) this.known.set(table, kept);
    return { 1: kind === 2 && size > 0 && size % 4096 === 0, 2: isKnown && this.known.get(table) !== kept,
      6: isOtherDevice(stat, numbers >>> 8 & 255, numbers & 255), 7: length > 0 && words !== Math.ceil(length / 4),
      9: length === 0 && (mode & 0o555) !== 0o555 };
  }
}
