// Which programs of an image Linux executes in place: the rules of `romtool xip` (docs/PROTOCOL.md, Programs in place).
// They are not proved here: tests/test_page.py compares them with `romtool xip` and with what readelf reads. Numbers of an
// ELF file have up to 64 bits, so they are BigInts.

const PAGE = 4096n;
const FLAT_MOST = 1 << 28;   // the parts of a program in the flat format have fewer bytes

// The numbers of pages that `n` bytes take from an address on.
const pagesFrom = (address, n) => (address % PAGE + n + PAGE - 1n) / PAGE;
const pagesOf = (n) => Math.ceil(n / 4096);

// Reads the header of an ELF file. `programs` is null if Linux does not load the table of program headers.
function elf(file) {
  if (file.length < 52 || file[0] !== 0x7f || file[1] !== 0x45 || file[2] !== 0x4c || file[3] !== 0x46) return null;
  const isWide = file[4] === 2, isLittle = file[5] === 1;
  if (file[4] < 1 || file[4] > 2 || file[5] < 1 || file[5] > 2 || (isWide && file.length < 64)) return null;
  const view = new DataView(file.buffer, file.byteOffset, file.length);
  const half = (at) => view.getUint16(at, isLittle), word = (at) => view.getUint32(at, isLittle);
  const wide = (at) => isWide ? view.getBigUint64(at, isLittle) : BigInt(word(at));
  const size = isWide ? 56 : 32, count = half(isWide ? 56 : 44), table = wide(isWide ? 32 : 28);
  const kind = half(16), all = count * size;
  if (half(isWide ? 54 : 42) !== size || !all || all > 4096 || table + BigInt(all) > BigInt(file.length)) {
    return { kind, programs: null };
  }
  const places = isWide ? [4, 8, 16, 32, 40] : [24, 4, 8, 16, 20];
  const programs = Array.from({ length: count }, (_, i) => {
    const at = Number(table) + i * size, [flags, offset, address, held, memory] = places.map((it) => at + it);
    return { kind: word(at), isWritten: (word(flags) & 2) !== 0, offset: wide(offset), address: wide(address),
      held: wide(held), memory: wide(memory) };
  });
  return { kind, programs, width: isWide ? 8 : 4, wide };
}

const isFlat = (file) => file.length >= 64 && file[0] === 0x62 && file[1] === 0x46 && file[2] === 0x4c && file[3] === 0x54;

// Whether a file that begins with these bytes is a program or a library; without an MMU also one in the flat format.
export function isProgram(front, noMmu) {
  const kind = elf(front)?.kind;
  return kind === 2 || kind === 3 || (noMmu && isFlat(front));
}

// Whether the dynamic linker writes into the text of a file.
function movesText(file, { programs, width, wide }) {
  for (const { kind, offset, held } of programs) {
    if (kind !== 2 || offset >= BigInt(file.length)) continue;
    const end = Math.min(file.length, Number(offset + held));
    for (let at = Number(offset); at + 2 * width <= end; at += 2 * width) {
      const tag = wide(at);
      if (tag === 0n) break;
      if (tag === 22n || (tag === 30n && (wide(at + width) & 4n) !== 0n)) return true;
    }
  }
  return false;
}

// Whether other bytes than zeros are behind the file in its last page. `bytes` are those of the image.
function sharesPage(bytes, end, size) {
  const zeros = (4096 - size % 4096) % 4096;
  return end + zeros > bytes.length || bytes.subarray(end, end + zeros).some(Boolean);
}

// The pages of a segment with bytes of the file, or null if Linux does not load it.
function segment(it, size, isLinked, isShared, noMmu) {
  const { offset, address, held, memory, isWritten } = it;
  if (offset % PAGE !== address % PAGE || memory < held || offset + held > BigInt(size)) return null;
  const count = pagesFrom(address, held), isLast = offset / PAGE + count === BigInt(pagesOf(size));
  const isZeroed = isLinked && held < memory && (address + held) % PAGE !== 0n;
  const most = isZeroed ? count - 1n : count, mapped = !noMmu && isLast && isShared ? count - 1n : count;
  const inPlace = isWritten ? 0n : mapped < most ? mapped : most;
  return { inPlace, copied: count - inPlace, fixed: isWritten ? 0n : most };
}

// The pages of a program by what Linux does with them: of its segments, or the reason why it does not load them.
function pagesIn(file, header, isShared, noMmu) {
  if (!header.programs) return { reason: "table" };
  const isLinked = !noMmu && header.kind === 3 && header.programs.some(({ kind, held }) => kind === 2 && held > 0n);
  const sum = { inPlace: 0n, copied: 0n, fixed: 0n, zero: 0n };
  for (const it of header.programs.filter(({ kind }) => kind === 1)) {
    const zero = pagesFrom(it.address, it.memory) - pagesFrom(it.address, it.held);
    if (zero > 0n) sum.zero += zero;
    if (it.held === 0n) continue;
    const pages = segment(it, file.length, isLinked, isShared, noMmu);
    if (!pages) return { reason: "unloadable" };
    for (const key in pages) sum[key] += pages[key];
  }
  return sum;
}

// The same of a program in the flat format.
function flatPages(file) {
  const view = new DataView(file.buffer, file.byteOffset, file.length);
  const [version, text, init, bss, flags] = [4, 12, 16, 20, 36].map((at) => view.getUint32(at));
  const isLaid = text >= 64 && text <= file.length && text <= init && init <= bss;
  if (version !== 4 || !isLaid || Math.max(text, init - text, bss - init) >= FLAT_MOST) return { reason: "unloadable" };
  const zero = Math.max(0, pagesOf(bss - text) - pagesOf(init - text)), isInRam = (flags & 5) !== 0;
  return isInRam ? { inPlace: 0, copied: pagesOf(init), zero, fixed: 0 }
    : { inPlace: pagesOf(text), copied: pagesOf(init - text), zero, fixed: pagesOf(text) };
}

// What Linux does with a program of `size` bytes, whose first `len` are one run from `start` on. The answer has either
// `reason` and `pages`, as a line `not`, or `inPlace`, `copied` and `zero`, as a line `xip`; `shared` is N of its line.
export function verdictOf(bytes, { start, len, size }, { base, noMmu, isRomfs }) {
  if (len !== size) return { reason: "scattered", pages: pagesOf(size) };
  const file = bytes.subarray(start, start + size);
  if (isFlat(file)) {
    const { reason, inPlace, copied, zero } = flatPages(file);
    return reason ? { reason, pages: 0 } : { inPlace, copied, zero, shared: 0 };
  }
  const header = elf(file), found = pagesIn(file, header, sharesPage(bytes, start + size, size), noMmu);
  if (found.reason) return { reason: found.reason, pages: 0 };
  const pages = Number(found.inPlace + found.copied), not = (reason) => ({ reason, pages });
  if (found.fixed === 0n && pages) return not("writable");
  if (found.fixed && !noMmu && isRomfs) return not("romfs");
  if (found.fixed && !noMmu && (base + start) % 4096) return not("unaligned");
  if (found.fixed && movesText(file, header)) return not("textrel");
  const shared = found.inPlace < found.fixed ? 4096 * pagesOf(size) : 0;
  return { inPlace: Number(found.inPlace), copied: Number(found.copied), zero: Number(found.zero), shared };
}
