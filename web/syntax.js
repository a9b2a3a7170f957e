// What the script reads of a stream by itself: units, sets, pictures, and the macroblock in which a bit stands. Nothing of it is proved, and no
// verdict comes from it. web/make_page.py puts it into the page, with the code words of h264_tables (TABLES).

// The places of the units of a byte stream (Annex B): where each begins, after its start code, and where it ends, without 00 bytes after it.
function unitsOf(bytes) {
  const units = [];
  const close = (end) => {
    const unit = units[units.length - 1];
    for (unit.end = end; unit.end > unit.from && bytes[unit.end - 1] === 0; unit.end--);
  };
  for (let i = bytes.indexOf(1); i >= 0; i = bytes.indexOf(1, i + 1)) {
    if (i < 2 || bytes[i - 1] !== 0 || bytes[i - 2] !== 0) continue;
    if (units.length) close(i - 2);
    units.push({ from: i + 1 });
  }
  if (units.length) close(bytes.length);
  return units;
}

// The bits of a unit after its first byte, without emulation prevention bytes (7.4.1). Reading past the end throws.
class Bits {
  constructor(bytes, from, end) {
    this.bytes = [];
    this.places = []; // where each byte stands in the stream
    for (let i = from + 1, zeros = 0; i < end; i++) {
      if (zeros >= 2 && bytes[i] === 3) { zeros = 0; continue; }
      zeros = bytes[i] === 0 ? zeros + 1 : 0;
      this.bytes.push(bytes[i]);
      this.places.push(i);
    }
    this.at = 0;
    this.last = this.lastOne();
  }
  // Where the stop bit stands: the last bit that is 1 (7.3.2.11).
  lastOne() {
    let n = this.bytes.length;
    while (n > 0 && this.bytes[n - 1] === 0) n--;
    if (n === 0) return 0;
    const low = this.bytes[n - 1] & -this.bytes[n - 1];
    return n * 8 - 1 - Math.log2(low);
  }
  // more_rbsp_data (7.2).
  get more() { return this.at < this.last; }
  // The bit of the stream that comes next.
  get place() { return this.at >> 3 < this.places.length ? this.places[this.at >> 3] * 8 + (this.at & 7) : Infinity; }
  u(n) {
    if (this.at + n > this.bytes.length * 8) throw new RangeError('the unit ends');
    let value = 0;
    for (; n > 0; n--, this.at++) value = value * 2 + ((this.bytes[this.at >> 3] >> (7 - (this.at & 7))) & 1);
    return value;
  }
  ue() {
    let zeros = 0;
    while (this.u(1) === 0) if (++zeros > 32) throw new RangeError('no code word');
    return 2 ** zeros - 1 + this.u(zeros);
  }
  se() { const k = this.ue(); return k % 2 ? (k + 1) / 2 : -k / 2; }
  // The value of the word of a table that comes next: a map from words with a 1 before them.
  word(table) {
    for (let word = 1, n = 0; n < 16; n++) {
      word = word * 2 + this.u(1);
      if (table.has(word)) return table.get(word);
    }
    throw new RangeError('no code word');
  }
}

// ---- parameter sets

// A sequence parameter set (7.3.2.1.1) of the profiles that are judged; of another, its numbers alone.
function setOf(bytes, from, end) {
  const b = new Bits(bytes, from, end), set = { profile: b.u(8), constraints: b.u(8), level: b.u(8), id: b.ue() };
  if (![66, 77, 88].includes(set.profile)) return set;
  set.frameNumBits = b.ue() + 4;
  set.countType = b.ue();
  if (set.countType === 0) set.countBits = b.ue() + 4;
  if (set.countType === 1) {
    set.noDeltas = b.u(1);
    b.se(); b.se();
    for (let n = b.ue(); n > 0; n--) b.se();
  }
  set.references = b.ue();
  b.u(1);
  set.columns = b.ue() + 1;
  set.rows = b.ue() + 1;
  set.progressive = b.u(1);
  if (!set.progressive) b.u(1);
  b.u(1);
  set.crop = b.u(1) ? [b.ue(), b.ue(), b.ue(), b.ue()] : [0, 0, 0, 0]; // left, right, top, bottom, in chroma samples
  return set;
}

// What a slice needs of a picture parameter set (7.3.2.2).
function pictureSetOf(bytes, from, end) {
  const b = new Bits(bytes, from, end), set = { id: b.ue(), set: b.ue(), cabac: b.u(1), bottom: b.u(1), groups: b.ue(), references: b.ue() + 1 };
  b.ue();
  set.weighted = b.u(1);
  b.u(2); b.se(); b.se(); b.se();
  set.filter = b.u(1);
  b.u(1);
  set.redundant = b.u(1);
  return set;
}

// ---- the slice header (7.3.3)

function skipModification(b) {
  if (b.u(1)) while (b.ue() !== 3) b.ue();
}

function skipWeights(b, references) {
  b.ue(); b.ue();
  for (let i = 0; i < references; i++) {
    if (b.u(1)) { b.se(); b.se(); }
    if (b.u(1)) for (let k = 0; k < 4; k++) b.se();
  }
}

function skipMarking(b, idr) {
  if (idr) { b.u(2); return; }
  if (!b.u(1)) return;
  for (let op = b.ue(); op !== 0; op = b.ue()) {
    if (op !== 5) b.ue();
    if (op === 3) b.ue();
  }
}

// Reads a header up to the slice data. null: its sets are not known, or it is not of the kinds that are judged.
function headerOf(b, first, sets, pictureSets) {
  const idr = (first & 31) === 5, header = { first: b.ue(), type: b.ue() % 5 }, pps = pictureSets.get(b.ue()), sps = pps && sets.get(pps.set);
  if (!sps || !sps.progressive || pps.cabac || pps.groups || (header.type !== 0 && header.type !== 2)) return null;
  b.u(sps.frameNumBits);
  if (idr) b.ue();
  if (sps.countType === 0) { b.u(sps.countBits); if (pps.bottom) b.se(); }
  if (sps.countType === 1 && !sps.noDeltas) { b.se(); if (pps.bottom) b.se(); }
  if (pps.redundant) b.ue();
  header.references = pps.references;
  if (header.type === 0) {
    if (b.u(1)) header.references = b.ue() + 1;
    skipModification(b);
    if (pps.weighted) skipWeights(b, header.references);
  }
  if (first & 0x60) skipMarking(b, idr);
  b.se();
  if (pps.filter && b.ue() !== 1) { b.se(); b.se(); }
  return { ...header, sps };
}

// ---- slice data (7.3.4, 7.3.5)

const wordsOf = ([lengths, bits], values) => new Map(lengths.map((n, i) => [2 ** n + bits[i], values ? values[i] : i]));
const WORDS = {
  token: TABLES.token.map((rows) => wordsOf(rows, TABLES.tokens)),
  zeros: TABLES.zeros.map((rows) => wordsOf(rows)),
  chromaZeros: TABLES.chromaZeros.map((rows) => wordsOf(rows)),
  run: TABLES.run.map((rows) => wordsOf(rows)),
};

// Passes over the levels of a block (9.2.2).
function skipLevels(b, total, ones) {
  let suffixLength = total > 10 && ones < 3 ? 1 : 0;
  for (let i = 0; i < total; i++) {
    if (i < ones) { b.u(1); continue; }
    let prefix = 0;
    while (b.u(1) === 0) prefix++;
    const size = prefix === 14 && suffixLength === 0 ? 4 : prefix >= 15 ? prefix - 3 : suffixLength;
    let code = Math.min(15, prefix) * 2 ** suffixLength + b.u(size);
    if (prefix >= 15 && suffixLength === 0) code += 15;
    if (prefix >= 16) code += 2 ** (prefix - 3) - 4096;
    if (i === ones && ones < 3) code += 2;
    const level = code % 2 ? (code + 1) / 2 : (code + 2) / 2;
    if (suffixLength === 0) suffixLength = 1;
    if (level > 3 * 2 ** (suffixLength - 1) && suffixLength < 6) suffixLength++;
  }
}

// Passes over a residual block of so many coefficients at most (7.3.5.3.2); how many it has. `near` is nC, and -1 for chroma DC.
function skipBlock(b, most, near) {
  const token = b.word(WORDS.token[near < 0 ? 4 : near < 2 ? 0 : near < 4 ? 1 : near < 8 ? 2 : 3]), total = token >> 2;
  if (total === 0) return 0;
  skipLevels(b, total, token & 3);
  let left = total < most ? b.word((most === 4 ? WORDS.chromaZeros : WORDS.zeros)[total - 1]) : 0;
  for (let i = 1; i < total && left > 0; i++) left -= b.word(WORDS.run[Math.min(left, 7) - 1]);
  return total;
}

// The counts of coefficients of a slice's blocks: of luma in 4 columns a macroblock, of Cb and Cr in 2.
class Counts {
  constructor(sps, first) {
    this.columns = sps.columns;
    this.first = first;
    this.planes = [4, 2, 2].map((side) => ({ side, counts: new Uint8Array(sps.columns * side * sps.rows * side) }));
  }
  index(plane, address, x, y) {
    const { side } = this.planes[plane];
    return (Math.floor(address / this.columns) * side + y) * this.columns * side + (address % this.columns) * side + x;
  }
  // nC (9.2.1).
  near(plane, address, x, y) {
    const { side, counts } = this.planes[plane], at = this.index(plane, address, x, y);
    const left = x > 0 || (address % this.columns > 0 && address > this.first), above = y > 0 || address - this.columns >= this.first;
    const sum = (left ? counts[at - 1] : 0) + (above ? counts[at - this.columns * side] : 0);
    return left && above ? (sum + 1) >> 1 : sum;
  }
  put(plane, address, x, y, count) { this.planes[plane].counts[this.index(plane, address, x, y)] = count; }
  fill(address, count) {
    this.planes.forEach(({ side }, plane) => { for (let k = 0; k < side * side; k++) this.put(plane, address, k % side, Math.floor(k / side), count); });
  }
}

// Passes over the residual of a macroblock (7.3.5.3).
function skipResidual(b, address, counts, pattern, whole) {
  const block = (plane, x, y, most) => counts.put(plane, address, x, y, skipBlock(b, most, counts.near(plane, address, x, y)));
  if (whole) skipBlock(b, 16, counts.near(0, address, 0, 0));
  for (let k = 0; k < 16; k++) if (pattern & (1 << (k >> 2))) block(0, (k & 1) + ((k >> 2) & 1) * 2, ((k >> 1) & 1) + (k >> 3) * 2, whole ? 15 : 16);
  if (pattern & 0x30) { skipBlock(b, 4, -1); skipBlock(b, 4, -1); }
  if (pattern & 0x20) for (let k = 0; k < 8; k++) block(1 + (k >> 2), k & 1, (k >> 1) & 1, 15);
}

// Passes over the reference indices and vectors of an inter macroblock (7.3.5.1, 7.3.5.2).
function skipMotion(b, type, references) {
  const parts = type === 0 ? [1] : type < 3 ? [1, 1] : [0, 0, 0, 0].map(() => [1, 2, 2, 4][b.ue()] ?? 1);
  if (references > 1 && type !== 4) for (let i = 0; i < parts.length; i++) references === 2 ? b.u(1) : b.ue();
  for (const n of parts) for (let k = 0; k < 2 * n; k++) b.se();
}

// Passes over a macroblock after mb_type (7.3.5).
function skipMacroblock(b, type, header, address, counts) {
  const intra = header.type === 2 ? type : type - 5;
  if (intra === 25) {
    b.at = (b.at + 7) & ~7;
    b.at += 384 * 8;
    counts.fill(address, 16);
    return;
  }
  if (intra < 0) skipMotion(b, type, header.references);
  if (intra === 0) for (let k = 0; k < 16; k++) if (!b.u(1)) b.u(3);
  if (intra >= 0) b.ue();
  const whole = intra > 0, patterns = intra === 0 ? TABLES.intraPatterns : TABLES.interPatterns;
  const pattern = whole ? (intra > 12 ? 15 : 0) + (((intra - 1) >> 2) % 3) * 16 : patterns[b.ue()] ?? 0;
  if (pattern > 0 || whole) { b.se(); skipResidual(b, address, counts, pattern, whole); }
}

// The macroblock of a slice that was begun last at this bit of the stream, by its address. null: none was.
function macroblockIn(b, header, bit) {
  const counts = new Counts(header.sps, header.first), total = header.sps.columns * header.sps.rows;
  let next = header.first, found = null;
  try {
    while (b.more && b.place <= bit) {
      if (header.type === 0) {
        const run = b.ue();
        if (run > 0) { found = next; next += run; }
        if (!b.more || b.place > bit) break;
      }
      if (next >= total) break; // there is no such macroblock
      found = next++;
      skipMacroblock(b, b.ue(), header, found, counts);
    }
  } catch (error) { if (!(error instanceof RangeError)) throw error; }
  return found;
}

// ---- a stream

// How many bytes beside a picture's slices are taken for its own: those of a start code.
const MARGIN = 4;

// The pictures, by the slices that begin with macroblock 0; the sets; and of a bit its picture and macroblock, as far as they are found.
function surveyed(bytes, bit) {
  const pictures = [], sets = new Map(), pictureSets = new Map();
  let failure = null;
  for (const { from, end } of unitsOf(bytes)) {
    const type = bytes[from] & 31;
    try {
      if (type === 7) { const set = setOf(bytes, from, end); sets.set(set.id, set); }
      if (type === 8) { const set = pictureSetOf(bytes, from, end); pictureSets.set(set.id, set); }
    } catch (error) { if (!(error instanceof RangeError)) throw error; }
    if (type !== 1 && type !== 5) continue;
    if (bytes[from + 1] & 128) pictures.push({ bytes: 0, from });
    if (!pictures.length) continue;
    const picture = pictures[pictures.length - 1];
    picture.bytes += end - from;
    picture.end = end;
    if (bit === null || bit < from * 8 || bit > end * 8) continue;
    failure = { picture: pictures.length - 1, ...macroblockAt(bytes, from, end, bit, sets, pictureSets) };
  }
  if (bit !== null && !failure) {
    const picture = pictures.findIndex((p) => bit >= (p.from - MARGIN) * 8 && bit <= (p.end + MARGIN) * 8);
    failure = { picture, macroblock: null };
  }
  return { pictures, sets: [...sets.values()], failure };
}

// The macroblock of a slice that was begun last at a bit, with its place and its set. macroblock null: none was, or it isn't found.
function macroblockAt(bytes, from, end, bit, sets, pictureSets) {
  try {
    const b = new Bits(bytes, from, end), header = headerOf(b, bytes[from], sets, pictureSets), sps = header && header.sps;
    const macroblock = header && macroblockIn(b, header, bit);
    if (macroblock !== null) return { macroblock, column: macroblock % sps.columns, row: Math.floor(macroblock / sps.columns), sps };
  } catch (error) { if (!(error instanceof RangeError)) throw error; }
  return { macroblock: null };
}
