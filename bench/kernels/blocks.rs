// Blocks of levels and residuals of macroblocks, as main.rt's module blocks, by the forms that stood before: a look into a table for each
// element, and each value of the transform tested.
use crate::tables::*;
use crate::time;

fn random(seed: &mut u32) -> u32 {
    *seed = seed.wrapping_mul(1664525).wrapping_add(1013904223);
    *seed >> 16
}

fn number_of(sample: i32) -> u32 {
    2 * sample.unsigned_abs() + (sample < 0) as u32
}

fn random_levels(seed: &mut u32, count: usize, big: u32) -> [i32; 16] {
    let mut levels = [0; 16];
    for _ in 0..count {
        let place = (random(seed) % 16).min(random(seed) % 16) as usize;
        let size = 1 + if random(seed) % 3 == 0 { random(seed) % big } else { 0 } as i32;
        levels[place] = if random(seed) % 2 == 0 { size } else { -size };
    }
    levels
}

// ---- writing

#[derive(Default)]
struct Out {
    bytes: Vec<u8>,
    bits: usize,
}

impl Out {
    fn put(&mut self, n: u32, value: u32) {
        for k in (0..n).rev() {
            if self.bits % 8 == 0 {
                self.bytes.push(0);
            }
            self.bytes[self.bits / 8] |= (((value >> k) & 1) as u8) << (7 - self.bits % 8);
            self.bits += 1;
        }
    }
    fn word(&mut self, lengths: &[u8], bits: &[u16], values: &[u8], value: usize) {
        let k = (0..lengths.len()).find(|&k| values[k] as usize == value).unwrap();
        self.put(lengths[k] as u32, bits[k] as u32);
    }
}

fn put_code(out: &mut Out, s: u32, code: u32) {
    if s == 0 && code < 14 {
        out.put(code + 1, 1);
    } else if s == 0 && code < 30 {
        out.put(15, 1);
        out.put(4, code - 14);
    } else if s == 0 {
        out.put(16, 1);
        out.put(12, code - 30);
    } else if code < 15 << s {
        out.put((code >> s) + 1, 1);
        out.put(s, code % (1 << s));
    } else {
        out.put(16, 1);
        out.put(12, code - (15 << s));
    }
}

fn put_block(out: &mut Out, block: &[i32; 16], nc: usize) {
    let places: Vec<usize> = (0..16).rev().filter(|&k| block[k] != 0).collect();
    let levels: Vec<i32> = places.iter().map(|&k| block[k]).collect();
    let total = levels.len();
    let ones = levels.iter().take(3).take_while(|l| l.abs() == 1).count();
    let token = 4 * total + ones;
    use crate::tables::coeff_token as c;
    match nc {
        0 | 1 => out.word(&c::NC0_LENGTHS, &c::NC0_BITS, &c::VALUES, token),
        2 | 3 => out.word(&c::NC2_LENGTHS, &c::NC2_BITS, &c::VALUES, token),
        4..=7 => out.word(&c::NC4_LENGTHS, &c::NC4_BITS, &c::VALUES, token),
        _ => out.word(&c::NC8_LENGTHS, &c::NC8_BITS, &c::VALUES, token),
    }
    if total == 0 {
        return;
    }
    for level in &levels[..ones] {
        out.put(1, (*level < 0) as u32);
    }
    let mut s = if total > 10 && ones < 3 { 1 } else { 0 };
    for k in ones..total {
        let size = levels[k].unsigned_abs();
        let code = if levels[k] > 0 { 2 * size - 2 } else { 2 * size - 1 };
        put_code(out, s, if k == ones && ones < 3 { code - 2 } else { code });
        s = next_suffix_length(s, levels[k]);
    }
    let mut zeros = places[0] + 1 - total;
    use crate::tables::total_zeros as z;
    let (lengths, bits): (&[u8], &[u16]) = match total {
        1 => (&z::INDEX_1_LENGTHS, &z::INDEX_1_BITS),
        2 => (&z::INDEX_2_LENGTHS, &z::INDEX_2_BITS),
        3 => (&z::INDEX_3_LENGTHS, &z::INDEX_3_BITS),
        4 => (&z::INDEX_4_LENGTHS, &z::INDEX_4_BITS),
        5 => (&z::INDEX_5_LENGTHS, &z::INDEX_5_BITS),
        6 => (&z::INDEX_6_LENGTHS, &z::INDEX_6_BITS),
        7 => (&z::INDEX_7_LENGTHS, &z::INDEX_7_BITS),
        8 => (&z::INDEX_8_LENGTHS, &z::INDEX_8_BITS),
        9 => (&z::INDEX_9_LENGTHS, &z::INDEX_9_BITS),
        10 => (&z::INDEX_10_LENGTHS, &z::INDEX_10_BITS),
        11 => (&z::INDEX_11_LENGTHS, &z::INDEX_11_BITS),
        12 => (&z::INDEX_12_LENGTHS, &z::INDEX_12_BITS),
        13 => (&z::INDEX_13_LENGTHS, &z::INDEX_13_BITS),
        14 => (&z::INDEX_14_LENGTHS, &z::INDEX_14_BITS),
        _ => (&z::INDEX_15_LENGTHS, &z::INDEX_15_BITS),
    };
    if total < 16 {
        out.word(lengths, bits, &z::VALUES, zeros);
    }
    use crate::tables::run_before as r;
    for k in 1..total {
        if zeros == 0 {
            break;
        }
        let run = places[k - 1] - places[k] - 1;
        let (lengths, bits): (&[u8], &[u16]) = match zeros {
            1 => (&r::LEFT_1_LENGTHS, &r::LEFT_1_BITS),
            2 => (&r::LEFT_2_LENGTHS, &r::LEFT_2_BITS),
            3 => (&r::LEFT_3_LENGTHS, &r::LEFT_3_BITS),
            4 => (&r::LEFT_4_LENGTHS, &r::LEFT_4_BITS),
            5 => (&r::LEFT_5_LENGTHS, &r::LEFT_5_BITS),
            6 => (&r::LEFT_6_LENGTHS, &r::LEFT_6_BITS),
            _ => (&r::LEFT_7_LENGTHS, &r::LEFT_7_BITS),
        };
        out.word(lengths, bits, &r::VALUES, run);
        zeros -= run;
    }
}

// ---- reading

enum Stop {
    No { bit: u64 },
}

struct Bits<'a> {
    bytes: &'a [u8],
    at: usize,
    chunk: usize,
    shift: u64,
}

fn window(bytes: &[u8], i: usize) -> u64 {
    let k = i / 8;
    let word = if k + 8 <= bytes.len() {
        u64::from_be_bytes(bytes[k..k + 8].try_into().unwrap())
    } else {
        (0..8).fold(0, |word, j| word * 256 + bytes.get(k + j).copied().unwrap_or(0) as u64)
    };
    (word << (i % 8)) >> 7
}

impl Bits<'_> {
    #[inline]
    fn element_bit(&mut self) -> u64 {
        let chunk = self.at / 512;
        if chunk != self.chunk {
            self.shift = std::hint::black_box(0);
            self.chunk = chunk;
        }
        self.at as u64 + self.shift
    }
    #[inline]
    fn bits(&mut self, n: u32) -> Result<u32, Stop> {
        let bit = self.element_bit();
        let next = self.at + n as usize;
        if next > 8 * self.bytes.len() {
            return Err(Stop::No { bit });
        }
        let value = (window(self.bytes, self.at) >> (57 - n)) as u32;
        self.at = next;
        Ok(value)
    }
    #[inline]
    fn word(&mut self, lookup: impl Fn(u16) -> (u8, u8), most: u8) -> Result<u8, Stop> {
        let bit = self.element_bit();
        let (length, value) = lookup((window(self.bytes, self.at) >> 41) as u16);
        let next = self.at + length as usize;
        if length == 0 || next > 8 * self.bytes.len() || value > most {
            return Err(Stop::No { bit });
        }
        self.at = next;
        Ok(value)
    }
}

#[inline]
fn token(nc: u8, bits: u16) -> (u8, u8) {
    use crate::tables::coeff_token::*;
    match nc {
        0 | 1 => coeff_token_nc0_entry(bits),
        2 | 3 => coeff_token_nc2_entry(bits),
        4..=7 => coeff_token_nc4_entry(bits),
        _ => coeff_token_nc8_entry(bits),
    }
}

#[inline]
fn zeros(total: u8, bits: u16) -> (u8, u8) {
    use crate::tables::total_zeros::*;
    match total {
        1 => total_zeros_1_entry(bits),
        2 => total_zeros_2_entry(bits),
        3 => total_zeros_3_entry(bits),
        4 => total_zeros_4_entry(bits),
        5 => total_zeros_5_entry(bits),
        6 => total_zeros_6_entry(bits),
        7 => total_zeros_7_entry(bits),
        8 => total_zeros_8_entry(bits),
        9 => total_zeros_9_entry(bits),
        10 => total_zeros_10_entry(bits),
        11 => total_zeros_11_entry(bits),
        12 => total_zeros_12_entry(bits),
        13 => total_zeros_13_entry(bits),
        14 => total_zeros_14_entry(bits),
        _ => total_zeros_15_entry(bits),
    }
}

#[inline]
fn run(left: u8, bits: u16) -> (u8, u8) {
    use crate::tables::run_before::*;
    match left {
        1 => run_before_1_entry(bits),
        2 => run_before_2_entry(bits),
        3 => run_before_3_entry(bits),
        4 => run_before_4_entry(bits),
        5 => run_before_5_entry(bits),
        6 => run_before_6_entry(bits),
        _ => run_before_7_entry(bits),
    }
}

#[inline]
fn next_suffix_length(suffix_length: u32, level: i32) -> u32 {
    let used = suffix_length.max(1);
    if level.unsigned_abs() > 3 << (used - 1) && used < 6 { used + 1 } else { used }
}

static PREFIX_LENGTHS: [u8; 17] = [0, 16, 15, 14, 13, 12, 11, 10, 9, 8, 7, 6, 5, 4, 3, 2, 1];
static PREFIX_VALUES: [u8; 17] = [0, 15, 14, 13, 12, 11, 10, 9, 8, 7, 6, 5, 4, 3, 2, 1, 0];

#[inline]
fn level_prefix_entry(bits: u16) -> (u8, u8) {
    let shift = 31u32.saturating_sub((bits as u32).leading_zeros());
    let entry = (shift + (bits as u32 >> shift)) as usize;
    (PREFIX_LENGTHS[entry], PREFIX_VALUES[entry])
}

#[inline]
fn read_level(bits: &mut Bits, s: u32, never_one: bool) -> Result<i32, Stop> {
    let prefix = bits.word(level_prefix_entry, 15)? as u32;
    let size = if prefix == 14 && s == 0 { 4 } else if prefix == 15 { 12 } else { s };
    let suffix = if size == 0 { 0 } else { bits.bits(size)? };
    let escape = if prefix == 15 && s == 0 { 15 } else { 0 };
    let code = (prefix << s) + suffix + escape + if never_one { 2 } else { 0 };
    Ok(if code % 2 == 0 { ((code + 2) / 2) as i32 } else { -(((code + 1) / 2) as i32) })
}

#[inline(never)]
fn block(bits: &mut Bits, nc: u8) -> Result<([i32; 16], u8), Stop> {
    let token = bits.word(|b| token(nc, b), 67)?;
    let (total, ones) = (token / 4, token % 4);
    let mut by_place = [0; 16];
    if total == 0 {
        return Ok((by_place, 0));
    }
    let mut levels = [0; 16];
    for level in levels[..ones as usize].iter_mut() {
        *level = if bits.bits(1)? == 0 { 1 } else { -1 };
    }
    let mut s = if total > 10 && ones < 3 { 1 } else { 0 };
    for k in ones..total {
        let level = read_level(bits, s, k == ones && ones < 3)?;
        levels[k as usize] = level;
        s = next_suffix_length(s, level);
    }
    let mut left = if total < 16 { bits.word(|b| zeros(total, b), 16 - total)? } else { 0 };
    for k in 0..total - 1 {
        by_place[(total - 1 - k + left) as usize] = levels[k as usize];
        if left > 0 {
            left -= bits.word(|b| run(left, b), left)?;
        }
    }
    by_place[left as usize] = levels[total as usize - 1];
    Ok((by_place, total))
}

fn read(bytes: &[u8], blocks: usize, count: usize) -> u32 {
    let mut bits = Bits { bytes, at: 0, chunk: usize::MAX, shift: 0 };
    let mut sum = 0u32;
    for k in 0..blocks {
        match block(&mut bits, count as u8) {
            Ok((levels, total)) => {
                let level = levels[k % 16] + levels[k % 5];
                sum = sum.wrapping_mul(31).wrapping_add(number_of(level)).wrapping_add(total as u32);
            }
            Err(Stop::No { bit }) => return (bit > 0) as u32,
        }
    }
    sum
}

// ---- residuals

#[derive(Clone, Copy)]
struct Block([[i32; 4]; 4]);

fn fits(x: i32) -> bool {
    -32768 <= x && x <= 32767
}

impl Block {
    #[inline(always)]
    fn fits(&self) -> bool {
        self.0.iter().all(|row| row.iter().all(|x| fits(*x)))
    }
    #[inline(always)]
    fn transposed(&self) -> Block {
        let mut out = *self;
        for i in 0..4 {
            for j in 0..4 {
                out.0[i][j] = self.0[j][i];
            }
        }
        out
    }
    #[inline(always)]
    fn rows(&self, f: impl Fn([i32; 4]) -> [i32; 4]) -> Block {
        let t = self.transposed();
        let mut out = *self;
        for j in 0..4 {
            let column = f(t.0[j]);
            for i in 0..4 {
                out.0[i][j] = column[i];
            }
        }
        out
    }
}

fn halves(v: [i32; 4]) -> [i32; 4] {
    [v[0] + v[2], v[0] - v[2], (v[1] >> 1) - v[3], v[1] + (v[3] >> 1)]
}

fn joined(v: [i32; 4]) -> [i32; 4] {
    [v[0] + v[3], v[1] + v[2], v[1] - v[2], v[0] - v[3]]
}

#[inline(always)]
fn transformed(d: Block) -> Option<[i16; 16]> {
    if !d.fits() {
        return None;
    }
    let e = d.transposed().rows(halves);
    if !e.fits() {
        return None;
    }
    let f = e.rows(joined).transposed();
    if !f.fits() {
        return None;
    }
    let g = f.rows(halves);
    if !g.fits() {
        return None;
    }
    let h = g.rows(joined);
    if !h.0.iter().all(|row| row.iter().all(|x| -32768 <= *x && *x <= 32735)) {
        return None;
    }
    let mut out = [0; 16];
    for k in 0..16 {
        out[k] = ((h.0[k / 4][k % 4] + 32) >> 6) as i16;
    }
    Some(out)
}

const V: [[i64; 6]; 3] = [[10, 11, 13, 14, 16, 18], [16, 18, 20, 23, 25, 29], [13, 14, 16, 18, 20, 23]];
const SCAN: [[usize; 4]; 4] = [[0, 1, 5, 6], [2, 4, 7, 12], [3, 8, 11, 13], [9, 10, 14, 15]];

#[inline(always)]
fn scaled(levels: &[i32; 16], qp: usize) -> Block {
    let mut d = [[0; 4]; 4];
    for i in 0..4 {
        for j in 0..4 {
            let v = V[if i % 2 != j % 2 { 2 } else { i % 2 }][qp % 6] << (qp / 6);
            let product = levels[SCAN[i][j]] as i64 * v;
            d[i][j] = if -32768 <= product && product <= 32767 { product as i32 } else { 32768 };
        }
    }
    Block(d)
}

#[inline(never)]
fn residual4(levels: &[i32; 16], qp: usize) -> Option<[i16; 16]> {
    transformed(scaled(levels, qp))
}

#[inline(never)]
fn residual4_with_dc(dc: i32, qp: usize) -> Option<[i16; 16]> {
    let mut d = scaled(&std::hint::black_box([0; 16]), qp);
    d.0[0][0] = dc;
    transformed(d)
}

fn dc2(l: &[i32; 4], qp: usize) -> Option<[i32; 4]> {
    let (upper, lower, left, right) = (l[0] + l[1], l[2] + l[3], l[0] - l[1], l[2] - l[3]);
    let f = [upper + lower, left + right, upper - lower, left - right];
    let dc = f.map(|x| (x * (V[0][qp % 6] << (qp / 6)) as i32) >> 1);
    if f.iter().chain(&dc).all(|x| fits(*x)) { Some(dc) } else { None }
}

struct Macroblock {
    luma: [[i32; 16]; 16],
    cb: [i32; 4],
}

struct Residuals {
    y: [i16; 256],
    cb: [i16; 64],
    cr: [i16; 64],
}

fn put(plane: &mut [i16], stride: usize, at: usize, block: &[i16; 16]) {
    for k in 0..4 {
        plane[at + stride * k..at + stride * k + 4].copy_from_slice(&block[4 * k..4 * k + 4]);
    }
}

#[inline(never)]
fn residuals(m: &Macroblock) -> Option<Residuals> {
    let mut r = Residuals { y: [0; 256], cb: [0; 64], cr: [0; 64] };
    for n in 0..16 {
        let (x, y) = (n / 4 % 2 * 8 + n % 2 * 4, n / 8 * 8 + n / 2 % 2 * 4);
        put(&mut r.y, 16, 16 * y + x, &residual4(&m.luma[n], 28)?);
    }
    for (plane, levels) in [(&mut r.cb, m.cb), (&mut r.cr, [0; 4])] {
        let dc = dc2(&levels, 28)?;
        for n in 0..4 {
            put(plane, 8, n / 2 * 32 + n % 2 * 4, &residual4_with_dc(dc[n], 28)?);
        }
    }
    Some(r)
}

fn residual(count: usize) -> u32 {
    let mut seed = 1;
    let mut sum = 0u32;
    for _ in 0..20 {
        let mut m = Macroblock { luma: [[0; 16]; 16], cb: [0; 4] };
        for block in m.luma.iter_mut() {
            *block = random_levels(&mut seed, count, 8);
        }
        m.cb.copy_from_slice(&random_levels(&mut seed, 4, 8)[..4]);
        for k in 0..1000 {
            if let Some(r) = residuals(&m) {
                let sample = r.y[k % 256] + r.cb[k % 64] + r.cr[k % 64];
                sum = sum.wrapping_mul(31).wrapping_add(number_of(sample as i32));
            }
        }
    }
    sum
}

pub fn all() {
    for count in [0, 1, 3, 6, 12] {
        let (mut seed, mut out) = (1, Out::default());
        for _ in 0..4000 {
            let block = random_levels(&mut seed, count, 1 + count as u32);
            put_block(&mut out, &block, count);
        }
        out.put(1, 1);
        time(&format!("levels_{count}"), || (0..100).fold(0u32, |sum, _| sum.wrapping_mul(7).wrapping_add(read(&out.bytes, 4000, count))));
    }
    for count in [1, 3, 8] {
        time(&format!("residual_{count}"), || residual(count));
    }
}
