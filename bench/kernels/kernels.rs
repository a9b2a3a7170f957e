// The kernels of main.rt in plain Rust, sample by sample, with the same digests. rustc --edition 2021 -C opt-level=3 -C target-cpu=x86-64-v2 kernels.rs
use std::time::Instant;

mod blocks;
#[allow(dead_code)]
mod tables;

struct Plane {
    width: usize,
    height: usize,
    samples: Vec<u8>,
}

impl Plane {
    fn new(width: usize, height: usize) -> Plane {
        Plane { width, height, samples: vec![0; width * height] }
    }
    #[inline(always)]
    fn get(&self, x: usize, y: usize) -> u8 {
        self.samples[y * self.width + x]
    }
    #[inline(always)]
    fn set(&mut self, x: usize, y: usize, sample: u8) {
        let place = y * self.width + x;
        self.samples[place] = sample;
    }
    #[inline(always)]
    fn row(&self, y: usize) -> &[u8] {
        &self.samples[y * self.width..(y + 1) * self.width]
    }
}

// ---- inter prediction

#[derive(Clone, Copy)]
struct MotionVector {
    x: i16,
    y: i16,
}

type Area = [u8; 504];

#[inline(always)]
fn clipped(z: i32, size: usize) -> usize {
    z.clamp(0, size as i32 - 1) as usize
}

#[inline(always)]
fn copy_row(row: &[u8], left: i32, out: &mut [u8]) {
    let n = out.len();
    if left >= 0 && left as usize + n <= row.len() {
        out.copy_from_slice(&row[left as usize..left as usize + n]);
    } else {
        for (u, sample) in out.iter_mut().enumerate() {
            *sample = row[clipped(left + u as i32, row.len())];
        }
    }
}

#[inline(always)]
fn fetch(p: &Plane, left: i32, top: i32, columns: usize, rows: usize) -> Area {
    let mut area = [0; 504];
    for v in 0..rows {
        let row = p.row(clipped(top + v as i32, p.height));
        copy_row(row, left, &mut area[24 * v..24 * v + columns]);
    }
    area
}

#[inline(always)]
fn taps(e: u8, f: u8, g: u8, h: u8, i: u8, j: u8) -> i16 {
    (e as i16 + j as i16) - 5 * (f as i16 + i as i16) + 20 * (g as i16 + h as i16)
}

#[inline(always)]
fn taps_again(e: i16, f: i16, g: i16, h: i16, i: i16, j: i16) -> i32 {
    (e as i32 + j as i32) - 5 * (f as i32 + i as i32) + 20 * (g as i32 + h as i32)
}

#[inline(always)]
fn half(v: i16) -> u8 {
    ((v + 16) >> 5).clamp(0, 255) as u8
}

#[inline(always)]
fn central(v: i32) -> u8 {
    ((v + 512) >> 10).clamp(0, 255) as u8
}

#[inline(always)]
fn mean(a: u8, b: u8) -> u8 {
    ((a as u16 + b as u16 + 1) >> 1) as u8
}

#[inline(always)]
fn whole(area: &Area, u: usize, v: usize) -> u8 {
    area[24 * v + u]
}

#[inline(always)]
fn across_value(area: &Area, u: usize, v: usize) -> i16 {
    let k = 24 * v + u;
    taps(area[k], area[k + 1], area[k + 2], area[k + 3], area[k + 4], area[k + 5])
}

#[inline(always)]
fn across(area: &Area, u: usize, v: usize) -> u8 {
    half(across_value(area, u, v))
}

#[inline(always)]
fn down(area: &Area, u: usize, v: usize) -> u8 {
    let k = 24 * v + u;
    half(taps(area[k], area[k + 24], area[k + 48], area[k + 72], area[k + 96], area[k + 120]))
}

#[inline(always)]
fn rows_across<const W: usize, const H: usize>(area: &Area) -> [i16; 336] {
    let mut rows = [0; 336];
    for v in 0..H + 5 {
        for u in 0..W {
            rows[16 * v + u] = across_value(area, u, v);
        }
    }
    rows
}

#[inline(always)]
fn middle(rows: &[i16; 336], u: usize, v: usize) -> u8 {
    let k = 16 * v + u;
    central(taps_again(rows[k], rows[k + 16], rows[k + 32], rows[k + 48], rows[k + 64], rows[k + 80]))
}

#[inline(always)]
fn side_sample<const X: usize, const Y: usize>(area: &Area, u: usize, v: usize) -> u8 {
    match (X, Y) {
        (0, 0) => whole(area, u + 2, v + 2),
        (1, 0) => mean(whole(area, u + 2, v + 2), across(area, u, v + 2)),
        (2, 0) => across(area, u, v + 2),
        (3, 0) => mean(whole(area, u + 3, v + 2), across(area, u, v + 2)),
        (0, 1) => mean(whole(area, u + 2, v + 2), down(area, u + 2, v)),
        (0, 2) => down(area, u + 2, v),
        (0, 3) => mean(whole(area, u + 2, v + 3), down(area, u + 2, v)),
        (1, 1) => mean(across(area, u, v + 2), down(area, u + 2, v)),
        (3, 1) => mean(across(area, u, v + 2), down(area, u + 3, v)),
        (1, 3) => mean(down(area, u + 2, v), across(area, u, v + 3)),
        _ => mean(across(area, u, v + 3), down(area, u + 3, v)),
    }
}

#[inline(always)]
fn middle_sample<const X: usize, const Y: usize>(area: &Area, rows: &[i16; 336], u: usize, v: usize) -> u8 {
    let j = middle(rows, u, v);
    match (X, Y) {
        (1, _) => mean(down(area, u + 2, v), j),
        (3, _) => mean(j, down(area, u + 3, v)),
        (_, 1) => mean(across(area, u, v + 2), j),
        (_, 2) => j,
        _ => mean(j, across(area, u, v + 3)),
    }
}

#[inline(always)]
fn block<const W: usize, const H: usize, const X: usize, const Y: usize>(area: &Area, out: &mut [u8]) {
    assert!(out.len() == W * H);
    if X == 0 || Y == 0 || (X != 2 && Y != 2) {
        for v in 0..H {
            let mut row = [0u8; 16];
            for u in 0..16 {
                row[u] = side_sample::<X, Y>(area, u, v);
            }
            out[W * v..W * v + W].copy_from_slice(&row[..W]);
        }
    } else {
        let rows = rows_across::<W, H>(area);
        for v in 0..H {
            for u in 0..W {
                out[W * v + u] = middle_sample::<X, Y>(area, &rows, u, v);
            }
        }
    }
}

#[inline(always)]
fn column<const W: usize, const H: usize, const X: usize>(area: &Area, y: usize, out: &mut [u8]) {
    match y {
        0 => block::<W, H, X, 0>(area, out),
        1 => block::<W, H, X, 1>(area, out),
        2 => block::<W, H, X, 2>(area, out),
        _ => block::<W, H, X, 3>(area, out),
    }
}

#[inline(never)]
fn luma<const W: usize, const H: usize>(p: &Plane, x: usize, y: usize, vector: MotionVector, out: &mut [u8]) {
    let left = x as i32 + (vector.x >> 2) as i32 - 2;
    let top = y as i32 + (vector.y >> 2) as i32 - 2;
    let area = fetch(p, left, top, W + 5, H + 5);
    let below = (vector.y & 3) as usize;
    match vector.x & 3 {
        0 => column::<W, H, 0>(&area, below, out),
        1 => column::<W, H, 1>(&area, below, out),
        2 => column::<W, H, 2>(&area, below, out),
        _ => column::<W, H, 3>(&area, below, out),
    }
}

#[inline(never)]
fn chroma<const W: usize, const H: usize>(p: &Plane, x: usize, y: usize, vector: MotionVector, out: &mut [u8]) {
    let left = x as i32 + (vector.x >> 3) as i32;
    let top = y as i32 + (vector.y >> 3) as i32;
    let area = fetch(p, left, top, W + 1, H + 1);
    let (x, y) = ((vector.x & 7) as u16, (vector.y & 7) as u16);
    let (a, b, c, d) = ((8 - x) * (8 - y), x * (8 - y), (8 - x) * y, x * y);
    assert!(out.len() == W * H);
    for v in 0..H {
        for u in 0..W {
            let k = 24 * v + u;
            let upper = a * area[k] as u16 + b * area[k + 1] as u16;
            let lower = c * area[k + 24] as u16 + d * area[k + 25] as u16;
            out[W * v + u] = ((upper + lower + 32) >> 6) as u8;
        }
    }
}

// ---- the runs

fn fill(plane: &mut Plane) {
    let mut seed: u32 = 1;
    for y in 0..plane.height {
        for x in 0..plane.width {
            seed = seed.wrapping_mul(1664525).wrapping_add(1013904223);
            let base = ((x / 8 + y / 8) % 200) as u8;
            let noise = ((seed >> 24) % 8) as u8;
            plane.set(x, y, base.wrapping_add(noise));
        }
    }
}

fn time(name: &str, run: impl FnOnce() -> u32) {
    let start = Instant::now();
    let sum = run();
    println!("{name} {} {sum}", start.elapsed().as_micros());
}

fn interpolated<const N: usize>(plane: &Plane, out: &mut [u8], call: impl Fn(&Plane, usize, usize, &mut [u8])) -> u32 {
    let mut sum = 0u32;
    for y in 1..1088 / N - 1 {
        for x in 1..1920 / N - 1 {
            call(plane, N * x, N * y, out);
            sum = sum.wrapping_mul(31).wrapping_add(out[(x + y) % (N * N)] as u32);
        }
    }
    sum
}

fn main() {
    blocks::all();
    let mut plane = Plane::new(1920, 1088);
    fill(&mut plane);
    let mut out = [0u8; 256];
    for k in 0..16i16 {
        let vector = MotionVector { x: k % 4, y: k / 4 };
        time(&format!("luma16_{}_{}", k % 4, k / 4), || {
            (0..10).fold(0u32, |s, _| s.wrapping_mul(7).wrapping_add(interpolated::<16>(&plane, &mut out, |p, x, y, o| luma::<16, 16>(p, x, y, vector, o))))
        });
    }
    for k in 0..16i16 {
        let vector = MotionVector { x: k % 4, y: k / 4 };
        time(&format!("luma8_{}_{}", k % 4, k / 4), || {
            (0..10).fold(0u32, |s, _| s.wrapping_mul(7).wrapping_add(interpolated::<8>(&plane, &mut out[..64], |p, x, y, o| luma::<8, 8>(p, x, y, vector, o))))
        });
    }
    let vector = MotionVector { x: 3, y: 5 };
    time("chroma8", || {
        (0..20).fold(0u32, |s, _| s.wrapping_mul(7).wrapping_add(interpolated::<8>(&plane, &mut out[..64], |p, x, y, o| chroma::<8, 8>(p, x, y, vector, o))))
    });
}
