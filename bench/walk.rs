// The long walk in plain Rust, for comparison with the program `walk`: a tape under an empty table, the signal of L scans,
// full copies in S slots. Built by `rustc -O bench/walk.rs`, called as `walk L S`; it prints the steps of the walk back and a checksum.
use std::env;
use std::time::Instant;

type State = [u32; 10];

fn input(i: u32) -> u32 {
    i.wrapping_mul(1_664_525).wrapping_add(1_013_904_223) >> 4
}

// The input's cell is written; the empty table then puts control 255.
fn step(x: &mut State, input: u32) {
    let a = input & 0xffff;
    if (1..=128).contains(&a) {
        let c = a - 1;
        let shift = 2 * (c % 16);
        let w = &mut x[(2 + c / 16) as usize];
        *w = (*w & !(3 << shift)) | (((input >> 16) & 3) << shift);
    }
    x[0] = 255;
}

fn split(m: u32, g: u32) -> u32 {
    let (mut r, mut top, mut below, mut under) = (0u32, 1u32, 0u32, 0u32);
    while top < m {
        under = below;
        below = top;
        r += 1;
        top = (top as u64 * (g + r) as u64 / r as u64) as u32;
    }
    1.max(under).max(m.saturating_sub(top - below))
}

fn main() {
    let args: Vec<u32> = env::args().skip(1).map(|a| a.parse().unwrap()).collect();
    let (l, s) = (args[0], args[1]);
    let mut x: State = [0; 10];
    let began = Instant::now();
    let mut held: Vec<(u32, State)> = vec![(0, x)];
    for i in 0..l {
        step(&mut x, input(i));
    }
    let forward = began.elapsed();
    let (mut steps, mut sum) = (0u64, 0u32);
    let mut n = l;
    while n > 0 {
        if held.last().unwrap().0 >= n {
            held.pop();
        }
        let (p, state) = *held.last().unwrap();
        x = state;
        let (mut at, mut m, mut g) = (p, n - p, s - (held.len() as u32 - 1));
        while m > 1 {
            let q = if g == 1 { m - 1 } else { split(m, g) };
            for i in at..at + q {
                step(&mut x, input(i));
            }
            steps += q as u64;
            at += q;
            if g == 1 {
                break;
            }
            m -= q;
            g -= 1;
            if m > 1 {
                held.push((at, x));
            }
        }
        n -= 1;
        sum = sum.wrapping_mul(31).wrapping_add(x[2]);
    }
    println!("steps {steps}, checksum {sum:08x}, forward {forward:?}, both {:?}", began.elapsed());
}
