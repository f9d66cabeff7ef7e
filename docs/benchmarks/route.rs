// Times the proved route search beside a plain breadth-first search over adjacency lists, on four devices of 256 locations, in one run.
// `run-route` builds it and runs it. Times are of one search, in ns; a share is the proved search's time divided by the plain one's.
// Both sides keep their tables between searches, and both stop as soon as the other end is met. The plain search is there twice, with a VecDeque
// and with an array as its queue. The work is cut into slices. In a round every search has its turn at each slice, and a slice's time is the least
// of all rounds, so that what else the computer does weighs on no side alone. It is the processor's time of this thread. The sums that the sides
// give must be equal in each slice.
mod clock;
mod devices;

use clock::of_thread;
use devices::{comb, grid, line, random, Edges};
use std::collections::VecDeque;

#[link(name = "bench_route", kind = "static")]
extern "C" {
    fn bench_distances(edges: *const u8, edges_len: usize, start: u16, step: u16, times: u32) -> u64;
    fn bench_routes(edges: *const u8, edges_len: usize, start: u16, step: u16, times: u32) -> u64;
}

const NONE: usize = usize::MAX;

// How many searches a slice has.
const TIMES: usize = 1024;

// What the plain searches go over, and the tables that they keep.
struct Plain {
    near: Vec<Vec<usize>>,
    free: Vec<bool>,
    level: Vec<usize>,
    deque: VecDeque<usize>,
    queue: Vec<usize>,
    out: [u8; 256],
}

impl Plain {
    fn new(edges: &[(usize, usize)]) -> Plain {
        let mut near = vec![vec![]; 256];
        for &(x, y) in edges {
            near[x].push(y);
            near[y].push(x);
        }
        for l in &mut near {
            l.sort();
        }
        Plain { near, free: vec![true; 256], level: vec![NONE; 256], deque: VecDeque::with_capacity(256), queue: vec![0; 256], out: [0; 256] }
    }

    // The number of edges of the shortest path, 0 where there is none: levels from b until a is met.
    fn distance_by_deque(&mut self, a: usize, b: usize) -> usize {
        if a == b {
            return 0;
        }
        self.level.fill(NONE);
        self.level[b] = 0;
        self.deque.clear();
        self.deque.push_back(b);
        while let Some(x) = self.deque.pop_front() {
            for &y in &self.near[x] {
                if y == a {
                    return self.level[x] + 1;
                }
                if self.level[y] == NONE && self.free[y] {
                    self.level[y] = self.level[x] + 1;
                    self.deque.push_back(y);
                }
            }
        }
        0
    }

    fn distance_by_array(&mut self, a: usize, b: usize) -> usize {
        if a == b {
            return 0;
        }
        self.level.fill(NONE);
        self.level[b] = 0;
        self.queue[0] = b;
        let (mut head, mut tail) = (0, 1);
        while head < tail {
            let x = self.queue[head];
            head += 1;
            for &y in &self.near[x] {
                if y == a {
                    return self.level[x] + 1;
                }
                if self.level[y] == NONE && self.free[y] {
                    self.level[y] = self.level[x] + 1;
                    self.queue[tail] = y;
                    tail += 1;
                }
            }
        }
        0
    }

    // The route of k edges, from a on to the smallest neighbour that is one level nearer; the lists are in order. It adds to the sum what it adds
    // in crate bench_route: the number of its locations, and the locations at a half and at a third of it.
    fn route(&mut self, a: usize, k: usize) -> u64 {
        if k == 0 {
            return 0;
        }
        let mut x = a;
        self.out[0] = a as u8;
        for i in 1..=k {
            for &y in &self.near[x] {
                if self.level[y] == k - i {
                    x = y;
                    break;
                }
            }
            self.out[i] = x as u8;
        }
        let n = k + 1;
        (n + self.out[n / 2] as usize * 512 + self.out[n / 3] as usize * 131072) as u64
    }

    // The sum over a slice, as crate bench_route has it: pair p is p % 256 and p / 256, and each is step after the one before.
    fn searches(&mut self, f: usize, first: usize, step: usize) -> u64 {
        let mut sum = 0;
        for i in 0..TIMES {
            let p = (first + i * step) % 65536;
            let (a, b) = (p % 256, p / 256);
            let k = if f % 3 == 0 { self.distance_by_deque(a, b) } else { self.distance_by_array(a, b) };
            sum += if f < 3 { k as u64 } else { self.route(a, k) };
        }
        sum
    }
}

// The devices, and two ends of each that lie far apart.
fn devices() -> Vec<(&'static str, Edges, (usize, usize))> {
    vec![
        ("line", line(), (0, 255)),
        ("grid 16x16", grid(), (0, 255)),
        ("random, 1,024 edges", random(), (0, 255)),
        ("comb", comb(), (15, 255)),
    ]
}

// The least time of each search on each of so many slices, summed over the slices, for one search in nanoseconds.
fn measure(edges: &[(usize, usize)], start: usize, step: usize, slices: usize, rounds: usize) -> [f64; 6] {
    let bytes: Vec<u8> = edges.iter().flat_map(|&(x, y)| [x as u8, y as u8]).collect();
    let mut plain = Plain::new(edges);
    let mut best = vec![[f64::MAX; 6]; slices];
    for _ in 0..rounds {
        for (slice, best) in best.iter_mut().enumerate() {
            let first = (start + slice * TIMES * step) % 65536;
            let mut sums = [0u64; 6];
            for f in 0..6 {
                let begun = of_thread();
                sums[f] = match f {
                    2 => unsafe { bench_distances(bytes.as_ptr(), bytes.len(), first as u16, step as u16, TIMES as u32) },
                    5 => unsafe { bench_routes(bytes.as_ptr(), bytes.len(), first as u16, step as u16, TIMES as u32) },
                    _ => plain.searches(f, first, step),
                };
                best[f] = best[f].min((of_thread() - begun).as_secs_f64() * 1e9 / TIMES as f64);
            }
            assert!(sums[0] == sums[1] && sums[1] == sums[2] && sums[3] == sums[4] && sums[4] == sums[5], "the answers differ");
        }
    }
    let mut total = [0.0; 6];
    for b in &best {
        for f in 0..6 {
            total[f] += b[f] / slices as f64;
        }
    }
    total
}

fn main() {
    let rounds: usize = std::env::args().nth(1).map_or(20, |x| x.parse().expect("the number of rounds"));
    println!("| device | ends | distance | VecDeque | share | array | share | find_route | VecDeque | share | array | share |");
    println!("|--|--|--|--|--|--|--|--|--|--|--|--|");
    for (name, edges, (a, b)) in devices() {
        for (ends, start, step, slices) in [("all pairs", 0, 1, 64), ("far ends", a + 256 * b, 0, 4)] {
            let t = measure(&edges, start, step, slices, rounds);
            print!("| {name} | {ends} |");
            for f in [0, 3] {
                let (deque, array, proved) = (t[f], t[f + 1], t[f + 2]);
                print!(" {proved:.0} | {deque:.0} | {:.2} | {array:.0} | {:.2} |", proved / deque, proved / array);
            }
            println!();
        }
    }
}
