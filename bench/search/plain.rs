// The search of crates/search once more, plain Rust and unproved, to compare its answers and its speed with.
// Standard input: pieces, each a line bytes=N and N bytes of a sheet (`framed` in tests/stored.py). Standard output, a
// line for each interval up to the first plan: sheet, interval, answer, nanoseconds of processor time, search nodes,
// starts.
use std::io::Read;

const OPS: usize = 24;
const STARTS: usize = 128;
const SLOTS: usize = 64;
const UNITS: usize = 8;
const NO_WALK: i32 = -1_000_000;

// Processor time of this thread, in nanoseconds.
#[repr(C)]
struct Timespec {
    seconds: i64,
    nanoseconds: i64,
}
extern "C" {
    fn clock_gettime(clock: i32, time: *mut Timespec) -> i32;
}
const THREAD_CPUTIME: i32 = 3;

fn now() -> i64 {
    let mut t = Timespec {
        seconds: 0,
        nanoseconds: 0,
    };
    unsafe {
        clock_gettime(THREAD_CPUTIME, &mut t);
    }
    t.seconds * 1_000_000_000 + t.nanoseconds
}

type Domain = [[bool; STARTS]; OPS];

struct Op {
    kind: usize,
    lo: usize,
    hi: usize,
}

struct Type {
    instances: usize,
    latency: i32,
    busy: usize,
}

struct Sheet {
    horizon: usize,
    cap: usize,
    types: Vec<Type>,
    ops: Vec<Op>,
    edges: Vec<(usize, usize, i32, i32)>,
}

impl Sheet {
    fn latency(&self, i: usize) -> i32 {
        self.types[self.ops[i].kind].latency
    }

    // In the window of i, with the result there at the end of the horizon, and busy for no longer than the interval.
    fn start_allowed(&self, l: usize, i: usize, t: usize) -> bool {
        let own = &self.types[self.ops[i].kind];
        self.ops[i].lo <= t
            && t <= self.ops[i].hi
            && t + self.latency(i) as usize <= self.horizon
            && (own.instances == 0 || own.busy <= l)
    }
}

struct Task {
    n: usize,
    l: usize,
    instances: Vec<usize>,
    busy: Vec<usize>,
    count: Vec<usize>,
    resource: Vec<usize>,
    edges: Vec<(usize, usize, i32)>,
    lag: [[i32; OPS]; OPS],
    near: [[bool; OPS]; OPS],
}

struct Found {
    plan: Option<[usize; OPS]>,
    blame: [u64; OPS],
    nodes: u64,
}

fn parse(text: &str) -> Sheet {
    let mut s = Sheet {
        horizon: 0,
        cap: 0,
        types: vec![],
        ops: vec![],
        edges: vec![],
    };
    for line in text.lines() {
        let (key, rest) = line.split_once('=').unwrap();
        let n: Vec<i32> = rest.split(',').map(|x| x.parse().unwrap()).collect();
        match key {
            "horizon" => s.horizon = n[0] as usize,
            "cap" => s.cap = n[0] as usize,
            "type" => s.types.push(Type {
                instances: n[0] as usize,
                latency: n[1],
                busy: n[2] as usize,
            }),
            "op" => s.ops.push(Op {
                kind: n[0] as usize,
                lo: n[1] as usize,
                hi: n[2] as usize,
            }),
            "edge" => s.edges.push((n[0] as usize, n[1] as usize, n[2], n[3])),
            _ => {}
        }
    }
    s
}

// The sheet at an interval, or nothing where a closed walk is bad.
fn task(s: &Sheet, l: usize) -> Option<Task> {
    let n = s.ops.len();
    let mut count = vec![0; s.types.len()];
    let resource: Vec<usize> = s.ops.iter().map(|o| o.kind).collect();
    for &r in &resource {
        count[r] += 1;
    }
    let mut lag = [[NO_WALK; OPS]; OPS];
    let mut edges = vec![];
    for &(i, j, d, b) in &s.edges {
        let total = s.latency(i) + d - b * l as i32;
        edges.push((i, j, total));
        lag[i][j] = lag[i][j].max(total);
    }
    for k in 0..n {
        for i in 0..n {
            for j in 0..n {
                if lag[i][k] != NO_WALK && lag[k][j] != NO_WALK {
                    lag[i][j] = lag[i][j].max(lag[i][k] + lag[k][j]);
                }
            }
        }
        if (0..n).any(|i| lag[i][i] > 0) {
            return None;
        }
    }
    let mut near = [[false; OPS]; OPS];
    for i in 0..n {
        for j in 0..n {
            near[i][j] = i != j && lag[i][j] != NO_WALK && lag[j][i] != NO_WALK && 1 - lag[i][j] - lag[j][i] < l as i32;
        }
    }
    for &(i, j, _) in &edges {
        if i != j {
            near[i][j] = true;
            near[j][i] = true;
        }
    }
    Some(Task {
        n,
        l,
        instances: s.types.iter().map(|t| t.instances).collect(),
        busy: s.types.iter().map(|t| t.busy).collect(),
        count,
        resource,
        edges,
        lag,
        near,
    })
}

fn least(row: &[bool; STARTS]) -> usize {
    row.iter().position(|&b| b).unwrap_or(STARTS)
}

// Rule 1: a start of j stays only where i has a start that keeps both lags with it.
fn support(p: &Task, d: &mut Domain, next: &[i32; STARTS + 1], i: usize, j: usize) -> bool {
    let (there, back) = (p.lag[i][j], p.lag[j][i]);
    let mut changed = false;
    for t in 0..STARTS {
        if !d[j][t] {
            continue;
        }
        let lo = (t as i32 + back).max(0);
        let hi = (t as i32 - there).min(STARTS as i32 - 1);
        if lo >= STARTS as i32 || next[lo as usize] > hi {
            d[j][t] = false;
            changed = true;
        }
    }
    changed
}

// Rule 2: a stretch of slots takes at most as many operations of the type as it has instances for each used slot, where
// a used slot covers those after it in which the instance is still busy; and all slots together take no more than there
// are parts of that length.
fn saturate(p: &Task, d: &mut Domain, r: usize, dirty: &mut [bool; OPS]) -> bool {
    let (l, a, k, total) = (p.l, p.instances[r], p.busy[r], p.count[r]);
    if k <= l && total > a * (l / k) {
        return false;
    }
    let ops: Vec<usize> = (0..p.n).filter(|&i| p.resource[i] == r).collect();
    let mut slots = vec![[false; SLOTS]; ops.len()];
    let mut used = [false; SLOTS];
    for (x, &i) in ops.iter().enumerate() {
        for t in 0..STARTS {
            if d[i][t] {
                slots[x][t % l] = true;
                used[t % l] = true;
            }
        }
    }
    let mut have: Vec<usize> = slots.iter().map(|z| z.iter().filter(|&&b| b).count()).collect();
    for s in 0..l {
        if !used[s] {
            continue;
        }
        let mut out = have.clone();
        let (mut inside, mut cap, mut covered) = (0, 0, 0);
        for w in 1..=l {
            let b = (s + w - 1) % l;
            if used[b] && covered < w {
                cap += a;
                covered = w - 1 + k;
            }
            if cap > total {
                break;
            }
            for x in 0..ops.len() {
                if slots[x][b] {
                    out[x] -= 1;
                    if out[x] == 0 {
                        inside += 1;
                    }
                }
            }
            if inside > cap {
                return false;
            }
            if inside < cap || inside == total {
                continue;
            }
            for x in 0..ops.len() {
                if out[x] > 0 && out[x] < have[x] {
                    have[x] = out[x];
                    dirty[ops[x]] = true;
                    for q in 0..w {
                        slots[x][(s + q) % l] = false;
                    }
                    for t in 0..STARTS {
                        if (t % l + l - s) % l < w {
                            d[ops[x]][t] = false;
                        }
                    }
                }
            }
        }
    }
    true
}

// What is known of an instance: the slots of its first and its last pin, and for how many operations there is room from
// the first on before the last.
#[derive(Clone, Copy)]
struct Unit {
    first: usize,
    last: usize,
    taken: usize,
}

// The instance with one pin more; nothing where it is not free there.
fn with_pin(l: usize, k: usize, unit: Option<Unit>, slot: usize) -> Option<Unit> {
    let Some(u) = unit else {
        return Some(Unit { first: slot, last: slot, taken: 0 });
    };
    if slot - u.last < k || u.first + l - slot < k {
        return None;
    }
    Some(Unit { first: u.first, last: slot, taken: u.taken + (slot - u.last) / k })
}

const MOST_CALLS: u32 = 5000;

// Rule 3: pins, in the order of their slots, find instances so that there is room for all operations of the type. True
// where the calls run out.
fn seat(p: &Task, r: usize, pins: &[usize], units: &mut Vec<Unit>, calls: &mut u32) -> bool {
    let (l, a, k) = (p.l, p.instances[r], p.busy[r]);
    let room: usize = units.iter().map(|u| u.taken + (l + u.first - u.last) / k).sum();
    if room + (a - units.len()) * (l / k) < p.count[r] {
        return false;
    }
    if pins.is_empty() || *calls == 0 {
        return true;
    }
    *calls -= 1;
    for v in 0..a.min(units.len() + 1) {
        let before = units.get(v).copied();
        let Some(after) = with_pin(l, k, before, pins[0]) else { continue };
        match before {
            Some(_) => units[v] = after,
            None => units.push(after),
        }
        if seat(p, r, &pins[1..], units, calls) {
            return true;
        }
        match before {
            Some(u) => units[v] = u,
            None => {
                units.pop();
            }
        }
    }
    false
}

fn seated(p: &Task, d: &Domain, r: usize) -> bool {
    let (a, k) = (p.instances[r], p.busy[r]);
    if a == 0 || k == 1 || k > p.l || p.count[r] == 0 {
        return true;
    }
    let mut pins: Vec<usize> = (0..p.n)
        .filter(|&i| p.resource[i] == r && slot_count(p, &d[i]) == 1)
        .map(|i| least(&d[i]) % p.l)
        .collect();
    pins.sort();
    let mut calls = MOST_CALLS;
    seat(p, r, &pins, &mut vec![], &mut calls)
}

fn narrow(p: &Task, d: &mut Domain, mut dirty: [bool; OPS]) -> bool {
    loop {
        while let Some(i) = (0..p.n).find(|&i| dirty[i]) {
            dirty[i] = false;
            let mut next = [STARTS as i32; STARTS + 1];
            for a in (0..STARTS).rev() {
                next[a] = if d[i][a] { a as i32 } else { next[a + 1] };
            }
            for j in 0..p.n {
                if p.near[i][j] && support(p, d, &next, i, j) {
                    dirty[j] = true;
                    if least(&d[j]) == STARTS {
                        return false;
                    }
                }
            }
        }
        for r in 0..p.instances.len() {
            if p.instances[r] > 0 && p.count[r] > p.instances[r] && !saturate(p, d, r, &mut dirty) {
                return false;
            }
        }
        if (0..p.n).any(|i| dirty[i] && least(&d[i]) == STARTS) {
            return false;
        }
        if !dirty[..p.n].contains(&true) {
            return (0..p.instances.len()).all(|r| seated(p, d, r));
        }
    }
}

// Instances as colours of the operations that clash: is there a colouring? free[c]: the operations, a bit each, that
// may have colour c. A colour is left out where a smaller one may be had by the same operations that are left.
fn coloured(clash: &[u32], a: usize, left: u32, free: [u32; UNITS]) -> bool {
    if left == 0 {
        return true;
    }
    let may = |i: usize| (0..a).filter(|&c| free[c] >> i & 1 == 1).count();
    let rest = (0..clash.len()).filter(|&i| left >> i & 1 == 1);
    let i = rest.min_by_key(|&i| (may(i), OPS - (clash[i] & left).count_ones() as usize)).unwrap();
    for c in 0..a {
        let twin = (0..c).any(|e| free[e] & left == free[c] & left);
        if free[c] >> i & 1 == 1 && !twin {
            let mut less = free;
            less[c] &= !clash[i];
            if coloured(clash, a, left & !(1 << i), less) {
                return true;
            }
        }
    }
    false
}

// There are instances of type r for these starts.
fn has_instances(p: &Task, r: usize, x: &[usize; OPS]) -> bool {
    let (l, a, k) = (p.l, p.instances[r], p.busy[r]);
    let slots: Vec<usize> = (0..p.n).filter(|&i| p.resource[i] == r).map(|i| x[i] % l).collect();
    let over = |b: usize| slots.iter().filter(|&&s| (b + l - s) % l < k).count() > a;
    if a == 0 || slots.is_empty() {
        return true;
    }
    if k > l || (0..l).any(over) {
        return false;
    }
    let near = |s: usize, t: usize| (t + l - s) % l < k || (s + l - t) % l < k;
    let clash: Vec<u32> = (0..slots.len())
        .map(|i| (0..slots.len()).filter(|&j| j != i && near(slots[i], slots[j])).map(|j| 1 << j).sum())
        .collect();
    k == 1 || coloured(&clash, a, (1 << slots.len()) - 1, [(1 << slots.len()) - 1; UNITS])
}

fn is_plan(p: &Task, x: &[usize; OPS]) -> bool {
    p.edges.iter().all(|&(i, j, total)| x[i] as i32 + total <= x[j] as i32)
        && (0..p.instances.len()).all(|r| has_instances(p, r, x))
}

fn slot_count(p: &Task, row: &[bool; STARTS]) -> u64 {
    let mut seen = [false; SLOTS];
    for t in 0..STARTS {
        if row[t] {
            seen[t % p.l] = true;
        }
    }
    seen.iter().filter(|&&b| b).count() as u64
}

fn search(p: &Task, from: &Domain, dirty: [bool; OPS], blame: [u64; OPS]) -> Found {
    let mut f = Found {
        plan: None,
        blame,
        nodes: 1,
    };
    let mut d = *from;
    if !narrow(p, &mut d, dirty) {
        return f;
    }
    let mut x = [0; OPS];
    for i in 0..p.n {
        x[i] = least(&d[i]);
    }
    if is_plan(p, &x) {
        f.plan = Some(x);
        return f;
    }
    let mut best: Option<(usize, u64)> = None;
    for i in 0..p.n {
        let c = slot_count(p, &d[i]);
        if c >= 2 && best.map_or(true, |(k, least)| c * f.blame[k] < least * f.blame[i]) {
            best = Some((i, c));
        }
    }
    let (i, m) = match best {
        Some((i, _)) => (i, p.l),
        None => match (0..p.n).find(|&i| d[i].iter().filter(|&&b| b).count() > 1) {
            Some(i) => (i, STARTS),
            None => return f,
        },
    };
    let mut one = [false; OPS];
    one[i] = true;
    for t in x[i]..STARTS {
        if !d[i][t] {
            continue;
        }
        let mut c = d;
        for q in 0..STARTS {
            if q % m != t % m {
                c[i][q] = false;
            }
        }
        let g = search(p, &c, one, f.blame);
        f.nodes += g.nodes;
        f.blame = g.blame;
        if g.plan.is_some() {
            f.plan = g.plan;
            return f;
        }
        f.blame[i] += 1;
        for q in 0..STARTS {
            if q % m == t % m {
                d[i][q] = false;
            }
        }
    }
    f
}

fn first_plan(p: &Task, sheet: &Sheet) -> Found {
    let mut d = [[false; STARTS]; OPS];
    for i in 0..p.n {
        for t in 0..sheet.horizon {
            d[i][t] = sheet.start_allowed(p.l, i, t);
        }
    }
    if (0..p.n).any(|i| least(&d[i]) == STARTS) {
        return Found {
            plan: None,
            blame: [1; OPS],
            nodes: 0,
        };
    }
    let mut f = search(p, &d, [true; OPS], [1; OPS]);
    let Some(mut x) = f.plan else { return f };
    for i in 0..p.n {
        while (0..x[i]).any(|t| d[i][t]) {
            let mut c = d;
            for t in x[i]..STARTS {
                c[i][t] = false;
            }
            let g = search(p, &c, [true; OPS], [1; OPS]);
            f.nodes += g.nodes;
            let Some(y) = g.plan else { break };
            x = y;
        }
        for t in 0..STARTS {
            if t != x[i] {
                d[i][t] = false;
            }
        }
    }
    f.plan = Some(x);
    f
}

fn main() {
    let mut all = Vec::new();
    std::io::stdin().read_to_end(&mut all).unwrap();
    let mut at = 0;
    let mut number = 0;
    while at < all.len() {
        let end = at + all[at..].iter().position(|&b| b == b'\n').unwrap();
        let length: usize = std::str::from_utf8(&all[at + 6..end]).unwrap().parse().unwrap();
        let sheet = parse(std::str::from_utf8(&all[end + 1..end + 1 + length]).unwrap());
        at = end + 1 + length;
        for l in 1..=sheet.cap {
            let began = now();
            let found = task(&sheet, l).map(|p| first_plan(&p, &sheet));
            let took = now() - began;
            let answer = match &found {
                None => 5,
                Some(f) if f.plan.is_none() => 6,
                Some(_) => 0,
            };
            let nodes = found.as_ref().map_or(0, |f| f.nodes);
            let starts: Vec<String> = found
                .and_then(|f| f.plan)
                .map_or(vec![], |x| x[..sheet.ops.len()].iter().map(|t| t.to_string()).collect());
            println!("{} {} {} {} {} {}", number, l, answer, took, nodes, starts.join(","));
            if answer == 0 {
                break;
            }
        }
        number += 1;
    }
}
