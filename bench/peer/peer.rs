//! The table of a study as a good Rust engineer would write it without proofs: each receiver's deliveries are sorted by
//! their keys and replayed to a detector. It stands on std alone, so that anyone with a Rust compiler can set it beside
//! the program: `rustc --edition 2021 -O -C target-cpu=x86-64-v2 peer.rs`.
//!
//!     peer < plan.json      the table of an accepted plan; of any other text it says that it is none
//!
//! It is a third witness beside the program and the reference, and what `bench/compare` sets the program beside. It uses
//! one thread.

use std::collections::HashMap;
use std::fmt::Write as _;
use std::io::{Read, Write as _};
use std::process::ExitCode;

// ---- SHA-256 (FIPS 180-4) of one short message

fn round_constants() -> [u32; 64] {
    let is_prime = |n: u32| (2..n).take_while(|d| d * d <= n).all(|d| n % d != 0);
    let primes = (2..).filter(|n| is_prime(*n)).take(64);
    let mut constants = [0; 64];
    for (constant, prime) in constants.iter_mut().zip(primes) {
        *constant = root_bits(prime, 3);
    }
    constants
}

/// The first 32 bits of the fraction of a root of a prime: the greatest x below 2^36 with x^n <= prime * 2^(32 n).
fn root_bits(prime: u32, n: u32) -> u32 {
    let (mut low, mut high) = (0u64, 1u64 << 36);
    while high - low > 1 {
        let middle = (low + high) / 2;
        if is_at_most(middle, n, prime) {
            low = middle;
        } else {
            high = middle;
        }
    }
    low as u32
}

/// Whether x^n <= prime * 2^(32 n), for n of 2 or 3, with 128 bits at a time.
fn is_at_most(x: u64, n: u32, prime: u32) -> bool {
    let square = u128::from(x) * u128::from(x);
    if n == 2 {
        return square <= u128::from(prime) << 64;
    }
    // x^3 <= prime * 2^96, where x^2 = high * 2^64 + low
    let (high, low) = (square >> 64, square & u128::from(u64::MAX));
    let upper = high * u128::from(x) + ((low * u128::from(x)) >> 64);
    let lower = (low * u128::from(x)) & u128::from(u64::MAX);
    let bound = u128::from(prime) << 32;
    upper < bound || upper == bound && lower == 0
}

fn sha256(constants: &[u32; 64], message: &[u8]) -> [u8; 32] {
    assert!(message.len() < 56, "one block is enough here");
    let mut block = [0u8; 64];
    block[..message.len()].copy_from_slice(message);
    block[message.len()] = 0x80;
    block[56..].copy_from_slice(&(8 * message.len() as u64).to_be_bytes());
    let mut words = [0u32; 64];
    for (word, bytes) in words.iter_mut().zip(block.chunks_exact(4)) {
        *word = u32::from_be_bytes(bytes.try_into().unwrap());
    }
    for i in 16..64 {
        let (a, b) = (words[i - 15], words[i - 2]);
        let first = a.rotate_right(7) ^ a.rotate_right(18) ^ (a >> 3);
        let second = b.rotate_right(17) ^ b.rotate_right(19) ^ (b >> 10);
        words[i] = words[i - 16].wrapping_add(first).wrapping_add(words[i - 7]).wrapping_add(second);
    }
    let start: [u32; 8] = std::array::from_fn(|i| root_bits([2, 3, 5, 7, 11, 13, 17, 19][i], 2));
    let [mut a, mut b, mut c, mut d, mut e, mut f, mut g, mut h] = start;
    for i in 0..64 {
        let s1 = e.rotate_right(6) ^ e.rotate_right(11) ^ e.rotate_right(25);
        let choice = (e & f) ^ (!e & g);
        let one = h.wrapping_add(s1).wrapping_add(choice).wrapping_add(constants[i]).wrapping_add(words[i]);
        let s0 = a.rotate_right(2) ^ a.rotate_right(13) ^ a.rotate_right(22);
        let majority = (a & b) ^ (a & c) ^ (b & c);
        let two = s0.wrapping_add(majority);
        (h, g, f, e, d, c, b, a) = (g, f, e, d.wrapping_add(one), c, b, a, one.wrapping_add(two));
    }
    let mut digest = [0; 32];
    for ((place, now), first) in digest.chunks_exact_mut(4).zip([a, b, c, d, e, f, g, h]).zip(start) {
        place.copy_from_slice(&now.wrapping_add(first).to_be_bytes());
    }
    digest
}

// ---- ChaCha with 8 rounds (RFC 8439), a counter and a stream of 64 bits each

fn quarter_round(state: &mut [u32; 16], a: usize, b: usize, c: usize, d: usize) {
    for (x, y, z, by) in [(a, b, d, 16), (c, d, b, 12), (a, b, d, 8), (c, d, b, 7)] {
        state[x] = state[x].wrapping_add(state[y]);
        state[z] = (state[z] ^ state[x]).rotate_left(by);
    }
}

/// The words of a trial, with the block that was read last.
struct Source {
    first: [u32; 16],
    block: [u32; 16],
    number: Option<u64>,
}

impl Source {
    fn new(seed: &[u8; 32], trial: u32) -> Source {
        let mut first = [0; 16];
        first[..4].copy_from_slice(&[0x6170_7865, 0x3320_646e, 0x7962_2d32, 0x6b20_6574]);
        for (word, bytes) in first[4..12].iter_mut().zip(seed.chunks_exact(4)) {
            *word = u32::from_le_bytes(bytes.try_into().unwrap());
        }
        first[14] = trial;
        Source { first, block: [0; 16], number: None }
    }

    /// The key at a place: the word there above the next one. A place is even.
    fn key(&mut self, place: u64) -> u64 {
        let number = place / 16;
        if self.number != Some(number) {
            (self.first[12], self.first[13]) = (number as u32, (number >> 32) as u32);
            let mut state = self.first;
            for _ in 0..4 {
                for i in 0..4 {
                    quarter_round(&mut state, i, i + 4, i + 8, i + 12);
                }
                for i in 0..4 {
                    quarter_round(&mut state, i, (i + 1) % 4 + 4, (i + 2) % 4 + 8, (i + 3) % 4 + 12);
                }
            }
            for (word, first) in state.iter_mut().zip(self.first) {
                *word = word.wrapping_add(first);
            }
            (self.block, self.number) = (state, Some(number));
        }
        let at = (place % 16) as usize;
        u64::from(self.block[at]) << 32 | u64::from(self.block[at + 1])
    }
}

// ---- plans

#[derive(Default)]
struct Plan {
    copies: u64,
    speak: bool,
    /// How many targets of f are deaf: all, or up to a number.
    deaf: u64,
    f: Vec<u64>,
    h: Vec<u64>,
    implicit: bool,
    k: Vec<u64>,
    l: Vec<u64>,
    liars: u64,
    links: u64,
    nodes: u64,
    repeats: u64,
    seed: [u8; 32],
    version: u64,
}

/// The fields of an object of whole numbers, texts, truth values and lists of whole numbers, each as it is written.
fn fields_of(text: &str) -> Option<HashMap<&str, &str>> {
    let mut fields = HashMap::new();
    let mut rest = text.trim().strip_prefix('{')?.strip_suffix('}')?.trim();
    while !rest.is_empty() {
        let (name, after) = rest.strip_prefix('"')?.split_once('"')?;
        let after = after.trim_start().strip_prefix(':')?.trim_start();
        let end = match after.as_bytes().first()? {
            b'[' => after.find(']')? + 1,
            b'"' => after[1..].find('"')? + 2,
            _ => after.find(|c: char| c == ',' || c.is_whitespace()).unwrap_or(after.len()),
        };
        fields.insert(name, &after[..end]);
        rest = after[end..].trim_start();
        rest = rest.strip_prefix(',').unwrap_or(rest).trim_start();
    }
    Some(fields)
}

fn list(written: &str) -> Option<Vec<u64>> {
    let inside = written.strip_prefix('[')?.strip_suffix(']')?;
    inside.split(',').map(|number| number.trim().parse().ok()).collect()
}

fn seed_of(written: &str) -> Option<[u8; 32]> {
    let digits = written.strip_prefix('"')?.strip_suffix('"')?;
    let mut seed = [0; 32];
    for (i, byte) in seed.iter_mut().enumerate() {
        *byte = u8::from_str_radix(digits.get(2 * i..2 * i + 2)?, 16).ok()?;
    }
    Some(seed)
}

fn plan_of(text: &str) -> Option<Plan> {
    let fields = fields_of(text)?;
    let number = |name: &str| fields.get(name)?.parse::<u64>().ok();
    let version = number("version")?;
    let deaf = match version {
        2 => number("deaf")?,
        _ if *fields.get("faults")? == "\"deaf\"" => u64::MAX,
        _ => 0,
    };
    Some(Plan {
        copies: number("copies")?,
        speak: *fields.get("dead")? == "\"speak\"",
        deaf,
        f: list(fields.get("f")?)?,
        h: list(fields.get("h")?)?,
        implicit: *fields.get("implicit")? == "true",
        k: list(fields.get("k")?)?,
        l: list(fields.get("l")?)?,
        liars: number("liars")?,
        links: number("links")?,
        nodes: number("nodes")?,
        repeats: number("repeats")?,
        seed: seed_of(fields.get("seed")?)?,
        version,
    })
}

#[derive(Clone, Copy)]
struct Cell {
    k: usize,
    h: u32,
    l: u32,
    f: usize,
}

fn cells(plan: &Plan) -> Vec<Cell> {
    let mut cells = Vec::new();
    for &k in &plan.k {
        for &h in plan.h.iter().filter(|h| **h <= k) {
            for &l in plan.l.iter().filter(|l| **l <= h) {
                for &f in &plan.f {
                    cells.push(Cell { k: k as usize, h: h as u32, l: l as u32, f: f as usize });
                }
            }
        }
    }
    cells
}

// ---- rings

/// Of each ring, who observes a process and whom it observes.
struct Rings {
    observers: Vec<Vec<usize>>,
    subjects: Vec<Vec<usize>>,
}

fn rings_of(plan: &Plan) -> Rings {
    let constants = round_constants();
    let nodes = plan.nodes as usize;
    let mut rings = Rings { observers: Vec::new(), subjects: Vec::new() };
    for number in 0..*plan.k.last().unwrap() as u32 {
        let mut order: Vec<usize> = (0..nodes).collect();
        order.sort_by_cached_key(|process| {
            let mut message = [0; 40];
            message[..32].copy_from_slice(&plan.seed);
            message[32..36].copy_from_slice(&number.to_be_bytes());
            message[36..].copy_from_slice(&(*process as u32).to_be_bytes());
            (sha256(&constants, &message), *process)
        });
        let (mut observers, mut subjects) = (vec![0; nodes], vec![0; nodes]);
        for (at, process) in order.iter().enumerate() {
            let next = order[(at + 1) % nodes];
            observers[next] = *process;
            subjects[*process] = next;
        }
        rings.observers.push(observers);
        rings.subjects.push(subjects);
    }
    rings
}

// ---- a trial

#[derive(Clone, Copy, Default)]
struct Role {
    target: bool,
    crashed: bool,
    deaf: bool,
    liar: bool,
    /// The other end of its cut link, if it has one.
    link: Option<usize>,
}

fn roles_of(plan: &Plan, f: usize, source: &mut Source, rings: &Rings) -> Vec<Role> {
    let nodes = plan.nodes as usize;
    let mut order: Vec<usize> = (0..nodes).collect();
    order.sort_by_cached_key(|process| (source.key(2 * *process as u64), *process));
    let deaf = plan.deaf.min(f as u64) as usize;
    let mut roles = vec![Role::default(); nodes];
    for (place, process) in order.into_iter().enumerate() {
        let role = &mut roles[process];
        if place < f {
            role.target = true;
            role.crashed = place < f - deaf;
            role.deaf = !role.crashed;
        } else if place < f + plan.liars as usize {
            role.liar = true;
        } else if place < f + (plan.liars + plan.links) as usize {
            role.link = Some(rings.subjects[0][process]);
        }
    }
    roles
}

fn alerts(plan: &Plan, k: usize, roles: &[Role], rings: &Rings) -> Vec<(usize, usize)> {
    let mut edges = Vec::new();
    for subject in 0..roles.len() {
        for ring in 0..k {
            let observer = rings.observers[ring][subject];
            let (seen, eye) = (roles[subject], roles[observer]);
            let is_up = !eye.crashed;
            let is_cut = eye.link == Some(subject) || seen.link == Some(observer);
            if seen.target && (is_up || plan.speak) || eye.deaf || eye.liar || is_up && is_cut {
                edges.push((ring, subject));
            }
        }
    }
    edges
}

/// Reports by subject as one bit for each ring, with how many processes are stable and how many unstable.
struct Detector<'a> {
    rings: &'a Rings,
    cell: Cell,
    implicit: bool,
    masks: Vec<u32>,
    touched: Vec<usize>,
    stable: usize,
    unstable: usize,
}

impl Detector<'_> {
    /// How many rings report a process or are gained by it.
    fn count(&self, process: usize) -> u32 {
        let mask = self.masks[process];
        if !self.implicit || mask.count_ones() < self.cell.l {
            return mask.count_ones();
        }
        let gained = (0..self.cell.k).filter(|ring| {
            let observer = self.rings.observers[*ring][process];
            mask >> ring & 1 == 1 || self.masks[observer].count_ones() >= self.cell.l
        });
        gained.count() as u32
    }

    fn weigh(&mut self, count: u32, by: isize) {
        if count >= self.cell.h {
            self.stable = self.stable.wrapping_add_signed(by);
        } else if count >= self.cell.l {
            self.unstable = self.unstable.wrapping_add_signed(by);
        }
    }

    /// Delivers an alert. Whether a proposal is to be made now.
    fn deliver(&mut self, (ring, subject): (usize, usize)) -> bool {
        let before = self.masks[subject];
        let after = before | 1 << ring;
        if after != before {
            let turns = before.count_ones() < self.cell.l && after.count_ones() >= self.cell.l;
            let mut others = vec![subject];
            if turns && self.implicit {
                others.extend((0..self.cell.k).map(|ring| self.rings.subjects[ring][subject]));
                others.sort_unstable();
                others.dedup();
            }
            for process in &others {
                self.weigh(self.count(*process), -1);
            }
            if before == 0 {
                self.touched.push(subject);
            }
            self.masks[subject] = after;
            for process in &others {
                self.weigh(self.count(*process), 1);
            }
        }
        self.stable > 0 && self.unstable == 0
    }

    fn members(&self) -> Vec<usize> {
        let mut members: Vec<usize> = self.touched.clone();
        members.retain(|process| self.count(*process) >= self.cell.h);
        members.sort_unstable();
        members
    }

    fn clear(&mut self) {
        for process in self.touched.drain(..) {
            self.masks[process] = 0;
        }
        (self.stable, self.unstable) = (0, 0);
    }
}

/// The sums of a cell.
#[derive(Default)]
struct Sums {
    receivers: u64,
    conflicts: u64,
    silent: u64,
    extra: u64,
    votes: u64,
    decided: u64,
    right: u64,
    settled: u64,
}

fn add_trial(plan: &Plan, rings: &Rings, cell: Cell, trial: u32, sums: &mut Sums) {
    let mut source = Source::new(&plan.seed, trial);
    let roles = roles_of(plan, cell.f, &mut source, rings);
    let edges = alerts(plan, cell.k, &roles, rings);
    let targets: Vec<usize> = (0..roles.len()).filter(|process| roles[*process].target).collect();
    let masks = vec![0; roles.len()];
    let mut detector =
        Detector { rings, cell, implicit: plan.implicit, masks, touched: Vec::new(), stable: 0, unstable: 0 };
    let mut ballot: HashMap<Vec<usize>, u64> = HashMap::new();
    let mut order: Vec<(u64, u64, u64, (usize, usize))> = Vec::new();
    for receiver in (0..roles.len()).filter(|process| !roles[*process].target) {
        sums.receivers += 1;
        order.clear();
        for copy in 0..plan.copies {
            for &(ring, subject) in &edges {
                let edge = (subject * cell.k + ring) as u64;
                let place = (1 << 20) + 2 * (((copy << 11) + receiver as u64) * (1 << 16) + edge);
                order.push((source.key(place), edge, copy, (ring, subject)));
            }
        }
        order.sort_unstable();
        detector.clear();
        match order.iter().position(|delivery| detector.deliver(delivery.3)) {
            None => sums.silent += 1,
            Some(at) => {
                let members = detector.members();
                sums.conflicts += u64::from(!targets.iter().all(|target| members.contains(target)));
                sums.extra += u64::from(!members.iter().all(|member| roles[*member].target));
                sums.settled += if plan.version == 2 { at as u64 + 1 } else { 0 };
                *ballot.entry(members).or_default() += 1;
            }
        }
    }
    let quorum = plan.nodes - (plan.nodes - 1) / 4;
    let most = ballot.values().copied().max().unwrap_or(0);
    sums.votes += most;
    sums.decided += u64::from(most >= quorum);
    sums.right += u64::from(ballot.get(&targets).is_some_and(|votes| *votes >= quorum));
}

// ---- the table

fn table(plan: &Plan) -> String {
    let rings = rings_of(plan);
    let settled = if plan.version == 2 { ",settled" } else { "" };
    let mut table =
        format!("k,h,l,f,trials,receivers,conflicts,silent,extra,votes,decided,right{settled},ppm\n");
    for (number, cell) in cells(plan).into_iter().enumerate() {
        let mut sums = Sums::default();
        for trial in 0..plan.repeats {
            add_trial(plan, &rings, cell, (number as u64 * plan.repeats + trial) as u32, &mut sums);
        }
        let Cell { k, h, l, f } = cell;
        let Sums { receivers, conflicts, silent, extra, votes, decided, right, .. } = sums;
        write!(table, "{k},{h},{l},{f},{},{receivers},{conflicts},{silent},", plan.repeats).unwrap();
        write!(table, "{extra},{votes},{decided},{right},").unwrap();
        if plan.version == 2 {
            write!(table, "{},", sums.settled).unwrap();
        }
        let ppm = (1_000_000 * conflicts).checked_div(receivers).unwrap_or(0);
        writeln!(table, "{ppm}").unwrap();
    }
    table
}

fn main() -> ExitCode {
    let mut text = String::new();
    if std::io::stdin().read_to_string(&mut text).is_err() {
        return ExitCode::FAILURE;
    }
    let Some(plan) = plan_of(&text) else {
        eprintln!("peer: no plan");
        return ExitCode::FAILURE;
    };
    match std::io::stdout().write_all(table(&plan).as_bytes()) {
        Ok(()) => ExitCode::SUCCESS,
        Err(_) => ExitCode::FAILURE,
    }
}
