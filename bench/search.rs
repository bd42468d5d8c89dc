//! The same search in plain Rust, as a baseline; and traces to run both on.
//!
//!     search make OPERATIONS PROCESSORS VARIABLES SEED [SPOILED]   writes a trace file
//!     search run MODEL < FILE                                      MODEL is S, C or P
//!
//! `make` records a simulated sequential memory. With SPOILED, that read (counted from 0 among those that have an
//! older write to name) names an older write of its variable. With 0 variables it makes writes only, of one variable.
use std::io::{Read, Write};
use std::time::Instant;

#[derive(Clone, Copy, PartialEq)]
enum Kind {
    Read,
    Write,
}

#[derive(Clone, Copy)]
struct Operation {
    kind: Kind,
    variable: u8,
    source: u16,
    value: u32,
}

const UNUSED: Operation = Operation { kind: Kind::Read, variable: 0, source: 0, value: 0 };

struct Tables {
    numbers: [u16; 64],
    views: usize,
    held: [u64; 16],
    before: [u64; 64],
    alike: [u64; 64],
    operations: [Operation; 64],
}

struct View {
    index: usize,
    from: usize,
    before: [u64; 64],
}

fn is_clear(operation: Operation, before: u64, rest: u64, latest: &[u16; 17]) -> bool {
    before & rest == 0
        && (operation.kind == Kind::Write || operation.source == latest[operation.variable as usize])
}

fn place(tables: &Tables, rank: usize, latest: &mut [u16; 17]) -> u16 {
    let operation = tables.operations[rank];
    let last = latest[operation.variable as usize];
    if operation.kind == Kind::Write {
        latest[operation.variable as usize] = tables.numbers[rank];
    }
    last
}

fn enlarged(tables: &Tables, before: &[u64; 64], list: &[u8]) -> [u64; 64] {
    let mut next = *before;
    let mut seen = 0;
    for &rank in list {
        let at = rank as usize;
        next[at] |= tables.alike[at] & seen;
        seen |= 1 << rank;
    }
    next
}

// The search; with COUNT it counts the starts that it visits.
fn fill<const COUNT: bool>(
    tables: &Tables,
    view: &View,
    rest: u64,
    placed: usize,
    latest: &mut [u16; 17],
    order: &mut [u8; 1024],
    starts: &mut u64,
) -> bool {
    if rest == 0 {
        if view.index + 1 >= tables.views {
            return true;
        }
        let before = enlarged(tables, &view.before, &order[view.from..placed]);
        let next = View { index: view.index + 1, from: placed, before };
        return fill::<COUNT>(tables, &next, tables.held[next.index], placed, &mut [0; 17], order, starts);
    }
    let mut candidates = rest;
    while candidates != 0 {
        let rank = candidates.trailing_zeros() as usize;
        candidates &= candidates - 1;
        let operation = tables.operations[rank];
        if is_clear(operation, view.before[rank], rest, latest) {
            if COUNT {
                *starts += 1;
            }
            order[placed] = rank as u8;
            let last = place(tables, rank, latest);
            if fill::<COUNT>(tables, view, rest & !(1 << rank), placed + 1, latest, order, starts) {
                return true;
            }
            latest[operation.variable as usize] = last;
        }
    }
    false
}

fn search<const COUNT: bool>(tables: &Tables, starts: &mut u64) -> bool {
    let first = View { index: 0, from: 0, before: tables.before };
    tables.views == 0 || fill::<COUNT>(tables, &first, tables.held[0], 0, &mut [0; 17], &mut [0; 1024], starts)
}

// The trace of a file that is known to be good.
fn read_file(bytes: &[u8]) -> (usize, Vec<Vec<Operation>>) {
    let mut lanes = Vec::new();
    let mut at = 2;
    for _ in 0..bytes[0] {
        let count = bytes[at] as usize;
        at += 1;
        let mut lane = Vec::new();
        for _ in 0..count {
            let b = &bytes[at..at + 8];
            lane.push(Operation {
                kind: if b[0] == 1 { Kind::Read } else { Kind::Write },
                variable: b[1],
                source: u16::from_be_bytes([b[2], b[3]]),
                value: u32::from_be_bytes([b[4], b[5], b[6], b[7]]),
            });
            at += 8;
        }
        lanes.push(lane);
    }
    (bytes[1] as usize, lanes)
}

fn write_file(variables: usize, lanes: &[Vec<Operation>]) -> Vec<u8> {
    let mut bytes = vec![lanes.len() as u8, variables as u8];
    for lane in lanes {
        bytes.push(lane.len() as u8);
        for o in lane {
            bytes.push(if o.kind == Kind::Read { 1 } else { 2 });
            bytes.push(o.variable);
            bytes.extend(o.source.to_be_bytes());
            bytes.extend(o.value.to_be_bytes());
        }
    }
    bytes
}

fn tables_of(model: &str, variables: usize, lanes: &[Vec<Operation>]) -> Tables {
    let mut tables = Tables { numbers: [0; 64], views: 0, held: [0; 16], before: [0; 64], alike: [0; 64], operations: [UNUSED; 64] };
    tables.views = match model {
        "S" => 1,
        "C" => variables,
        _ => lanes.len(),
    };
    let mut rank = 0;
    for (p, lane) in lanes.iter().enumerate() {
        for (q, &operation) in lane.iter().enumerate() {
            tables.numbers[rank] = (100 * (p + 1) + q + 1) as u16;
            tables.operations[rank] = operation;
            for earlier in rank - q..rank {
                tables.before[rank] |= 1 << earlier;
            }
            for view in 0..tables.views {
                let holds = match model {
                    "S" => true,
                    "C" => operation.variable as usize == view + 1,
                    _ => p == view || operation.kind == Kind::Write,
                };
                if holds {
                    tables.held[view] |= 1 << rank;
                }
            }
            rank += 1;
        }
    }
    tables
}

fn run(model: &str) {
    let mut bytes = Vec::new();
    std::io::stdin().read_to_end(&mut bytes).unwrap();
    let (variables, lanes) = read_file(&bytes);
    let tables = tables_of(model, variables, &lanes);
    let mut starts = 0;
    let legal = search::<true>(&tables, &mut starts);
    let mut rounds = 0;
    let mut nanos = 0;
    let start = Instant::now();
    while nanos <= 200_000_000 {
        assert_eq!(search::<false>(std::hint::black_box(&tables), &mut 0), legal);
        rounds += 1;
        nanos = start.elapsed().as_nanos();
    }
    println!("{} {starts} {}", if legal { "legal" } else { "illegal" }, nanos / rounds);
}

struct Random(u64);

impl Random {
    fn below(&mut self, n: usize) -> usize {
        self.0 = self.0.wrapping_mul(6364136223846793005).wrapping_add(1442695040888963407);
        ((self.0 >> 33) % n as u64) as usize
    }
}

// A write that is recorded before the given one, of the same variable, if there is one.
fn older(writes: &[(u16, u32)], source: u16) -> Option<(u16, u32)> {
    let at = writes.iter().position(|w| w.0 == source)?;
    if at == 0 { None } else { Some(writes[at - 1]) }
}

fn make(operations: usize, processors: usize, variables: usize, seed: u64, spoiled: Option<usize>) {
    let mut random = Random(seed);
    let mut lanes: Vec<Vec<Operation>> = vec![Vec::new(); processors];
    let mut writes: Vec<Vec<(u16, u32)>> = vec![Vec::new(); variables.max(1) + 1];
    let mut candidates = 0;
    for step in 0..operations {
        // each processor gets its share, in an order that chance decides
        let mut p = if variables == 0 { step % processors } else { random.below(processors) };
        while lanes[p].len() * processors >= operations {
            p = (p + 1) % processors;
        }
        let variable = if variables == 0 { 1 } else { random.below(variables) + 1 };
        let number = (100 * (p + 1) + lanes[p].len() + 1) as u16;
        let past = writes[variable].clone();
        if variables == 0 || random.below(2) == 0 {
            writes[variable].push((number, step as u32 + 1));
            lanes[p].push(Operation { kind: Kind::Write, variable: variable as u8, source: 0, value: step as u32 + 1 });
        } else {
            let mut seen = past.last().copied().unwrap_or((0, 0));
            if let Some(old) = older(&past, seen.0) {
                if spoiled == Some(candidates) {
                    seen = old;
                }
                candidates += 1;
            }
            lanes[p].push(Operation { kind: Kind::Read, variable: variable as u8, source: seen.0, value: seen.1 });
        }
    }
    std::io::stdout().write_all(&write_file(variables.max(1), &lanes)).unwrap();
}

fn main() {
    let words: Vec<String> = std::env::args().collect();
    let number = |i: usize| words[i].parse::<usize>().unwrap();
    match words[1].as_str() {
        "run" => run(&words[2]),
        _ => make(number(2), number(3), number(4), number(5) as u64, words.get(6).map(|_| number(6))),
    }
}
