//! A plain Rust solver of the same games, to time the proved one by: retrograde analysis over any game, with vectors.
//! It prints what the program `bench` prints.

use std::hint::black_box;
use std::time::Instant;

trait Game {
    fn labels(&self) -> u8;
    fn size(&self) -> usize;
    fn is_public(&self, state: usize) -> bool;
    fn is_start(&self, state: usize) -> bool;
    fn is_end(&self, state: usize) -> bool;
    fn is_goal(&self, state: usize) -> bool;
    fn next(&self, state: usize, label: u8) -> Option<usize>;

    fn is_done(&self, state: usize) -> bool {
        self.is_goal(state) && (!self.is_public(state) || self.is_end(state))
    }
}

const PUBLIC: u8 = 1;
const START: u8 = 2;
const END: u8 = 4;
const GOAL: u8 = 8;

struct Row {
    flags: u8,
    first: usize,
    count: usize,
}

struct Move {
    label: u8,
    target: u16,
}

#[derive(Default)]
struct Sheet {
    rows: Vec<Row>,
    moves: Vec<Move>,
}

impl Sheet {
    fn has(&self, state: usize, flag: u8) -> bool {
        self.rows.get(state).is_some_and(|row| row.flags & flag != 0)
    }
}

impl Game for Sheet {
    fn labels(&self) -> u8 {
        64
    }

    fn size(&self) -> usize {
        self.rows.len()
    }

    fn is_public(&self, state: usize) -> bool {
        self.has(state, PUBLIC)
    }

    fn is_start(&self, state: usize) -> bool {
        self.has(state, START)
    }

    fn is_end(&self, state: usize) -> bool {
        self.has(state, END)
    }

    fn is_goal(&self, state: usize) -> bool {
        self.has(state, GOAL)
    }

    fn next(&self, state: usize, label: u8) -> Option<usize> {
        let row = self.rows.get(state).filter(|_| label < 64)?;
        let moves = self.moves.get(row.first..row.first.checked_add(row.count)?)?;
        let target = usize::from(moves.iter().find(|m| m.label == label)?.target);
        (target < self.rows.len()).then_some(target)
    }
}

struct Nim {
    matches: usize,
}

impl Game for Nim {
    fn labels(&self) -> u8 {
        44
    }

    fn size(&self) -> usize {
        let n = self.matches;
        if (2..=44).contains(&n) { 2 * (n + 1) * n } else { 0 }
    }

    fn is_public(&self, state: usize) -> bool {
        let n = self.matches;
        state < self.size() && state / n / (n + 1) == 1
    }

    fn is_start(&self, state: usize) -> bool {
        let n = self.matches;
        state < self.size() && state == n * n + n - 1
    }

    fn is_end(&self, state: usize) -> bool {
        let n = self.matches;
        state < self.size() && state / n % (n + 1) == 0
    }

    fn is_goal(&self, state: usize) -> bool {
        self.is_public(state) && self.is_end(state)
    }

    fn next(&self, state: usize, label: u8) -> Option<usize> {
        if state >= self.size() {
            return None;
        }
        let n = self.matches;
        let (player, remaining, taken) = (state / n / (n + 1), state / n % (n + 1), state % n + 1);
        let take = usize::from(label);
        if take < 1 || take >= n || take > remaining || take > 2 * taken {
            return None;
        }
        Some(((1 - player) * (n + 1) + remaining - take) * n + take - 1)
    }
}

#[derive(Clone, Copy, Default)]
struct Cell {
    rank: Option<u32>,
    choice: Option<u8>,
}

struct Arc {
    source: u16,
    label: u8,
    target: u16,
}

/// Every arc that a play may take, by its target, and where the arcs of each target begin.
fn predecessors(arcs: &[Arc], size: usize) -> (Vec<usize>, Vec<(u16, u8)>) {
    let mut begin = vec![0; size + 1];
    for arc in arcs {
        begin[usize::from(arc.target) + 1] += 1;
    }
    for state in 0..size {
        begin[state + 1] += begin[state];
    }
    let mut at = begin.clone();
    let mut sources = vec![(0, 0); arcs.len()];
    for arc in arcs {
        let place = &mut at[usize::from(arc.target)];
        sources[*place] = (arc.source, arc.label);
        *place += 1;
    }
    (begin, sources)
}

/// Rank and choice of every state, from the done states backwards. Every label of every state is asked for once.
fn solve<G: Game>(game: &G, bars: u64) -> Vec<Cell> {
    let size = game.size();
    let public: Vec<bool> = (0..size).map(|s| game.is_public(s)).collect();
    let mut arcs = Vec::new();
    let mut open = vec![0u8; size];
    for state in (0..size).filter(|&s| !game.is_end(s)) {
        for label in 0..game.labels() {
            if public[state] || bars >> label & 1 == 0 {
                if let Some(target) = game.next(state, label) {
                    arcs.push(Arc { source: state as u16, label, target: target as u16 });
                    open[state] += u8::from(public[state]);
                }
            }
        }
    }
    let (begin, sources) = predecessors(&arcs, size);

    let mut cells = vec![Cell::default(); size];
    let mut queue: Vec<u16> = (0..size).filter(|&s| game.is_done(s)).map(|s| s as u16).collect();
    for &state in &queue {
        cells[usize::from(state)].rank = Some(0);
    }
    let mut at = 0;
    while at < queue.len() {
        let target = usize::from(queue[at]);
        let rank = cells[target].rank.map(|r| r + 1);
        for &(source, label) in &sources[begin[target]..begin[target + 1]] {
            let state = usize::from(source);
            let cell = &mut cells[state];
            if public[state] {
                open[state] -= 1;
                if cell.rank.is_none() && open[state] == 0 {
                    cell.rank = rank;
                    queue.push(source);
                }
            } else if cell.rank.is_none() {
                *cell = Cell { rank, choice: Some(label) };
                queue.push(source);
            } else if cell.rank == rank && cell.choice.is_some_and(|c| label < c) {
                cell.choice = Some(label);
            }
        }
        at += 1;
    }
    cells
}

enum Verdict {
    Held(u32),
    Lost(usize),
    Refused,
}

/// Whether plan refuses the game.
fn is_faulty<G: Game>(game: &G) -> bool {
    let size = game.size();
    if size == 0 || size > 4096 || !(0..size).any(|s| game.is_start(s)) {
        return true;
    }
    (0..size).any(|state| {
        let public = game.is_public(state);
        if game.is_end(state) {
            return public && game.is_start(state);
        }
        let mut feasible = (0..game.labels()).filter_map(|l| game.next(state, l)).peekable();
        (public && game.is_start(state)) || feasible.peek().is_none() || feasible.any(|t| game.is_public(t) == public)
    })
}

fn plan<G: Game>(game: &G, bars: u64) -> (Verdict, Vec<Cell>) {
    if is_faulty(game) {
        return (Verdict::Refused, Vec::new());
    }
    let cells = solve(game, bars);
    let mut highest = 0;
    for state in (0..cells.len()).filter(|&s| game.is_start(s)) {
        match cells[state].rank {
            Some(rank) => highest = highest.max(rank),
            None => return (Verdict::Lost(state), cells),
        }
    }
    (Verdict::Held(highest), cells)
}

fn turn_and_start(state: u16) -> u8 {
    match state {
        0 => START,
        _ if state % 2 == 1 => PUBLIC,
        _ => 0,
    }
}

fn chain(size: u16) -> Sheet {
    let mut sheet = Sheet::default();
    for state in 0..size {
        let end = if state + 1 == size { END | GOAL } else { 0 };
        sheet.rows.push(Row { flags: turn_and_start(state) | end, first: usize::from(state), count: 1 });
        sheet.moves.push(Move { label: 0, target: state + 1 });
    }
    sheet
}

fn advance(seed: u64) -> u64 {
    seed.wrapping_mul(6364136223846793005).wrapping_add(1442695040888963407)
}

fn roll(seed: u64, sides: u16) -> u16 {
    (seed >> 48) as u16 % sides
}

fn random(size: u16, moves: u16) -> Sheet {
    let mut sheet = Sheet::default();
    let mut seed = u64::from(moves);
    for state in 0..size {
        seed = advance(seed);
        let end = if roll(seed, 8) == 0 { END | GOAL } else { 0 };
        let count = moves / size + u16::from(state < moves % size);
        let first = sheet.moves.len();
        sheet.rows.push(Row { flags: turn_and_start(state) | end, first, count: usize::from(count) });
        for label in 0..count {
            seed = advance(seed);
            let drawn = roll(seed, size & 0xfffe);
            let target = if drawn % 2 == state % 2 { drawn ^ 1 } else { drawn };
            sheet.moves.push(Move { label: label as u8, target });
        }
    }
    sheet
}

fn sum(cells: &[Cell]) -> u32 {
    cells.iter().fold(0, |sum: u32, cell| {
        let rank = cell.rank.unwrap_or(9999);
        let choice = u32::from(cell.choice.unwrap_or(99));
        sum.wrapping_mul(31).wrapping_add(rank).wrapping_mul(31).wrapping_add(choice)
    })
}

/// The nanoseconds that one of so many calls took.
fn time<T>(times: u32, call: impl Fn() -> T) -> u128 {
    let start = Instant::now();
    for _ in 0..times {
        black_box(call());
    }
    start.elapsed().as_nanos() / u128::from(times)
}

fn run<G: Game>(name: &str, game: &G, times: u32) {
    let (verdict, mut cells) = plan(game, 0);
    cells.resize(4096, Cell::default());
    let sum = sum(&cells);
    match verdict {
        Verdict::Held(rank) => print!("{name} held {rank} {sum}"),
        Verdict::Lost(state) => print!("{name} lost {state} {sum}"),
        Verdict::Refused => print!("{name} refused"),
    }
    if times > 0 {
        print!(" {} {}", time(times, || solve(black_box(game), 0)), time(times, || plan(black_box(game), 0)));
    }
    println!();
}

fn main() {
    let times = std::env::args().nth(1).map_or(0, |word| word.parse().expect("a number"));
    run("chain-4096", &chain(4096), times);
    run("random-4096-7020", &random(4096, 7020), times);
    run("random-2045-8192", &random(2045, 8192), times);
    run("random-128-8192", &random(128, 8192), times);
    run("nim-44", &Nim { matches: 44 }, times);
}
