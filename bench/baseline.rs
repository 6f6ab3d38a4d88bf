//! A replay written by hand in plain Rust: the opponent in the speed comparison.
//!
//! It reads net.csv and log.csv in the current folder, makes the search that the verified program
//! `replay` makes, and prints the same table. It proves nothing and trusts both files to be valid.
//!
//! The first argument chooses how trials are counted. The answers and the counts are the same.
//!
//! - `bulk` counts all pairs of an impossible input set at once, as `replay` does: like for like.
//! - `plain` looks at each pair of an input set and an output set, one by one: for orientation.

use std::env;
use std::fs;
use std::io::{self, BufWriter, Write};
use std::process;

const ACTIVITIES: usize = 32;
const BUDGET: u64 = 1_000_000;

/// A set of activities: bit k stands for activity k.
type Mask = u32;

/// The activities in a set, ascending.
fn members(mut mask: Mask) -> impl Iterator<Item = usize> {
    std::iter::from_fn(move || {
        if mask == 0 {
            return None;
        }
        let member = mask.trailing_zeros() as usize;
        mask &= mask - 1;
        Some(member)
    })
}

/// The numbers in a field, which are separated by single spaces. The field may be empty.
fn numbers(field: &str) -> impl Iterator<Item = usize> + '_ {
    field
        .split_terminator(' ')
        .map(|number| number.parse().expect("a number"))
}

/// A causal net: for each activity, its input sets and its output sets in ascending order.
struct Net {
    start: usize,
    end: usize,
    inputs: Vec<Vec<Mask>>,
    outputs: Vec<Vec<Mask>>,
}

impl Net {
    fn read(text: &str) -> Net {
        let mut net = Net {
            start: 0,
            end: 0,
            inputs: vec![Vec::new(); ACTIVITIES],
            outputs: vec![Vec::new(); ACTIVITIES],
        };
        for line in text.lines().skip(1) {
            net.read_row(line);
        }
        // Rows come in any order and may be repeated; the search needs each set once, ascending.
        for side in net.inputs.iter_mut().chain(&mut net.outputs) {
            side.sort_unstable();
            side.dedup();
        }
        net
    }

    fn read_row(&mut self, line: &str) {
        let mut fields = line.splitn(3, ',');
        let mut field = || fields.next().expect("three fields in a net row");
        let side = field();
        let activity: usize = field().parse().expect("an activity");
        let mask = numbers(field()).fold(0, |mask, member| mask | 1 << member);
        match side {
            "start" => {
                self.start = activity;
                self.inputs[activity].push(mask);
            }
            "end" => {
                self.end = activity;
                self.outputs[activity].push(mask);
            }
            "in" => self.inputs[activity].push(mask),
            "out" => self.outputs[activity].push(mask),
            _ => panic!("a side that is not start, end, in or out"),
        }
    }

    /// Says whether start and end are first, last and nowhere else. No other trace is searched.
    fn frames(&self, trace: &[usize]) -> bool {
        match trace {
            [first, between @ .., last] => {
                *first == self.start
                    && *last == self.end
                    && !between.contains(&self.start)
                    && !between.contains(&self.end)
            }
            _ => false,
        }
    }
}

/// The pending obligations. There is one state for the whole search, and going back undoes a step
/// in place, so that nothing is copied.
struct Obligations {
    /// How often q is still due because of p, at `[p][q]`. A trace has at most 96 positions and
    /// each of them adds at most one to a pair, so that a byte is enough.
    counts: [[u8; ACTIVITIES]; ACTIVITIES],
    /// For each q the set of all p whose count is not zero. It turns the question whether an input
    /// set is possible into one operation on masks.
    causes: [Mask; ACTIVITIES],
    /// The sum of all counts, so that the end of the trace need not look at each of them.
    total: u32,
}

impl Obligations {
    fn none() -> Obligations {
        Obligations {
            counts: [[0; ACTIVITIES]; ACTIVITIES],
            causes: [0; ACTIVITIES],
            total: 0,
        }
    }

    #[inline]
    fn possible(&self, activity: usize, x: Mask) -> bool {
        x & !self.causes[activity] == 0
    }

    #[inline]
    fn step(&mut self, activity: usize, x: Mask, y: Mask) {
        members(x).for_each(|p| self.take(p, activity));
        members(y).for_each(|q| self.add(activity, q));
    }

    #[inline]
    fn undo(&mut self, activity: usize, x: Mask, y: Mask) {
        members(y).for_each(|q| self.take(activity, q));
        members(x).for_each(|p| self.add(p, activity));
    }

    #[inline]
    fn add(&mut self, p: usize, q: usize) {
        self.counts[p][q] += 1;
        self.causes[q] |= 1 << p;
        self.total += 1;
    }

    #[inline]
    fn take(&mut self, p: usize, q: usize) {
        self.counts[p][q] -= 1;
        if self.counts[p][q] == 0 {
            self.causes[q] &= !(1 << p);
        }
        self.total -= 1;
    }
}

#[derive(Clone, Copy, PartialEq)]
enum Answer {
    Found,
    None,
    Spent,
}

impl Answer {
    fn word(self) -> &'static str {
        match self {
            Answer::Found => "found",
            Answer::None => "none",
            Answer::Spent => "spent",
        }
    }
}

struct Search<'a> {
    net: &'a Net,
    trace: &'a [usize],
    obligations: Obligations,
    /// The sets X and Y of each position. They are not printed, but a replay without them would
    /// do less than the one it is compared with.
    bindings: Vec<(Mask, Mask)>,
}

impl Search<'_> {
    /// Searches the trace from a position on. Takes the number of trials so far, and gives the
    /// answer and the number of trials then. The counter is handed on rather than kept in `self`
    /// because it changes most often of all and so stays in a register. After the answer "none"
    /// the obligations are what they were before.
    fn search<const BULK: bool>(&mut self, position: usize, mut trials: u64) -> (Answer, u64) {
        let Some(&activity) = self.trace.get(position) else {
            let settled = self.obligations.total == 0;
            return (if settled { Answer::Found } else { Answer::None }, trials);
        };
        let net = self.net;
        let outputs = &net.outputs[activity];
        for &x in &net.inputs[activity] {
            // Whether a pair is possible depends on X alone, so that all pairs of X fail together.
            if BULK && !self.obligations.possible(activity, x) {
                trials += outputs.len() as u64;
                if trials > BUDGET {
                    return (Answer::Spent, BUDGET);
                }
                continue;
            }
            for &y in outputs {
                if trials == BUDGET {
                    return (Answer::Spent, BUDGET);
                }
                trials += 1;
                if !BULK && !self.obligations.possible(activity, x) {
                    continue;
                }
                self.obligations.step(activity, x, y);
                let (answer, after) = self.search::<BULK>(position + 1, trials);
                trials = after;
                if answer == Answer::Found {
                    self.bindings[position] = (x, y);
                }
                if answer != Answer::None {
                    return (answer, trials);
                }
                self.obligations.undo(activity, x, y);
            }
        }
        (Answer::None, trials)
    }
}

/// Replays one trace and gives the answer and the number of trials.
fn replay(net: &Net, trace: &[usize], bulk: bool) -> (Answer, u64) {
    if !net.frames(trace) {
        return (Answer::None, 0);
    }
    let mut search = Search {
        net,
        trace,
        obligations: Obligations::none(),
        bindings: vec![(0, 0); trace.len()],
    };
    if bulk {
        search.search::<true>(0, 0)
    } else {
        search.search::<false>(0, 0)
    }
}

fn print_table(net: &Net, log: &str, bulk: bool) -> io::Result<()> {
    let mut table = BufWriter::new(io::stdout().lock());
    write!(table, "row,sessions,answer,trials\r\n")?;
    for (row, line) in log.lines().enumerate().skip(1) {
        let (sessions, trace) = line.split_once(',').expect("two fields in a log row");
        let trace: Vec<usize> = numbers(trace).collect();
        let (answer, trials) = replay(net, &trace, bulk);
        write!(table, "{row},{sessions},{},{trials}\r\n", answer.word())?;
    }
    table.flush()
}

fn main() -> io::Result<()> {
    let bulk = match env::args().nth(1).as_deref() {
        Some("plain") => false,
        Some("bulk") => true,
        _ => {
            eprintln!("usage: baseline plain|bulk");
            process::exit(2);
        }
    };
    let net = Net::read(&fs::read_to_string("net.csv")?);
    print_table(&net, &fs::read_to_string("log.csv")?, bulk)
}
