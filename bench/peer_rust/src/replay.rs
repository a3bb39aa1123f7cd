//! `replay`: a schedule of single steps over the core.

use crate::election::*;
use crate::engine::{place_of, put_in};
use crate::lines::*;

#[derive(Clone, Copy)]
enum State {
    Rest,
    /// first step of a withdrawal, at the flag of this cell
    Flag { x: u64, place: usize },
    Probing { x: u64, k: usize },
    Carrying { v: u64, i: usize },
    Ready { v: u64, i: usize, s: u64 },
    Chosen { x: u64, p: usize },
    Owing { x: u64, b: usize },
    Up { x: u64, b: usize, p: usize },
    Down { x: u64, b: usize, p: usize, c: u64, s: usize },
}
use State::*;

const HELD: u8 = 0;
const ACCEPTED: u8 = 1;
const TAKEN: u8 = 2;
const FULL: u8 = 3;
const WITHDRAWN: u8 = 4;
const GONE: u8 = 5;
const ABSENT: u8 = 6;
const NAMES: [&[u8]; 7] =
    [b" held\n", b" accepted\n", b" taken\n", b" full\n", b" withdrawn\n", b" gone\n", b" absent\n"];

struct Core<'a> {
    e: &'a Election,
    casting: bool,
    base: Vec<u64>,
    cells: Vec<u64>,
    /// claim words or flags
    more: Vec<u64>,
    lists: Vec<Vec<u64>>,
    next: Vec<usize>,
    states: Vec<State>,
    replies: Vec<Vec<u8>>,
}

impl<'a> Core<'a> {
    fn new(e: &'a Election, start: &[u64], casting: bool, lists: Vec<Vec<u64>>) -> Core<'a> {
        let mut base = vec![0; e.cells];
        for &v in start {
            put_in(e.order, &mut base, v);
        }
        let n = lists.len();
        let more = vec![0; if casting { e.limit - start.len() } else { e.cells }];
        let cells = base.clone();
        let (next, states, replies) = (vec![0; n], vec![Rest; n], vec![Vec::new(); n]);
        let mut core = Core { e, casting, base, cells, more, lists, next, states, replies };
        (0..n).for_each(|t| core.answer(t));
        core
    }

    /// Answers the numbers that need no step, as soon as they stand first.
    fn answer(&mut self, t: usize) {
        while let Some(&x) = self.lists[t].get(self.next[t]) {
            let held = place_of(self.e.order, &self.base, x).is_some();
            let reply = match (self.casting, held) {
                (true, true) => HELD,
                (true, false) if self.more.is_empty() => FULL,
                (false, false) => ABSENT,
                _ => return,
            };
            self.replies[t].push(reply);
            self.next[t] += 1;
        }
    }

    /// One step; false where the tabulator is at rest and its list is used up.
    fn step(&mut self, t: usize) -> bool {
        let mut state = self.states[t];
        if let Rest = state {
            let Some(&x) = self.lists[t].get(self.next[t]) else { return false };
            self.next[t] += 1;
            state = if self.casting {
                Probing { x, k: 0 }
            } else {
                Flag { x, place: place_of(self.e.order, &self.base, x).unwrap() }
            };
        }
        let (state, reply) = self.row(state);
        self.states[t] = state;
        self.replies[t].extend(reply);
        if let Rest = state {
            self.answer(t);
        }
        true
    }

    /// A row of the tables: the new state, and the reply where the number gets it now.
    fn row(&mut self, state: State) -> (State, Option<u8>) {
        let order = self.e.order;
        let fits = |f: u64, x: u64, b: usize| f == 0 || (f < x && order.home(f) <= b);
        let (cells, more) = (&mut self.cells, &mut self.more);
        let next = match state {
            Rest => Rest,
            Probing { x, k } => {
                let l = more.len();
                let word = &mut more[((x % l as u64) as usize + k) % l];
                match *word {
                    0 => {
                        *word = x;
                        return (Carrying { v: x, i: order.home(x) }, Some(ACCEPTED));
                    }
                    f if f == x => return (Rest, Some(TAKEN)),
                    _ if k + 1 < l => Probing { x, k: k + 1 },
                    _ => return (Rest, Some(FULL)),
                }
            }
            Carrying { v, i } if cells[i] > v => Carrying { v, i: i + 1 },
            Carrying { v, i } => Ready { v, i, s: cells[i] },
            Ready { v, i, s } if cells[i] == s => {
                cells[i] = v;
                if s == 0 { Rest } else { Carrying { v: s, i: i + 1 } }
            }
            Ready { v, i, .. } if cells[i] > v => Carrying { v, i: i + 1 },
            Ready { v, i, .. } => Ready { v, i, s: cells[i] },
            Flag { x, place } => {
                if std::mem::replace(&mut more[place], 1) == 1 {
                    return (Rest, Some(GONE));
                }
                return (Chosen { x, p: order.home(x) }, Some(WITHDRAWN));
            }
            Chosen { x, p } if cells[p] > x => Chosen { x, p: p + 1 },
            Chosen { x, p } => Owing { x, b: p },
            Owing { x, b } if cells[b] == x => Up { x, b, p: b + 1 },
            Owing { x, b } => Owing { x, b: b - 1 },
            Up { x, b, p } if fits(cells[p], x, b) => Down { x, b, p: p - 1, c: cells[p], s: p },
            Up { x, b, p } => Up { x, b, p: p + 1 },
            Down { x, b, p, .. } if p > b && fits(cells[p], x, b) => Down { x, b, p: p - 1, c: cells[p], s: p },
            Down { x, b, p, c, s } if p > b => Down { x, b, p: p - 1, c, s },
            Down { x, b, c, s, .. } if cells[b] == x => {
                cells[b] = c;
                if c == 0 { Rest } else { Owing { x: c, b: s } }
            }
            Down { x, b, .. } => Owing { x, b: b - 1 },
        };
        (next, None)
    }

    fn put_cells(&self, out: &mut Out) -> bool {
        self.cells.iter().enumerate().filter(|c| *c.1 != 0).all(|(p, v)| {
            out.text.extend_from_slice(b"cell ");
            put_number(&mut out.text, p as u64);
            out.count(b"", *v as usize);
            out.spill()
        })
    }
}

/// What the lines gave so far.
#[derive(Default)]
struct Input {
    start: Vec<u64>,
    casting: bool,
    lists: Vec<Vec<u64>>,
    schedule: Vec<u8>,
    /// lines read, and whether they have come to the schedule
    lines: u64,
    late: bool,
}

/// Numbers, each after one space, up to `most`, appended to `all`.
fn numbers(text: &[u8], most: u64, mut take: impl FnMut(u64)) -> Option<()> {
    let mut at = 0;
    while at < text.len() {
        if text[at] != b' ' {
            return None;
        }
        at += 1;
        let v = decimal(text, &mut at)?;
        if v > most {
            return None;
        }
        take(v);
    }
    Some(())
}

impl Input {
    /// None where the line is malformed or invalid.
    fn line(&mut self, line: &[u8], e: &Election) -> Option<()> {
        self.lines += 1;
        let after = |word: &[u8]| line.strip_prefix(word).filter(|r| r.is_empty() || r[0] == b' ');
        match self.lines {
            1 => {
                let start = &mut self.start;
                numbers(after(b"start")?, u64::MAX, |v| start.push(v))?;
                let mut sorted = start.clone();
                sorted.sort_unstable();
                if start.len() > e.limit || sorted.windows(2).any(|w| w[0] == w[1]) {
                    return None;
                }
            }
            2 => {
                let (casting, tabs) = match line.strip_prefix(b"cast ") {
                    Some(t) => (true, t),
                    None => (false, line.strip_prefix(b"withdraw ")?),
                };
                let tabs = whole_decimal(tabs).filter(|t| *t <= 64)?;
                self.casting = casting;
                self.lists = vec![Vec::new(); tabs as usize];
            }
            _ => {
                if let Some(rest) = after(b"steps") {
                    let (schedule, tabs) = (&mut self.schedule, self.lists.len() as u64);
                    self.late = true;
                    return numbers(rest, tabs, |t| schedule.push(t as u8 - 1));
                }
                let rest = line.strip_prefix(b"list ")?;
                let mut at = 0;
                let t = decimal(rest, &mut at)?;
                if self.late || t > self.lists.len() as u64 {
                    return None;
                }
                let list = &mut self.lists[t as usize - 1];
                numbers(&rest[at..], u64::MAX, |v| list.push(v))?;
            }
        }
        Some(())
    }
}

pub fn replay(e: &Election, out: &mut Out) -> Result<(), End> {
    let mut input = Input::default();
    each_line(out, |line, index, _| input.line(line, e).ok_or(End::Bad(index)))?;
    if input.lines < 2 {
        return Err(End::Bad(input.lines + 1));
    }
    let steps = input.schedule.len();
    let mut core = Core::new(e, &input.start, input.casting, input.lists);
    for &t in &input.schedule {
        core.step(t as usize);
    }
    out.count(b"steps", steps);
    let mut wrote = core.put_cells(out);
    for t in 0..core.lists.len() {
        while core.step(t) {}
    }
    out.text.extend_from_slice(b"rest\n");
    wrote = wrote && core.put_cells(out);
    for (i, replies) in core.replies.iter().enumerate() {
        for (k, r) in replies.iter().enumerate() {
            put_number(&mut out.text, i as u64 + 1);
            out.text.push(b' ');
            put_number(&mut out.text, k as u64 + 1);
            out.text.extend_from_slice(NAMES[*r as usize]);
            wrote = wrote && out.spill();
        }
    }
    if wrote { Ok(()) } else { Err(End::Write) }
}
