//! The phases. Three ways to the same cells:
//! * lock-free: the same claim words, flags, displacement and debts as the program,
//!   step by step, on AtomicU64 words;
//! * mutex: one Mutex round a sequential table of the same layout;
//! * btree: each tabulator collects, and the closing thread makes a BTreeMap of
//!   everything and lays the table out anew.

use crate::election::Order;
use crate::store::Store;
use std::collections::btree_map::Entry;
use std::collections::BTreeMap;
use std::sync::atomic::{AtomicU64, Ordering::SeqCst};
use std::sync::Mutex;

#[derive(Clone, Copy, PartialEq)]
pub enum Engine {
    LockFree,
    Mutex,
    BTree,
}

/// How this program goes about its work; `best` turns on what `ballot_store` does not do.
#[derive(Clone, Copy)]
pub struct Style {
    pub engine: Engine,
    /// look at a claim word before the compare-and-swap
    pub look: bool,
    /// `large` makes records, not lines
    pub direct: bool,
    /// whole runs of pages in one call
    pub runs: bool,
    /// a medium is read and judged once, not for the look and again for the recovery
    pub once: bool,
    /// many tickets at once
    pub lanes: bool,
}

pub const ACCEPTED: u8 = 0;
pub const DUPLICATE: u8 = 1;
pub const CONFLICT: u8 = 2;
pub const TAKEN: u8 = 3;
pub const FULL: u8 = 4;
pub const WITHDRAWN: u8 = 0;
pub const GONE: u8 = 1;
pub const ABSENT: u8 = 2;

pub struct Item {
    pub number: u64,
    /// place of the row in the phase's rows
    pub row: u32,
}

/// The place of v in ordered cells whose last cell is 0.
#[inline(always)]
pub fn place_of(order: Order, cells: &[u64], v: u64) -> Option<usize> {
    let mut p = order.home(v);
    while cells[p] > v {
        p += 1;
    }
    if cells[p] == v { Some(p) } else { None }
}

/// One sequential placing; the caller knows that v is not there and that there is room.
#[inline]
pub fn put_in(order: Order, cells: &mut [u64], mut v: u64) {
    let mut i = order.home(v);
    loop {
        let s = cells[i];
        if s < v {
            cells[i] = v;
            if s == 0 {
                return;
            }
            v = s;
        }
        i += 1;
    }
}

fn take_out(order: Order, cells: &mut [u64], mut hole: usize) {
    loop {
        let mut q = hole + 1;
        let f = loop {
            let f = cells[q];
            if f == 0 || order.home(f) <= hole {
                break f;
            }
            q += 1;
        };
        cells[hole] = f;
        if f == 0 {
            return;
        }
        hole = q;
    }
}

/// Runs `work(t)` for each t below `tabs`: the first here, the others on threads.
fn fork<R: Send>(tabs: usize, empty: impl Fn(usize) -> bool, work: impl Fn(usize) -> R + Sync) -> Vec<R> {
    let work = &work;
    std::thread::scope(|s| {
        let mut others = Vec::with_capacity(tabs);
        for t in 1..tabs {
            let handle = if empty(t) {
                None
            } else {
                std::thread::Builder::new().stack_size(128 * 1024).spawn_scoped(s, move || work(t)).ok()
            };
            others.push(handle);
        }
        let mut all = Vec::with_capacity(tabs);
        all.push(work(0));
        for (t, h) in others.into_iter().enumerate() {
            all.push(match h {
                Some(h) => h.join().unwrap(),
                None => work(t + 1),
            });
        }
        all
    })
}

fn words(v: &mut [u64]) -> &[AtomicU64] {
    // AtomicU64 has the size and the alignment of u64, and the borrow is exclusive
    unsafe { &*(v as *mut [u64] as *const [AtomicU64]) }
}

struct Words<'a> {
    order: Order,
    cells: &'a [AtomicU64],
    /// claim words, or one flag for each cell
    more: &'a [AtomicU64],
    look: bool,
}

impl Words<'_> {
    #[inline(always)]
    fn cell(&self, p: usize) -> &AtomicU64 {
        debug_assert!(p < self.cells.len());
        // a place is at most N - 2, and every walk ends at the last cell, which is 0
        unsafe { self.cells.get_unchecked(p) }
    }

    #[inline]
    fn cast(&self, x: u64) -> u8 {
        let l = self.more.len();
        if l == 0 {
            return FULL;
        }
        let mut c = (x % l as u64) as usize;
        let mut tries = 0;
        loop {
            let word = &self.more[c];
            let found = if self.look { word.load(SeqCst) } else { 0 };
            let found = if found == 0 {
                match word.compare_exchange(0, x, SeqCst, SeqCst) {
                    Ok(_) => break,
                    Err(f) => f,
                }
            } else {
                found
            };
            if found == x {
                return TAKEN;
            }
            tries += 1;
            if tries == l {
                return FULL;
            }
            c += 1;
            if c == l {
                c = 0;
            }
        }
        let mut v = x;
        let mut i = self.order.home(v);
        loop {
            let mut s = self.cell(i).load(SeqCst);
            while s < v {
                match self.cell(i).compare_exchange(s, v, SeqCst, SeqCst) {
                    Ok(_) => {
                        if s == 0 {
                            return ACCEPTED;
                        }
                        v = s;
                        break;
                    }
                    Err(f) => s = f,
                }
            }
            i += 1;
        }
    }

    #[inline]
    fn withdraw(&self, x: u64, place: usize) -> u8 {
        if self.more[place].swap(1, SeqCst) == 1 {
            return GONE;
        }
        let mut b = self.order.home(x);
        while self.cell(b).load(SeqCst) > x {
            b += 1;
        }
        let mut x = x;
        loop {
            // owing x, bound b
            while self.cell(b).load(SeqCst) != x {
                b -= 1;
            }
            let fits = |f: u64| f == 0 || (f < x && self.order.home(f) <= b);
            let mut p = b + 1;
            let mut c = loop {
                let f = self.cell(p).load(SeqCst);
                if fits(f) {
                    break f;
                }
                p += 1;
            };
            let mut s = p;
            p -= 1;
            while p > b {
                let f = self.cell(p).load(SeqCst);
                if fits(f) {
                    c = f;
                    s = p;
                }
                p -= 1;
            }
            match self.cell(b).compare_exchange(x, c, SeqCst, SeqCst) {
                Ok(_) if c == 0 => return WITHDRAWN,
                Ok(_) => {
                    x = c;
                    b = s;
                }
                Err(_) => b -= 1,
            }
        }
    }
}

/// The parts of a store by the top bits of the number: 2 to the given bits.
#[derive(Clone, Copy)]
pub struct Parts(pub u32);

impl Parts {
    #[inline(always)]
    pub fn of(self, v: u64) -> usize {
        ((v >> 1) >> (63 - self.0)) as usize
    }
}

/// The words of a phase of one part, kept from phase to phase.
pub struct Tables {
    pub cells: Vec<u64>,
    more: Vec<u64>,
    used: usize,
}

impl Tables {
    pub fn new() -> Tables {
        Tables { cells: Vec::new(), more: Vec::new(), used: 0 }
    }

    fn open(&mut self, base: &[u64], held: usize, more: usize) {
        if self.cells.is_empty() && held == 0 {
            self.cells = vec![0; base.len()]; // fresh pages, not touched before they are wanted
        } else if self.cells.len() == base.len() {
            self.cells.copy_from_slice(base);
        } else {
            self.cells = base.to_vec();
        }
        if self.more.len() < more {
            self.more = vec![0; more.max(base.len())];
        } else {
            self.more[..self.used].fill(0);
        }
        self.used = more;
    }

    fn words(&mut self, order: Order, look: bool) -> Words<'_> {
        Words { order, cells: words(&mut self.cells), more: words(&mut self.more[..self.used]), look }
    }
}

/// A phase over the parts of a store, whose worker I has one tabulator of each part and handles
/// list I in order, each item in its own part.
pub struct Work<'a> {
    pub style: Style,
    pub order: Order,
    pub limit: usize,
    pub parts: Parts,
    /// the base of each part
    pub stores: &'a [Store],
}

pub struct Casts<'a> {
    pub lists: &'a [Vec<Item>],
    pub rows: &'a [u8],
    /// bytes of a row
    pub row: usize,
}

impl Casts<'_> {
    #[inline]
    fn base_reply(&self, base: &Store, order: Order, item: &Item) -> Option<u8> {
        if base.held == 0 {
            return None;
        }
        let p = place_of(order, &base.cells, item.number)?;
        let (row, cell) = (item.row as usize, 32 + p * self.row);
        let same = self.rows[row..row + self.row] == base.image[cell..cell + self.row];
        Some(if same { DUPLICATE } else { CONFLICT })
    }
}

/// The numbers of a base, for the tree engine.
fn tree(base: &Store) -> BTreeMap<u64, ()> {
    base.cells.iter().filter(|v| **v != 0).map(|v| (*v, ())).collect()
}

fn lay_out(order: Order, map: &BTreeMap<u64, ()>, cells: usize, tables: &mut Tables) {
    tables.cells.clear();
    tables.cells.resize(cells, 0);
    for &v in map.keys().rev() {
        let mut p = order.home(v);
        while tables.cells[p] != 0 {
            p += 1;
        }
        tables.cells[p] = v;
    }
}

/// Runs a casting phase. The new cells are left in the tables, TAKEN in the replies is open.
pub fn run_cast(w: &Work, casts: &Casts, tables: &mut [Tables]) -> Vec<Vec<u8>> {
    let (order, parts, lists) = (w.order, w.parts, casts.lists);
    let empty = |t: usize| lists[t].is_empty();
    match w.style.engine {
        Engine::LockFree => {
            for (t, s) in tables.iter_mut().zip(w.stores) {
                t.open(&s.cells, s.held, w.limit - s.held);
            }
            let shared: Vec<Words> = tables.iter_mut().map(|t| t.words(order, w.style.look)).collect();
            fork(lists.len(), empty, |t| {
                lists[t]
                    .iter()
                    .map(|item| {
                        let i = parts.of(item.number);
                        casts.base_reply(&w.stores[i], order, item).unwrap_or_else(|| shared[i].cast(item.number))
                    })
                    .collect()
            })
        }
        Engine::Mutex => {
            for (t, s) in tables.iter_mut().zip(w.stores) {
                t.open(&s.cells, s.held, 0);
            }
            let pairs = tables.iter_mut().zip(w.stores);
            let shared: Vec<_> = pairs.map(|(t, s)| Mutex::new((&mut t.cells, s.held))).collect();
            fork(lists.len(), empty, |t| {
                lists[t]
                    .iter()
                    .map(|item| {
                        let i = parts.of(item.number);
                        if let Some(r) = casts.base_reply(&w.stores[i], order, item) {
                            return r;
                        }
                        let mut table = shared[i].lock().unwrap();
                        if place_of(order, table.0, item.number).is_some() {
                            TAKEN
                        } else if table.1 == w.limit {
                            FULL
                        } else {
                            put_in(order, table.0, item.number);
                            table.1 += 1;
                            ACCEPTED
                        }
                    })
                    .collect()
            })
        }
        Engine::BTree => {
            let collected = fork(lists.len(), empty, |t| {
                let reply = |item: &Item| casts.base_reply(&w.stores[parts.of(item.number)], order, item);
                lists[t].iter().map(|item| (item.number, reply(item))).collect::<Vec<_>>()
            });
            let mut maps: Vec<_> = w.stores.iter().map(tree).collect();
            let replies = collected
                .into_iter()
                .map(|list| {
                    list.into_iter()
                        .map(|(number, reply)| {
                            if let Some(r) = reply {
                                return r;
                            }
                            let map = &mut maps[parts.of(number)];
                            let room = map.len() < w.limit;
                            match map.entry(number) {
                                Entry::Occupied(_) => TAKEN,
                                Entry::Vacant(_) if !room => FULL,
                                Entry::Vacant(e) => {
                                    e.insert(());
                                    ACCEPTED
                                }
                            }
                        })
                        .collect()
                })
                .collect();
            for ((t, s), map) in tables.iter_mut().zip(w.stores).zip(&maps) {
                lay_out(order, map, s.cells.len(), t);
            }
            replies
        }
    }
}

/// Runs a withdrawing phase. The new cells are left in the tables.
pub fn run_withdraw(w: &Work, lists: &[Vec<u64>], tables: &mut [Tables]) -> Vec<Vec<u8>> {
    let (order, parts) = (w.order, w.parts);
    let empty = |t: usize| lists[t].is_empty();
    let open = |tables: &mut [Tables], flags: bool| {
        for (t, s) in tables.iter_mut().zip(w.stores) {
            t.open(&s.cells, s.cells.len(), if flags { s.cells.len() } else { 0 });
        }
    };
    match w.style.engine {
        Engine::LockFree => {
            open(tables, true);
            let shared: Vec<Words> = tables.iter_mut().map(|t| t.words(order, w.style.look)).collect();
            fork(lists.len(), empty, |t| {
                lists[t]
                    .iter()
                    .map(|&x| {
                        let i = parts.of(x);
                        place_of(order, &w.stores[i].cells, x).map_or(ABSENT, |p| shared[i].withdraw(x, p))
                    })
                    .collect()
            })
        }
        Engine::Mutex => {
            open(tables, false);
            let shared: Vec<_> = tables.iter_mut().map(|t| Mutex::new(&mut t.cells)).collect();
            fork(lists.len(), empty, |t| {
                lists[t]
                    .iter()
                    .map(|&x| {
                        let i = parts.of(x);
                        if place_of(order, &w.stores[i].cells, x).is_none() {
                            return ABSENT;
                        }
                        let mut table = shared[i].lock().unwrap();
                        match place_of(order, &table, x) {
                            None => GONE,
                            Some(p) => {
                                take_out(order, &mut table, p);
                                WITHDRAWN
                            }
                        }
                    })
                    .collect()
            })
        }
        Engine::BTree => {
            let collected = fork(lists.len(), empty, |t| {
                let held = |x: u64| place_of(order, &w.stores[parts.of(x)].cells, x).is_some();
                lists[t].iter().map(|&x| (x, held(x))).collect::<Vec<_>>()
            });
            let mut maps: Vec<_> = w.stores.iter().map(tree).collect();
            let replies = collected
                .into_iter()
                .map(|list| {
                    list.into_iter()
                        .map(|(x, held)| match (held, maps[parts.of(x)].remove(&x)) {
                            (false, _) => ABSENT,
                            (true, Some(())) => WITHDRAWN,
                            (true, None) => GONE,
                        })
                        .collect()
                })
                .collect();
            for ((t, s), map) in tables.iter_mut().zip(w.stores).zip(&maps) {
                lay_out(order, map, s.cells.len(), t);
            }
            replies
        }
    }
}

pub fn run_find(w: &Work, lists: &[Vec<u64>]) -> Vec<Vec<u8>> {
    let (order, parts, stores) = (w.order, w.parts, w.stores);
    fork(lists.len(), |t| lists[t].is_empty(), |t| {
        let (order, parts, stores) = (order, parts, stores);
        lists[t].iter().map(|&x| place_of(order, &stores[parts.of(x)].cells, x).is_some() as u8).collect()
    })
}
