//! `sample` and `compare`: the records with the least tickets.

use crate::election::*;
use crate::engine::place_of;
use crate::lines::*;
use crate::sha256::{digest, heads};
use crate::store::Store;
use std::cmp::Ordering;

/// The cells of the k records with the least pairs of ticket and number, in the order of cells.
fn chosen(store: &Store, dice: &[u8], k: usize, lanes: bool) -> Vec<u32> {
    let mut all: Vec<(u64, u32)> = Vec::with_capacity(store.held);
    all.extend(store.cells.iter().enumerate().filter(|c| *c.1 != 0).map(|(p, v)| (*v, p as u32)));
    if k < all.len() {
        heads(dice, &mut all, lanes);
        // the digest's first eight bytes nearly always tell two tickets apart
        let rest = |p: u32| {
            let v = store.cells[p as usize];
            (digest(dice, v), v)
        };
        let order = |a: &(u64, u32), b: &(u64, u32)| match a.0.cmp(&b.0) {
            Ordering::Equal => rest(a.1).cmp(&rest(b.1)),
            o => o,
        };
        all.select_nth_unstable_by(k, order);
        all.truncate(k);
    }
    all.into_iter().map(|c| c.1).collect()
}

pub fn sample(store: &Store, e: &Election, dice: &[u8], k: usize, lanes: bool, out: &mut Out) -> Result<(), End> {
    let mut cells = chosen(store, dice, k, lanes);
    cells.sort_unstable_by_key(|p| store.cells[*p as usize]);
    out.count(b"sample", cells.len());
    let wrote = cells.iter().all(|p| out.record(e, store.row(e, *p as usize)));
    if wrote { Ok(()) } else { Err(End::Write) }
}

pub fn compare(store: &Store, e: &Election, dice: &[u8], k: usize, lanes: bool, out: &mut Out) -> Result<(), End> {
    const OUT: u8 = 0;
    const IN: u8 = 1;
    const MET: u8 = 2;
    let cells = chosen(store, dice, k, lanes);
    let mut missing = cells.len();
    let mut state = vec![OUT; e.cells];
    cells.iter().for_each(|p| state[*p as usize] = IN);
    let mut row = [0; MAX_ROW];
    each_line(out, |line, index, out| {
        let reply: &[u8] = match e.read_record(line, &mut row) {
            Err(LineFault::Malformed) => b" malformed\n",
            Err(LineFault::Invalid) => b" invalid\n",
            Ok(number) => match place_of(e.order, &store.cells, number).map(|p| (p, state[p])) {
                None | Some((_, OUT)) => b" outside\n",
                Some((p, IN)) => {
                    state[p] = MET;
                    missing -= 1;
                    if row[..e.row] == *store.row(e, p) { b" match\n" } else { b" differs\n" }
                }
                Some(_) => b" repeated\n",
            },
        };
        out.text.extend_from_slice(b"line ");
        put_number(&mut out.text, index);
        out.text.extend_from_slice(reply);
        if out.spill() { Ok(()) } else { Err(End::Write) }
    })?;
    out.count(b"missing", missing);
    Ok(())
}
