//! The commands over further media: `migrate`, `merge`, and what comes before the session of
//! `twin` and `part`.

use crate::election::Election;
use crate::engine::{Parts, Style};
use crate::medium::{Disk, Fault, FileDisk, Found};
use crate::store::Store;
use crate::Status;

/// The version 1 medium of the first disk as a version 2 medium on the second.
pub fn migrate(disks: &mut [FileDisk], e: &Election) -> Result<usize, Status> {
    let old = e.as_version_one().ok_or(Status::NoOldForm)?;
    let from = disks[0].look(&old)?.store;
    let mut image = Store::empty(e).image;
    let cells = from.image[32..].chunks_exact(old.row).zip(image[32..].chunks_exact_mut(e.row));
    // homes and limit are the same, so are the places
    for ((row, new), _) in cells.zip(&from.cells).filter(|c| *c.1 != 0) {
        new[..9].copy_from_slice(&row[..9]);
        for (set, wide) in row[9..].chunks_exact(4).zip(new[9..].chunks_exact_mut(8)) {
            wide[4..].copy_from_slice(set);
        }
    }
    disks[1].fill(e, &image).map_err(|f| Status::of(1, f))?;
    Ok(from.held)
}

/// The union of all media becomes that of the first disk.
pub fn merge(disks: &mut [FileDisk], e: &Election) -> Result<usize, Status> {
    let mut stores = vec![disks[0].recover(e)?];
    for (i, disk) in disks.iter_mut().enumerate().skip(1) {
        stores.push(disk.look(e).map_err(|f| Status::of(i as u32, f))?.store);
    }
    let (held, image) = union(&stores, e)?;
    disks[0].checkpoint(e, &image).map_err(|_| Status::DiskFault)?;
    Ok(held)
}

/// A record's medium and cell in one word; a cell's number is below 2^17.
const SHIFT: u32 = 17;

fn row_at<'a>(stores: &'a [Store], e: &Election, at: u32) -> &'a [u8] {
    stores[(at >> SHIFT) as usize].row(e, at as usize & ((1 << SHIFT) - 1))
}

/// How many numbers the union has, and its image.
fn union(stores: &[Store], e: &Election) -> Result<(usize, Vec<u8>), Status> {
    let mut cells = stores[0].cells.clone();
    let mut at: Vec<u32> = (0..e.cells as u32).collect();
    let (mut held, mut dispute) = (stores[0].held, None);
    for (m, store) in stores.iter().enumerate().skip(1) {
        for (q, &number) in store.cells.iter().enumerate().filter(|c| *c.1 != 0) {
            let mut p = e.order.home(number);
            while cells[p] > number {
                p += 1;
            }
            let (mut v, mut from) = (number, (m as u32) << SHIFT | q as u32);
            if cells[p] == number {
                if row_at(stores, e, at[p]) != store.row(e, q) {
                    dispute = Some(dispute.map_or(number, |d: u64| d.min(number)));
                }
                continue;
            }
            if held == e.limit {
                return Err(refused(stores, e));
            }
            held += 1;
            while v != 0 {
                if cells[p] < v {
                    std::mem::swap(&mut cells[p], &mut v);
                    std::mem::swap(&mut at[p], &mut from);
                }
                p += 1;
            }
        }
    }
    if let Some(number) = dispute {
        return Err(Status::MergeConflict(number));
    }
    let mut image = vec![0; e.bank];
    image[..32].copy_from_slice(&e.header());
    for (p, _) in cells.iter().enumerate().filter(|c| *c.1 != 0) {
        image[Store::cell(e, p)].copy_from_slice(row_at(stores, e, at[p]));
    }
    Ok((held, image))
}

/// Why stores that are together above the limit have no union: by all their numbers in order.
fn refused(stores: &[Store], e: &Election) -> Status {
    let mut all: Vec<(u64, u32)> = Vec::new();
    for (m, store) in stores.iter().enumerate() {
        let held = store.cells.iter().enumerate().filter(|c| *c.1 != 0);
        all.extend(held.map(|(p, v)| (*v, (m as u32) << SHIFT | p as u32)));
    }
    all.sort_unstable();
    let mut count = 0;
    for same in all.chunk_by(|a, b| a.0 == b.0) {
        count += 1;
        let row = row_at(stores, e, same[0].1);
        if same[1..].iter().any(|s| row_at(stores, e, s.1) != row) {
            return Status::MergeConflict(same[0].0);
        }
    }
    Status::MergeFull(count)
}

/// A look at a disk of a pair: None where it is lost.
fn look_at(disk: &mut FileDisk, e: &Election) -> Result<Option<Found>, Fault> {
    disk.sync()?;
    let size = disk.size()?;
    if size > e.medium() {
        return Err(Fault::WrongSize(size));
    }
    match disk.look(e) {
        Ok(found) => Ok(Some(found)),
        Err(Fault::NoStore) => Ok(None),
        Err(f) => Err(f),
    }
}

/// The recovery of a disk after a look, which need not be its own where that came after a sync.
fn recover(disk: &mut FileDisk, e: &Election, found: &Found, style: Style) -> Result<(), Fault> {
    if style.once {
        disk.settle(e, found)?;
    } else {
        disk.recover(e)?;
    }
    Ok(())
}

/// Makes both disks hold one set, that of the first, or of the second where the first is lost;
/// gives it, and what the first line says of the two.
pub fn pair(disks: &mut [FileDisk], e: &Election, style: Style) -> Result<(Store, &'static str), Status> {
    let first = look_at(&mut disks[0], e)?;
    let second = look_at(&mut disks[1], e).map_err(|f| Status::of(1, f))?;
    let said = match (&first, &second) {
        (None, None) => return Err(Status::NoStore),
        (None, Some(_)) => "first-restored",
        (Some(_), None) => "second-restored",
        (Some(a), Some(b)) if a.store.image == b.store.image => "equal",
        _ => "differed",
    };
    let image = &first.as_ref().or(second.as_ref()).unwrap().store.image;
    for (i, found) in [&first, &second].into_iter().enumerate() {
        let done = match found {
            None => disks[i].fill(e, image),
            Some(found) => recover(&mut disks[i], e, found, style),
        };
        done.map_err(|f| Status::of(i as u32, f))?;
    }
    if said == "differed" {
        disks[1].checkpoint(e, image).map_err(|_| Status::OtherDiskFault(1))?;
    }
    Ok((first.or(second).unwrap().store, said))
}

/// Opens the parts: looks at all media, and then recovers each.
pub fn open_parts(disks: &mut [FileDisk], e: &Election, style: Style) -> Result<Vec<Store>, Status> {
    let parts = Parts(disks.len().trailing_zeros());
    let mut all = Vec::new();
    for (i, disk) in disks.iter_mut().enumerate() {
        let synced = if style.once { disk.sync().map_err(Fault::from) } else { Ok(()) };
        all.push(synced.and_then(|()| disk.look(e)).map_err(|f| Status::of(i as u32, f))?);
    }
    for (i, found) in all.iter().enumerate() {
        if let Some(&v) = found.store.cells.iter().filter(|v| **v != 0 && parts.of(**v) != i).min() {
            return Err(Status::Misplaced(i as u32, v));
        }
    }
    for (i, (disk, found)) in disks.iter_mut().zip(&all).enumerate() {
        recover(disk, e, found, style).map_err(|f| Status::of(i as u32, f))?;
    }
    Ok(all.into_iter().map(|f| f.store).collect())
}
