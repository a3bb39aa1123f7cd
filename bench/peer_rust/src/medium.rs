//! The medium: a real file with pread, pwrite and fdatasync; init, recovery,
//! checkpoint and audit (pages of 4,096 bytes), fill and look, two disks as one.

use crate::election::Election;
use crate::store::{ImageFault, Store};
use std::fs::{File, OpenOptions};
use std::io::{ErrorKind, Result as Io};
use std::ops::Range;
use std::os::unix::fs::FileExt;
use std::path::Path;

pub const PAGE: usize = 4096;
/// how many bytes are written once more in one call
const AGAIN: usize = 65536;
const OPEN: u8 = 0xA7;

pub enum Fault {
    Disk,
    NoStore,
    OtherElection,
    Damaged(u32),
    Exists,
    WrongSize(u64),
}

impl From<std::io::Error> for Fault {
    fn from(_: std::io::Error) -> Fault {
        Fault::Disk
    }
}

/// The store that a look found, and where.
pub struct Found {
    pub store: Store,
    bank: usize,
    gates: (bool, bool),
}

pub trait Disk {
    fn size(&mut self) -> Io<u64>;
    fn read(&mut self, at: u64, buf: &mut [u8]) -> Io<()>;
    fn write(&mut self, at: u64, bytes: &[u8]) -> Io<()>;
    fn sync(&mut self) -> Io<()>;
    /// pages handled in one call
    fn run(&self) -> usize;

    fn gates(&mut self, e: &Election) -> Io<(bool, bool)> {
        let mut two = [0; 2];
        self.read(2 * e.bank as u64, &mut two)?;
        Ok((two[0] == OPEN, two[1] == OPEN))
    }

    fn gate(&mut self, e: &Election, bank: usize, byte: u8) -> Io<()> {
        self.write((2 * e.bank + bank) as u64, &[byte])?;
        self.sync()
    }

    /// Reads a bank by pages and gives those that differ from the image.
    fn differing(&mut self, e: &Election, bank: usize, image: &[u8]) -> Io<Vec<usize>> {
        let mut found = vec![0; self.run() * PAGE];
        let mut pages = Vec::new();
        let mut at = 0;
        while at < e.bank {
            let n = (e.bank - at).min(found.len());
            self.read((bank * e.bank + at) as u64, &mut found[..n])?;
            for (i, page) in found[..n].chunks(PAGE).enumerate() {
                if *page != image[at + i * PAGE..at + i * PAGE + page.len()] {
                    pages.push(at + i * PAGE);
                }
            }
            at += n;
        }
        Ok(pages)
    }

    fn put_pages(&mut self, e: &Election, bank: usize, image: &[u8], pages: &[usize]) -> Io<()> {
        let mut i = 0;
        while i < pages.len() {
            let mut j = i + 1;
            while j < pages.len() && j - i < self.run() && pages[j] == pages[j - 1] + PAGE {
                j += 1;
            }
            let to = (pages[j - 1] + PAGE).min(e.bank);
            self.write((bank * e.bank + pages[i]) as u64, &image[pages[i]..to])?;
            i = j;
        }
        Ok(())
    }

    /// Makes the medium of this image, where none is yet.
    fn fill(&mut self, e: &Election, image: &[u8]) -> Result<(), Fault> {
        self.sync()?;
        let size = self.size()?;
        if size > e.medium() {
            return Err(Fault::WrongSize(size));
        }
        if size == e.medium() {
            let (a, b) = self.gates(e)?;
            if a || b {
                return Err(Fault::Exists);
            }
        }
        let all: Vec<usize> = (0..e.bank).step_by(PAGE).collect();
        self.put_pages(e, 0, image, &all)?;
        self.put_pages(e, 1, image, &all)?;
        self.sync()?;
        self.write(2 * e.bank as u64, &[OPEN, OPEN])?;
        self.sync()?;
        Ok(())
    }

    /// The store that the bytes read now hold; neither writes nor syncs.
    fn look(&mut self, e: &Election) -> Result<Found, Fault> {
        if self.size()? != e.medium() {
            return Err(Fault::NoStore);
        }
        let gates = self.gates(e)?;
        if !gates.0 && !gates.1 {
            return Err(Fault::NoStore);
        }
        let bank = !gates.0 as usize;
        let mut image = vec![0; e.bank];
        let run = self.run() * PAGE;
        for (i, part) in image.chunks_mut(run).enumerate() {
            self.read((bank * e.bank + i * run) as u64, part)?;
        }
        let store = Store::from_image(e, image).map_err(|f| match f {
            ImageFault::OtherElection => Fault::OtherElection,
            ImageFault::Damaged(c) => Fault::Damaged(c),
        })?;
        Ok(Found { store, bank, gates })
    }

    /// The rest of a recovery after its sync and its look.
    fn settle(&mut self, e: &Election, found: &Found) -> Io<()> {
        let (image, bank) = (&found.store.image, found.bank);
        let pages = self.differing(e, 1 - bank, image)?;
        if bank == 0 && pages.is_empty() && found.gates.1 {
            return Ok(());
        }
        if bank == 0 && found.gates.1 {
            self.gate(e, 1, 0)?;
        }
        self.put_pages(e, 1 - bank, image, &pages)?;
        self.sync()?;
        self.gate(e, 1 - bank, OPEN)
    }

    fn recover(&mut self, e: &Election) -> Result<Store, Fault> {
        self.sync()?;
        let found = self.look(e)?;
        self.settle(e, &found)?;
        Ok(found.store)
    }

    fn checkpoint(&mut self, e: &Election, image: &[u8]) -> Io<()> {
        for bank in [1, 0] {
            self.gate(e, bank, 0)?;
            let pages = self.differing(e, bank, image)?;
            self.put_pages(e, bank, image, &pages)?;
            self.sync()?;
            self.gate(e, bank, OPEN)?;
        }
        Ok(())
    }

    /// How many are held, and the first place that differs from their medium.
    fn audit(&mut self, e: &Election) -> Result<(usize, Option<u64>), Fault> {
        let Found { store, bank, gates } = self.look(e)?;
        let pages = self.differing(e, 1 - bank, &store.image)?;
        if let Some(&at) = pages.first() {
            let mut page = vec![0; PAGE.min(e.bank - at)];
            self.read(((1 - bank) * e.bank + at) as u64, &mut page)?;
            let i = page.iter().zip(&store.image[at..]).position(|(a, b)| a != b).unwrap_or(0);
            return Ok((store.held, Some(((1 - bank) * e.bank + at + i) as u64)));
        }
        let place = match gates {
            (false, _) => Some(2 * e.bank as u64),
            (_, false) => Some(2 * e.bank as u64 + 1),
            _ => None,
        };
        Ok((store.held, place))
    }
}

pub struct FileDisk {
    path: String,
    file: Option<File>,
    opened: bool,
    /// the file's name in its folder is settled
    named: bool,
    run: usize,
    /// a sync of the file succeeded in this run
    synced: bool,
    /// the least range of the file that has all writes since then
    unsettled: Range<u64>,
}

impl FileDisk {
    pub fn new(path: &str, runs: bool) -> FileDisk {
        let (path, run) = (path.to_string(), if runs { 64 } else { 1 });
        FileDisk { path, file: None, opened: false, named: false, run, synced: false, unsettled: 0..0 }
    }

    fn file(&mut self) -> Io<Option<&File>> {
        if !self.opened {
            self.file = match OpenOptions::new().read(true).write(true).open(&self.path) {
                Ok(f) => Some(f),
                Err(e) if e.kind() == ErrorKind::NotFound => None,
                Err(e) if e.kind() == ErrorKind::PermissionDenied => Some(File::open(&self.path)?),
                Err(e) => return Err(e),
            };
            self.opened = true;
        }
        Ok(self.file.as_ref())
    }

    /// After a sync of the file failed: the system may take for written what the device never
    /// got. Bytes that are written once more reach it at the next run's first sync, or that fails
    /// too. Where no sync succeeded yet it is the whole file, in which an earlier run may have
    /// left such bytes. A piece that fails is tried page by page, and a page that fails is passed
    /// over.
    fn write_again(&self, file: &File) {
        let size = file.metadata().map_or(0, |m| m.len());
        let span = if self.synced { self.unsettled.clone() } else { 0..size };
        for piece in pieces(span.start..span.end.min(size), AGAIN) {
            if put_back(file, &piece).is_err() {
                for page in pieces(piece, PAGE) {
                    let _ = put_back(file, &page);
                }
            }
        }
    }
}

/// A range in pieces that end at multiples of this size.
fn pieces(range: Range<u64>, size: usize) -> impl Iterator<Item = Range<u64>> {
    let mut at = range.start;
    std::iter::from_fn(move || {
        let piece = at..range.end.min((at / size as u64 + 1) * size as u64);
        at = piece.end;
        (!piece.is_empty()).then_some(piece)
    })
}

/// Writes to a range the bytes that a read gives there.
fn put_back(file: &File, range: &Range<u64>) -> Io<()> {
    let mut bytes = vec![0; (range.end - range.start) as usize];
    file.read_exact_at(&mut bytes, range.start)?;
    file.write_all_at(&bytes, range.start)
}

impl Disk for FileDisk {
    fn size(&mut self) -> Io<u64> {
        Ok(match self.file()? {
            Some(f) => f.metadata()?.len(),
            None => 0,
        })
    }

    fn read(&mut self, at: u64, buf: &mut [u8]) -> Io<()> {
        match self.file()? {
            Some(f) => f.read_exact_at(buf, at),
            None => Err(ErrorKind::UnexpectedEof.into()),
        }
    }

    fn write(&mut self, at: u64, bytes: &[u8]) -> Io<()> {
        if self.file()?.is_none() {
            self.file = Some(OpenOptions::new().read(true).write(true).create(true).truncate(false).open(&self.path)?);
        }
        let (old, to) = (&self.unsettled, at + bytes.len() as u64);
        self.unsettled = if old.is_empty() { at..to } else { old.start.min(at)..old.end.max(to) };
        self.file.as_ref().unwrap().write_all_at(bytes, at)
    }

    /// Settles the bytes and, the first time, the file's name. A run that was killed may have
    /// made the file, so this does not ask who made it.
    fn sync(&mut self) -> Io<()> {
        if self.file()?.is_none() {
            return Ok(());
        }
        let file = self.file.as_ref().unwrap();
        if let Err(fault) = file.sync_data() {
            self.write_again(file);
            return Err(fault);
        }
        (self.synced, self.unsettled) = (true, 0..0);
        if !self.named {
            let folder = Path::new(&self.path).parent().filter(|p| !p.as_os_str().is_empty());
            File::open(folder.unwrap_or(Path::new(".")))?.sync_all()?;
            self.named = true;
        }
        Ok(())
    }

    fn run(&self) -> usize {
        self.run
    }
}

/// Two disks as one: each call goes to both, and a read gives the first's bytes.
pub struct Twin<'a> {
    first: &'a mut FileDisk,
    second: &'a mut FileDisk,
    /// the disk that failed first; from then on no call reaches a disk
    pub failed: Option<u32>,
}

impl<'a> Twin<'a> {
    pub fn new(first: &'a mut FileDisk, second: &'a mut FileDisk) -> Twin<'a> {
        Twin { first, second, failed: None }
    }

    /// One call on the disk `early` and then on the other one.
    fn both<R>(&mut self, early: u32, mut call: impl FnMut(&mut FileDisk) -> Io<R>) -> Io<R> {
        if self.failed.is_some() {
            return Err(ErrorKind::Other.into());
        }
        let mut last = None;
        for which in [early, 1 - early] {
            match call(if which == 0 { &mut *self.first } else { &mut *self.second }) {
                Ok(r) => last = Some(r),
                Err(e) => {
                    self.failed = Some(which);
                    return Err(e);
                }
            }
        }
        Ok(last.unwrap())
    }
}

impl Disk for Twin<'_> {
    fn size(&mut self) -> Io<u64> {
        self.both(0, |d| d.size())
    }

    fn read(&mut self, at: u64, buf: &mut [u8]) -> Io<()> {
        self.both(1, |d| d.read(at, buf))
    }

    fn write(&mut self, at: u64, bytes: &[u8]) -> Io<()> {
        self.both(0, |d| d.write(at, bytes))
    }

    fn sync(&mut self) -> Io<()> {
        self.both(0, |d| d.sync())
    }

    fn run(&self) -> usize {
        self.first.run
    }
}

/// What a session checkpoints to: one disk, two as one, or one for each part. A fault gives
/// the number of the disk that failed.
pub trait Media {
    fn renew(&mut self, e: &Election, stores: &[Store]) -> Result<(), u32>;
}

impl Media for FileDisk {
    fn renew(&mut self, e: &Election, stores: &[Store]) -> Result<(), u32> {
        self.checkpoint(e, &stores[0].image).map_err(|_| 0)
    }
}

impl Media for Twin<'_> {
    fn renew(&mut self, e: &Election, stores: &[Store]) -> Result<(), u32> {
        self.checkpoint(e, &stores[0].image).map_err(|_| self.failed.unwrap_or(0))
    }
}

impl Media for Vec<FileDisk> {
    fn renew(&mut self, e: &Election, stores: &[Store]) -> Result<(), u32> {
        for (i, (disk, s)) in self.iter_mut().zip(stores).enumerate() {
            disk.checkpoint(e, &s.image).map_err(|_| i as u32)?;
        }
        Ok(())
    }
}
