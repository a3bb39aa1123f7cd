//! Lines of the script, the session machine and the generated script.

use crate::election::*;
use crate::engine::*;
use crate::lines::*;
use crate::medium::Media;
use crate::store::Stores;

#[derive(Clone, Copy, PartialEq)]
enum Phase {
    Closed,
    Casting,
    Withdrawing,
    Finding,
}

impl Phase {
    fn name(self) -> &'static [u8] {
        match self {
            Phase::Closed => b"closed",
            Phase::Casting => b"casting",
            Phase::Withdrawing => b"withdrawing",
            Phase::Finding => b"finding",
        }
    }
}

enum Line {
    Open(Phase, usize),
    Cast(usize, Result<u64, LineFault>),
    Number(Phase, usize, u64),
    Close,
    Checkpoint,
    Tally,
    Export,
}

pub struct Session<'a> {
    e: &'a Election,
    style: Style,
    stores: Stores,
    phase: Phase,
    items: Vec<Vec<Item>>,
    numbers: Vec<Vec<u64>>,
    rows: Vec<u8>,
    /// the record of the line at hand
    row: [u8; MAX_ROW],
    /// only `closed N`, `checkpoint N` and the tally are written
    quiet: bool,
    watch: Watch,
}

/// Times of the parts, told on standard error where PEER_TIMES is set.
struct Watch {
    on: bool,
    last: std::time::Instant,
}

impl Watch {
    fn tell(&mut self, what: &str) {
        if self.on {
            let now = std::time::Instant::now();
            eprintln!("{:>12.1} us  {}", (now - self.last).as_nanos() as f64 / 1e3, what);
            self.last = now;
        }
    }
}

#[inline]
fn tab(text: &[u8], at: &mut usize) -> Option<usize> {
    let t = decimal(text, at)?;
    if t <= 64 { Some(t as usize) } else { None }
}

#[inline]
fn read_line(line: &[u8], e: &Election, row: &mut [u8; MAX_ROW]) -> Option<Line> {
    let item = |word: usize| -> Option<(usize, &[u8])> {
        let mut at = word;
        let t = tab(line, &mut at)?;
        if line.get(at) == Some(&b' ') { Some((t, &line[at + 1..])) } else { None }
    };
    match line.first()? {
        b'c' if line.starts_with(b"cast ") => {
            let (t, record) = item(5)?;
            match e.read_record(record, row) {
                Err(LineFault::Malformed) => None,
                r => Some(Line::Cast(t, r)),
            }
        }
        b'w' if line.starts_with(b"withdraw ") => {
            let (t, number) = item(9)?;
            Some(Line::Number(Phase::Withdrawing, t, whole_decimal(number)?))
        }
        b'f' if line.starts_with(b"find ") => {
            let (t, number) = item(5)?;
            Some(Line::Number(Phase::Finding, t, whole_decimal(number)?))
        }
        b'o' => {
            let rest = line.strip_prefix(b"open ")?;
            let (phase, t) = if let Some(t) = rest.strip_prefix(b"cast ") {
                (Phase::Casting, t)
            } else if let Some(t) = rest.strip_prefix(b"withdraw ") {
                (Phase::Withdrawing, t)
            } else {
                (Phase::Finding, rest.strip_prefix(b"find ")?)
            };
            let t = whole_decimal(t)?;
            if t <= 64 { Some(Line::Open(phase, t as usize)) } else { None }
        }
        _ => match line {
            b"close" => Some(Line::Close),
            b"checkpoint" => Some(Line::Checkpoint),
            b"tally" => Some(Line::Tally),
            b"export" => Some(Line::Export),
            _ => None,
        },
    }
}

impl<'a> Session<'a> {
    pub fn new(e: &'a Election, style: Style, stores: Stores, quiet: bool) -> Session<'a> {
        Session {
            e,
            style,
            stores,
            phase: Phase::Closed,
            items: Vec::new(),
            numbers: Vec::new(),
            rows: Vec::new(),
            row: [0; MAX_ROW],
            quiet,
            watch: Watch { on: std::env::var_os("PEER_TIMES").is_some(), last: std::time::Instant::now() },
        }
    }

    fn refused(out: &mut Out, index: u64, why: &[u8], phase: &[u8]) {
        out.text.extend_from_slice(b"line ");
        put_number(&mut out.text, index);
        out.text.push(b' ');
        out.text.extend_from_slice(why);
        out.text.extend_from_slice(phase);
        out.text.push(b'\n');
    }

    #[inline]
    pub fn line(&mut self, text: &[u8], index: u64, media: &mut dyn Media, out: &mut Out) -> Result<(), End> {
        let Some(line) = read_line(text, self.e, &mut self.row) else {
            Session::refused(out, index, b"malformed", b"");
            return if out.spill() { Ok(()) } else { Err(End::Write) };
        };
        let fits = match line {
            Line::Open(..) | Line::Checkpoint | Line::Tally | Line::Export => self.phase == Phase::Closed,
            Line::Cast(..) => self.phase == Phase::Casting,
            Line::Number(p, ..) => self.phase == p,
            Line::Close => self.phase != Phase::Closed,
        };
        if !fits {
            Session::refused(out, index, b"wrong-phase ", self.phase.name());
            return if out.spill() { Ok(()) } else { Err(End::Write) };
        }
        match line {
            Line::Cast(t, Ok(number)) if t <= self.items.len() => self.queue(t, number),
            Line::Number(_, t, number) if t <= self.numbers.len() => self.numbers[t - 1].push(number),
            Line::Cast(..) | Line::Number(..) => {
                Session::refused(out, index, b"invalid", b"");
                return if out.spill() { Ok(()) } else { Err(End::Write) };
            }
            Line::Open(phase, t) => self.open(phase, t, out),
            Line::Close => self.close(out)?,
            Line::Checkpoint => self.checkpoint(media, out)?,
            Line::Tally => self.stores.tally(self.e, &mut out.text),
            Line::Export => {
                if !self.stores.export(self.e, out) {
                    return Err(End::Write);
                }
            }
        }
        if out.spill() { Ok(()) } else { Err(End::Write) }
    }

    #[inline]
    fn queue(&mut self, t: usize, number: u64) {
        let at = self.rows.len() as u32;
        self.rows.extend_from_slice(&self.row[..self.e.row]);
        self.items[t - 1].push(Item { number, row: at });
    }

    fn open(&mut self, phase: Phase, t: usize, out: &mut Out) {
        self.watch.tell("before open");
        self.phase = phase;
        if phase == Phase::Casting {
            self.items.resize_with(t, Vec::new);
        } else {
            self.numbers.resize_with(t, Vec::new);
        }
        if !self.quiet {
            out.count(phase.name(), t);
        }
    }

    fn close(&mut self, out: &mut Out) -> Result<(), End> {
        self.watch.tell("lines of the phase");
        const CAST: [&[u8]; 5] = [b" accepted\n", b" duplicate\n", b" conflict\n", b"", b" full\n"];
        const WITHDRAW: [&[u8]; 3] = [b" withdrawn\n", b" gone\n", b" absent\n"];
        const FIND: [&[u8]; 2] = [b" absent\n", b" present\n"];
        let (replies, words): (Vec<Vec<u8>>, &[&[u8]]) = match self.phase {
            Phase::Casting => (self.stores.cast(self.e, &self.items, &self.rows), &CAST),
            Phase::Withdrawing => (self.stores.withdraw(self.e, &self.numbers), &WITHDRAW),
            _ => (self.stores.find(self.e, &self.numbers), &FIND),
        };
        self.watch.tell("phase");
        self.items.clear();
        self.numbers.clear();
        self.rows.clear();
        self.phase = Phase::Closed;
        if !self.quiet {
            for (i, list) in replies.iter().enumerate() {
                for (k, r) in list.iter().enumerate() {
                    put_number(&mut out.text, i as u64 + 1);
                    out.text.push(b' ');
                    put_number(&mut out.text, k as u64 + 1);
                    out.text.extend_from_slice(words[*r as usize]);
                    if !out.spill() {
                        return Err(End::Write);
                    }
                }
            }
        }
        out.count(b"closed", self.stores.held());
        self.watch.tell("replies");
        Ok(())
    }

    fn checkpoint(&mut self, media: &mut dyn Media, out: &mut Out) -> Result<(), End> {
        self.watch.tell("before checkpoint");
        if !out.flush() {
            return Err(End::Write);
        }
        media.renew(self.e, &self.stores.all).map_err(End::Disk)?;
        self.watch.tell("checkpoint");
        out.count(b"checkpoint", self.stores.held());
        if out.flush() { Ok(()) } else { Err(End::Write) }
    }

    pub fn end(&mut self, out: &mut Out) -> Result<(), End> {
        if self.phase != Phase::Closed {
            out.text.extend_from_slice(b"dropped ");
            out.text.extend_from_slice(self.phase.name());
            out.text.push(b'\n');
        }
        let ok = out.flush();
        self.watch.tell("end");
        if ok { Ok(()) } else { Err(End::Write) }
    }

    /// The generated script, as lines through `line`, or straight into the lists.
    pub fn large(
        &mut self,
        seed: u64,
        count: u64,
        tabs: usize,
        media: &mut dyn Media,
        out: &mut Out,
    ) -> Result<(), End> {
        let e = self.e;
        let n = count.min(e.limit as u64);
        let number = |i: u64| (seed + i).wrapping_mul(0xD134_2543_DE82_EF95);
        if self.style.direct {
            let t = tabs as u64;
            self.open(Phase::Casting, tabs, out);
            for list in &mut self.items {
                list.reserve(n as usize / tabs + 1);
            }
            self.rows.reserve(n as usize * e.row);
            for i in 1..=n {
                let style = i as usize % e.styles.len();
                self.row[..8].copy_from_slice(&number(i).to_be_bytes());
                self.row[8] = style as u8 + 1;
                for k in 0..e.contests() {
                    let marked = i % 7 != 0 && e.styles[style] >> k & 1 == 1;
                    let c = (i + k as u64 + 1) % e.choices[k] as u64;
                    e.put_marks(&mut self.row, k, (marked as u64) << c);
                }
                self.queue(1 + (i % t) as usize, number(i));
            }
            self.close(out)?;
            self.open(Phase::Withdrawing, tabs, out);
            for i in (10..=n).step_by(10) {
                self.numbers[(i / 10 % t) as usize].push(number(i));
            }
            self.close(out)?;
            self.checkpoint(media, out)?;
            self.stores.tally(e, &mut out.text);
            return if out.spill() { Ok(()) } else { Err(End::Write) };
        }
        let mut text = Vec::with_capacity(WIDTH);
        let mut index = 0;
        let mut say = |s: &mut Session, text: &[u8], out: &mut Out| {
            index += 1;
            s.line(text, index, media, out)
        };
        let put = |text: &mut Vec<u8>, word: &[u8], v: u64| {
            text.extend_from_slice(word);
            put_number(text, v);
        };
        put(&mut text, b"open cast ", tabs as u64);
        say(self, &text, out)?;
        for i in 1..=n {
            text.clear();
            put(&mut text, b"cast ", 1 + i % tabs as u64);
            put(&mut text, b" ", number(i));
            let style = i as usize % e.styles.len();
            put(&mut text, b" ", style as u64 + 1);
            for k in 0..e.contests() {
                text.push(if k == 0 { b' ' } else { b'/' });
                if i % 7 == 0 || e.styles[style] >> k & 1 == 0 {
                    text.push(b'-');
                } else {
                    put_number(&mut text, 1 + (i + k as u64 + 1) % e.choices[k] as u64);
                }
            }
            say(self, &text, out)?;
        }
        say(self, b"close", out)?;
        text.clear();
        put(&mut text, b"open withdraw ", tabs as u64);
        say(self, &text, out)?;
        for i in (10..=n).step_by(10) {
            text.clear();
            put(&mut text, b"withdraw ", 1 + i / 10 % tabs as u64);
            put(&mut text, b" ", number(i));
            say(self, &text, out)?;
        }
        say(self, b"close", out)?;
        say(self, b"checkpoint", out)?;
        say(self, b"tally", out)
    }
}
