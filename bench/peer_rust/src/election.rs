//! The election, the record line and the record's cell bytes, in both versions.
//! A record is kept as its cell bytes ("row") from the moment its line is read.

use crate::json::{self, Json};

pub const MAX_ROW: usize = 9 + 8 * 24;
/// bytes of the longest record line
pub const MAX_LINE: usize = 4416;
const GOLDEN: u64 = 0x9E37_79B9_7F4A_7C15;

pub struct Election {
    pub version: u8,
    pub choices: Vec<u8>,
    pub allowed: Vec<u8>,
    pub styles: Vec<u32>,
    /// for each style and contest the choices that may not be marked
    barred: Vec<u64>,
    /// the same as they lie in a row, in words
    barred_row: Vec<u32>,
    pub limit: usize,
    pub order: Order,
    /// bytes of a mark set
    pub mark: usize,
    /// bytes of a cell
    pub row: usize,
    pub cells: usize,
    pub bank: usize,
}

#[derive(Clone, Copy)]
pub struct Order {
    pub bits: u8,
    pub salt: u64,
}

impl Order {
    #[inline(always)]
    pub fn home(&self, v: u64) -> usize {
        let m = (v ^ self.salt).wrapping_mul(GOLDEN);
        ((m >> 1) >> (63 - self.bits as u32)) as usize
    }
}

#[derive(Clone, Copy, PartialEq, Debug)]
pub enum LineFault {
    Malformed,
    Invalid,
}

/// The most contests and the most choices of a version.
fn most(version: u8) -> (usize, u64) {
    if version == 2 { (24, 64) } else { (16, 32) }
}

impl Election {
    fn new(version: u8, choices: Vec<u8>, allowed: Vec<u8>, styles: Vec<u32>, limit: usize, order: Order) -> Election {
        let mark = if version == 2 { 8 } else { 4 };
        let (mut barred, mut barred_row) = (Vec::new(), Vec::new());
        for set in &styles {
            for (k, n) in choices.iter().enumerate() {
                let free = if set >> k & 1 == 1 { u64::MAX >> (64 - *n as u32) } else { 0 };
                let bytes = (!free).to_be_bytes();
                barred.push(!free);
                barred_row.extend(bytes[8 - mark..].chunks_exact(4).map(|b| u32::from_ne_bytes(b.try_into().unwrap())));
            }
        }
        let row = 9 + mark * choices.len();
        let cells = (1usize << order.bits) + limit;
        let bank = 32 + cells * row;
        Election { version, choices, allowed, styles, barred, barred_row, limit, order, mark, row, cells, bank }
    }

    /// The same parts in version 1, where they are not already and where they fit.
    pub fn as_version_one(&self) -> Option<Election> {
        let (contests, choices) = most(1);
        if self.version == 1 || self.contests() > contests || self.choices.iter().any(|c| *c as u64 > choices) {
            return None;
        }
        Some(Election::new(1, self.choices.clone(), self.allowed.clone(), self.styles.clone(), self.limit, self.order))
    }

    pub fn contests(&self) -> usize {
        self.choices.len()
    }

    pub fn medium(&self) -> u64 {
        2 * self.bank as u64 + 2
    }

    pub fn header(&self) -> [u8; 32] {
        let mut h = [0u8; 32];
        h[..8].copy_from_slice(b"HIBSTORE");
        h[9] = self.version;
        h[10] = self.order.bits;
        h[11] = self.contests() as u8;
        h[12..16].copy_from_slice(&(self.limit as u32).to_be_bytes());
        h[16..24].copy_from_slice(&self.order.salt.to_be_bytes());
        h
    }

    pub fn read(bytes: &[u8]) -> Option<Election> {
        let Json::Object(top) = json::read(bytes)? else { return None };
        let get = |name: &str| top.iter().find(|(k, _)| k == name).map(|(_, v)| v);
        let version = match get("version") {
            Some(v) => whole(v, 1, 2)? as u8,
            None => 1,
        };
        if top.len() != 5 + get("version").is_some() as usize {
            return None;
        }
        let (most_contests, most_choices) = most(version);
        let Json::Array(contests) = get("contests")? else { return None };
        let Json::Array(styles) = get("styles")? else { return None };
        let limit = whole(get("limit")?, 1, 32_768)? as usize;
        let bits = whole(get("bits")?, 0, 16)? as u8;
        let Json::Text(salt) = get("salt")? else { return None };
        if salt.len() != 16 || !salt.bytes().all(|b| matches!(b, b'0'..=b'9' | b'a'..=b'f')) {
            return None;
        }
        let salt = u64::from_str_radix(salt, 16).ok()?;
        if contests.is_empty() || contests.len() > most_contests || styles.is_empty() || styles.len() > 255 {
            return None;
        }
        let mut choices = Vec::new();
        let mut allowed = Vec::new();
        for c in contests {
            let Json::Object(c) = c else { return None };
            if c.len() != 2 {
                return None;
            }
            let get = |name: &str| c.iter().find(|(k, _)| k == name).map(|(_, v)| v);
            let n = whole(get("choices")?, 1, most_choices)?;
            choices.push(n as u8);
            allowed.push(whole(get("allowed")?, 1, n)? as u8);
        }
        let mut sets = Vec::new();
        for s in styles {
            let Json::Array(s) = s else { return None };
            if s.is_empty() {
                return None;
            }
            let (mut set, mut last) = (0u32, 0);
            for k in s {
                let k = whole(k, last + 1, choices.len() as u64)?;
                set |= 1 << (k - 1);
                last = k;
            }
            sets.push(set);
        }
        Some(Election::new(version, choices, allowed, sets, limit, Order { bits, salt }))
    }

    /// Are these cell bytes, whose number is not 0, those of a valid record?
    #[inline]
    pub fn valid_row(&self, row: &[u8]) -> bool {
        let style = row[8] as usize;
        if style == 0 || style > self.styles.len() {
            return false;
        }
        let words = (self.row - 9) / 4;
        let barred = &self.barred_row[(style - 1) * words..style * words];
        let word = |b: &[u8]| u32::from_ne_bytes(b.try_into().unwrap());
        row[9..].chunks_exact(4).zip(barred).fold(0, |all, (b, m)| all | (word(b) & m)) == 0
    }

    /// The mark set of contest k, counted from 0, in these cell bytes.
    #[inline(always)]
    pub fn marks(&self, row: &[u8], k: usize) -> u64 {
        if self.mark == 4 {
            u32::from_be_bytes(row[9 + 4 * k..13 + 4 * k].try_into().unwrap()) as u64
        } else {
            u64::from_be_bytes(row[9 + 8 * k..17 + 8 * k].try_into().unwrap())
        }
    }

    #[inline(always)]
    pub fn put_marks(&self, row: &mut [u8], k: usize, set: u64) {
        if self.mark == 4 {
            row[9 + 4 * k..13 + 4 * k].copy_from_slice(&(set as u32).to_be_bytes());
        } else {
            row[9 + 8 * k..17 + 8 * k].copy_from_slice(&set.to_be_bytes());
        }
    }

    /// Reads a record line and puts the record's cell bytes at the front of `row`.
    #[inline]
    pub fn read_record(&self, line: &[u8], row: &mut [u8; MAX_ROW]) -> Result<u64, LineFault> {
        if self.mark == 4 { self.read_as::<4>(line, row) } else { self.read_as::<8>(line, row) }
    }

    #[inline]
    fn read_as<const MARK: usize>(&self, line: &[u8], row: &mut [u8; MAX_ROW]) -> Result<u64, LineFault> {
        use LineFault::*;
        let (most_contests, most_choices) = most(if MARK == 4 { 1 } else { 2 });
        let mut at = 0;
        let number = decimal(line, &mut at).ok_or(Malformed)?;
        if line.get(at) != Some(&b' ') {
            return Err(Malformed);
        }
        at += 1;
        let style = decimal(line, &mut at).ok_or(Malformed)?;
        if style > 255 || line.get(at) != Some(&b' ') {
            return Err(Malformed);
        }
        at += 1;
        let contests = self.contests();
        let barred = self.barred.get((style as usize - 1) * contests..style as usize * contests).unwrap_or(&[]);
        let mut groups = 0;
        let mut wrong = 0;
        loop {
            if groups >= most_contests {
                return Err(Malformed);
            }
            let mut set = 0u64;
            if line.get(at) == Some(&b'-') {
                at += 1;
            } else {
                let mut last = 0;
                loop {
                    let c = choice(line, &mut at).ok_or(Malformed)?;
                    if c > most_choices || c <= last {
                        return Err(Malformed);
                    }
                    set |= 1 << (c - 1);
                    last = c;
                    if line.get(at) == Some(&b',') {
                        at += 1;
                    } else {
                        break;
                    }
                }
            }
            row[9 + MARK * groups..9 + MARK * groups + MARK].copy_from_slice(&set.to_be_bytes()[8 - MARK..]);
            wrong |= barred.get(groups).map_or(u64::MAX, |b| set & b);
            groups += 1;
            match line.get(at) {
                None => break,
                Some(b'/') => at += 1,
                Some(_) => return Err(Malformed),
            }
        }
        row[..8].copy_from_slice(&number.to_be_bytes());
        row[8] = style as u8;
        if groups == contests && wrong == 0 { Ok(number) } else { Err(Invalid) }
    }

    /// Appends the record line of these cell bytes, without a line end.
    #[inline]
    pub fn put_record(&self, row: &[u8], out: &mut Vec<u8>) {
        out.reserve(MAX_LINE);
        if self.mark == 4 {
            put_line(row, row[9..].chunks_exact(4).map(|b| u32::from_be_bytes(b.try_into().unwrap()) as u64), out)
        } else {
            put_line(row, row[9..].chunks_exact(8).map(|b| u64::from_be_bytes(b.try_into().unwrap())), out)
        }
    }
}

/// For each choice a comma, its one or two digits, and how many bytes that are.
const CHOICES: [[u8; 4]; 65] = {
    let mut all = [[b',', 0, 0, 2]; 65];
    let mut c = 1;
    while c < 65 {
        let (tens, ones) = (b'0' + c as u8 / 10, b'0' + c as u8 % 10);
        all[c] = if c < 10 { [b',', ones, 0, 2] } else { [b',', tens, ones, 3] };
        c += 1;
    }
    all
};

#[inline]
fn put_line(row: &[u8], sets: impl Iterator<Item = u64>, out: &mut Vec<u8>) {
    put_number(out, u64::from_be_bytes(row[..8].try_into().unwrap()));
    out.push(b' ');
    put_number(out, row[8] as u64);
    // 64 choices with their commas have 183 bytes
    let mut group = [0; 192];
    for (k, mut set) in sets.enumerate() {
        out.push(if k == 0 { b' ' } else { b'/' });
        if set == 0 {
            out.push(b'-');
            continue;
        }
        let mut at = 0;
        while set != 0 && at < 188 {
            let text = &CHOICES[set.trailing_zeros() as usize + 1];
            group[at..at + 4].copy_from_slice(text);
            at += text[3] as usize;
            set &= set - 1;
        }
        out.extend_from_slice(&group[1..at]);
    }
}

/// A choice of one or two digits without a leading zero; a third digit stays and is then wrong.
#[inline(always)]
fn choice(line: &[u8], at: &mut usize) -> Option<u64> {
    let digit = |i: usize| line.get(i).map(|b| b.wrapping_sub(b'0')).filter(|d| *d < 10);
    let mut v = digit(*at).filter(|d| *d > 0)?;
    *at += 1;
    if let Some(d) = digit(*at) {
        v = v * 10 + d;
        *at += 1;
    }
    Some(v as u64)
}

fn whole(v: &Json, from: u64, to: u64) -> Option<u64> {
    match v {
        Json::Whole(n) if *n >= from && *n <= to => Some(*n),
        _ => None,
    }
}

/// A decimal from 1 to 2^64 - 1 without leading zeros; `at` is left behind its last digit.
#[inline(always)]
pub fn decimal(line: &[u8], at: &mut usize) -> Option<u64> {
    let mut i = *at;
    match line.get(i) {
        Some(b'1'..=b'9') => {}
        _ => return None,
    }
    let mut v = (line[i] - b'0') as u64;
    i += 1;
    // eight digits at once, as long as they stand there and no sum can overflow
    let mut count = 1;
    while count <= 9 && i + 8 <= line.len() {
        let w = u64::from_le_bytes(line[i..i + 8].try_into().unwrap()) ^ 0x3030_3030_3030_3030;
        if (w | w.wrapping_add(0x7676_7676_7676_7676)) & 0x8080_8080_8080_8080 != 0 {
            break;
        }
        let w = w.wrapping_mul(2561) >> 8 & 0x00FF_00FF_00FF_00FF;
        let w = w.wrapping_mul(6_553_601) >> 16 & 0x0000_FFFF_0000_FFFF;
        let w = w.wrapping_mul(42_949_672_960_001) >> 32;
        v = v * 100_000_000 + w;
        i += 8;
        count += 8;
    }
    while let Some(b @ b'0'..=b'9') = line.get(i) {
        let d = (b - b'0') as u64;
        v = if count < 19 { v * 10 + d } else { v.checked_mul(10)?.checked_add(d)? };
        count += 1;
        i += 1;
    }
    *at = i;
    Some(v)
}

/// A decimal as `decimal` reads it that is the whole of `text`.
pub fn whole_decimal(text: &[u8]) -> Option<u64> {
    let mut at = 0;
    let v = decimal(text, &mut at)?;
    if at == text.len() { Some(v) } else { None }
}

const PAIRS: &[u8; 200] = b"0001020304050607080910111213141516171819\
2021222324252627282930313233343536373839\
4041424344454647484950515253545556575859\
6061626364656667686970717273747576777879\
8081828384858687888990919293949596979899";

#[inline]
pub fn put_number(out: &mut Vec<u8>, mut v: u64) {
    if v < 10 {
        out.push(b'0' + v as u8);
        return;
    }
    let mut text = [0u8; 20];
    let mut at = 20;
    while v >= 100 {
        let d = (v % 100) as usize * 2;
        v /= 100;
        at -= 2;
        text[at..at + 2].copy_from_slice(&PAIRS[d..d + 2]);
    }
    if v >= 10 {
        at -= 2;
        text[at..at + 2].copy_from_slice(&PAIRS[v as usize * 2..v as usize * 2 + 2]);
    } else {
        at -= 1;
        text[at] = b'0' + v as u8;
    }
    out.extend_from_slice(&text[at..]);
}
