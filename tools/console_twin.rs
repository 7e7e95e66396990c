// A plain Rust twin of the console, for speed comparisons: the same lines and answers, no proofs.
//     rustc -O -o console_twin tools/console_twin.rs
// It keeps the book as an ordered set of (sample, position, number) and asks it for a range.
use std::collections::{BTreeMap, BTreeSet};
use std::io::{BufRead, Write};

const LAST: u64 = (1 << 36) - 1;
const FRAMES: u64 = 2_589_409;

fn place(p: u64) -> Option<u64> {
    (p < FRAMES).then(|| (p * 48_048_000).div_ceil(30_000))
}

fn locate(s: u64) -> u64 {
    if s == 0 { 0 } else { ((s.min(LAST + 1) - 1) * 30_000 / 48_048_000 + 1).min(FRAMES) }
}

fn number(text: &str) -> Option<u64> {
    let b = text.as_bytes();
    if b.len() != 11 || b[2] != b':' || b[5] != b':' || b[8] != b';' {
        return None;
    }
    let part = |i: usize| {
        let (t, o) = (b[i].checked_sub(b'0')?, b[i + 1].checked_sub(b'0')?);
        (t < 10 && o < 10).then_some(10 * u64::from(t) + u64::from(o))
    };
    let (h, m, s, f) = (part(0)?, part(3)?, part(6)?, part(9)?);
    if h > 23 || m > 59 || s > 59 || f > 29 || (m % 10 > 0 && s == 0 && f < 2) {
        return None;
    }
    let t = 60 * h + m;
    Some(30 * (60 * t + s) + f - 2 * (t - t / 10))
}

fn label(n: u64) -> String {
    let n = n + 18 * (n / 17_982) + 2 * ((n % 17_982).saturating_sub(2) / 1_798);
    let (z, f) = (n / 30, n % 30);
    format!("{:02}:{:02}:{:02};{:02}", z / 3600, z / 60 % 60, z % 60, f)
}

#[derive(Default)]
struct Deck {
    book: BTreeSet<(u64, u64, u64)>,
    numbers: BTreeMap<u64, u64>,
    log: Vec<(u64, u64, Option<String>)>,
    head: u64,
}

impl Deck {
    fn add(&mut self, n: u64, text: &str) -> Result<(), u8> {
        if !(1..=999_999).contains(&n) {
            return Err(20);
        }
        if self.numbers.contains_key(&n) {
            return Err(21);
        }
        let p = number(text).ok_or(18)?;
        let s = place(p).ok_or(17)?;
        if self.numbers.len() >= 4096 {
            return Err(22);
        }
        self.numbers.insert(n, p);
        self.book.insert((s, p, n));
        Ok(())
    }

    fn strike(&mut self, n: u64) -> Result<(), u8> {
        if !(1..=999_999).contains(&n) {
            return Err(20);
        }
        let p = self.numbers.remove(&n).ok_or(23)?;
        self.book.remove(&(place(p).unwrap_or(0), p, n));
        Ok(())
    }

    fn play(&mut self, n: u64) -> Result<usize, u8> {
        let until = self.head.checked_add(n).filter(|u| *u <= LAST + 1).ok_or(24)?;
        let hit: Vec<_> = self.book.range((self.head, 0, 0)..(until, 0, 0)).copied().collect();
        if 65_535 - self.log.len() < hit.len() {
            return Err(25);
        }
        for (s, _, c) in &hit {
            let p = locate(s + 1);
            let mark = (p != 0 && p != FRAMES && p - 1 < 2_589_408).then(|| label(p - 1));
            self.log.push((*c, *s, mark));
        }
        self.head = until;
        Ok(hit.len())
    }
}

fn plain(word: &str) -> Option<u64> {
    (word.len() <= 20 && word.bytes().all(|b| b.is_ascii_digit())).then(|| word.parse().ok()).flatten()
}

fn answer(deck: &mut Deck, line: &str, out: &mut impl Write) -> std::io::Result<()> {
    let words: Vec<&str> = line.split(' ').collect();
    let said = |r: Result<(), u8>| r.map_or_else(|e| format!("refused {e}"), |()| "ok".into());
    let text = match (words.as_slice(), words.get(1).and_then(|w| plain(w))) {
        (["log"], _) => {
            for (c, s, mark) in &deck.log {
                writeln!(out, "{c} {s} {}", mark.as_deref().unwrap_or("-"))?;
            }
            return Ok(());
        }
        (["add", _, l], Some(n)) if !l.is_empty() => said(deck.add(n, l)),
        (["strike", _], Some(n)) => said(deck.strike(n)),
        (["seek", _], Some(h)) if h > LAST + 1 => "refused 24".into(),
        (["seek", _], Some(h)) => {
            deck.head = h;
            "ok".into()
        }
        (["play", _], Some(n)) => deck.play(n).map_or_else(|e| format!("refused {e}"), |k| format!("ok {k}")),
        (["place", _], Some(p)) => place(p).map_or_else(|| "refused 17".into(), |s| s.to_string()),
        (["locate", _], Some(s)) => locate(s).to_string(),
        _ => "unreadable".into(),
    };
    writeln!(out, "{text}")
}

fn main() -> std::io::Result<()> {
    let mut deck = Deck::default();
    let mut input = std::io::stdin().lock();
    // As the console does, each answer is written before the next line is read.
    let mut out = std::io::stdout();
    let mut line = Vec::new();
    while input.read_until(b'\n', &mut line)? > 0 {
        if line.last() == Some(&b'\n') {
            line.pop();
        }
        let mut answers = Vec::new();
        match std::str::from_utf8(&line) {
            Ok(text) => answer(&mut deck, text, &mut answers)?,
            Err(_) => answers.extend_from_slice(b"unreadable\n"),
        }
        out.write_all(&answers)?;
        out.flush()?;
        line.clear();
    }
    Ok(())
}
