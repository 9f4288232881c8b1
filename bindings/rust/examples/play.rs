//! Plays scripts of replay's format (docs/FORMATS.md) on one clock of this crate, and writes what replay writes.
//! Usage: play < SCRIPT, or play SCRIPT..., which begins anew with each and writes a blank line behind its answers.
//!
//! The clock and every lent buffer stand between guards. After each call the guards must be as they were, and so must all that the call may not
//! change: after a refused call the clock and the buffers. Otherwise the program panics.

use cuvalimodo::{check_cards, Clock, Record, Refusal, Sheet, Strides, Turns};
use std::hint::black_box;
use std::io::{self, Read, Write};

const GUARD: usize = 8;
const PAINT: u64 = 0xa5a5_a5a5_a5a5_a5a5;
const MOST_CARDS: usize = 100_000;

/// A buffer between guards.
struct Lent<T> {
    space: Vec<T>,
    before: Vec<T>,
}

impl<T: Copy + PartialEq> Lent<T> {
    fn new(content: &[T], paint: T) -> Lent<T> {
        let space = [&[paint; GUARD], content, &[paint; GUARD]].concat();
        Lent { before: space.clone(), space }
    }

    fn numbers(&mut self) -> &mut [T] {
        let end = self.space.len() - GUARD;
        &mut self.space[GUARD..end]
    }

    /// Nothing but the first `count` numbers is changed; these are given.
    fn stands(&self, count: usize) -> &[T] {
        let space = black_box(&self.space);
        assert!(space[..GUARD] == self.before[..GUARD], "the guard in front is broken");
        assert!(space[GUARD + count..] == self.before[GUARD + count..], "changed behind what a call may write");
        &space[GUARD..GUARD + count]
    }
}

/// The clock between guards.
#[repr(C)]
struct Held {
    front: [u64; GUARD],
    clock: Clock,
    back: [u64; GUARD],
}

impl Held {
    fn new() -> Box<Held> {
        Box::new(Held { front: [PAINT; GUARD], clock: Clock::new(), back: [PAINT; GUARD] })
    }

    /// A clock without a table: a new one for one script, `reset` of the clock that is there for the next.
    fn begin(&mut self, script: usize) {
        if script % 2 == 0 {
            self.clock = Clock::new();
        } else {
            self.clock.reset();
            self.stands();
        }
    }

    fn stands(&self) {
        let held = black_box(self);
        assert!(held.front == [PAINT; GUARD] && held.back == [PAINT; GUARD], "a guard of the clock is broken");
    }

    /// A call that reads the clock.
    fn read<T>(&self, call: impl FnOnce(&Clock) -> T) -> T {
        let before = self.clock.clone();
        let said = call(&self.clock);
        self.stands();
        assert!(black_box(&self.clock).bytes() == before.bytes(), "the clock is changed");
        said
    }

    /// A call that sets the clock, or is refused and leaves it.
    fn set(&mut self, call: impl FnOnce(&mut Clock) -> Result<(), Refusal>) -> Result<String, Refusal> {
        let before = self.clock.clone();
        let said = call(&mut self.clock);
        self.stands();
        assert!(said.is_ok() || black_box(&self.clock).bytes() == before.bytes(), "a refused call changed the clock");
        said.map(|()| "accepted".to_string())
    }
}

/// What is left of a script, and its line, from 1. Its readers give nothing where the script is not of the form.
struct Script<'a> {
    rest: &'a [u8],
    line: usize,
}

fn number(word: &[u8], lowest: i64, highest: i64) -> Option<i64> {
    let minus = lowest < 0 && word.first() == Some(&b'-');
    let digits = &word[usize::from(minus)..];
    if digits.is_empty() || !digits.iter().all(u8::is_ascii_digit) {
        return None;
    }
    let size = digits.iter().fold(0, |size: i64, digit| size.saturating_mul(10).saturating_add(i64::from(digit - b'0')));
    let value = if minus { -size } else { size };
    (lowest..=highest).contains(&value).then_some(value)
}

fn word(bytes: &[u8]) -> Option<u32> {
    number(bytes, 0, i64::from(u32::MAX))?.try_into().ok()
}

/// The last numbers of a station's line; those of a line that ends before them are the usual ones.
fn strides(words: &[&[u8]]) -> Option<Strides> {
    match *words {
        [] => Some(Strides::USUAL),
        [semidiurnal, mixed, diurnal] => Some(Strides { semidiurnal: word(semidiurnal)?, mixed: word(mixed)?, diurnal: word(diurnal)? }),
        _ => None,
    }
}

fn place(bytes: &[u8]) -> Option<usize> {
    word(bytes)?.try_into().ok()
}

impl<'a> Script<'a> {
    /// The words of the next line, which ends in LF. The script goes on behind it; `line` is still its own.
    fn words(&mut self) -> Option<Vec<&'a [u8]>> {
        let end = self.rest.iter().position(|&byte| byte == b'\n')?;
        let words = self.rest[..end].split(|&byte| byte == b' ').collect();
        self.rest = &self.rest[end + 1..];
        Some(words)
    }

    fn record(&mut self) -> Option<Record> {
        let words = self.words()?;
        let [at, amplitude, phase] = words[..] else { return None };
        let record = Record { place: number(at, 0, 255)?.try_into().ok()?, amplitude: word(amplitude)?, phase: word(phase)? };
        self.line += 1;
        Some(record)
    }

    fn records(&mut self, count: u32) -> Option<Vec<Record>> {
        (0..count).map(|_| self.record()).collect()
    }

    fn minute(&mut self) -> Option<u32> {
        let words = self.words()?;
        let [minute] = words[..] else { return None };
        let minute = word(minute)?;
        self.line += 1;
        Some(minute)
    }

    fn minutes(&mut self, count: u32) -> Option<Vec<u32>> {
        (0..count).map(|_| self.minute()).collect()
    }

    /// A card file of so many bytes and an LF; `line` counts the lines inside it.
    fn card_file(&mut self, size: usize) -> Option<&'a [u8]> {
        let file = &self.rest[..size.min(self.rest.len())];
        self.line += file.iter().filter(|&&byte| byte == b'\n').count();
        if file.len() < size || self.rest.get(size) != Some(&b'\n') {
            return None;
        }
        self.rest = &self.rest[size + 1..];
        self.line += 1;
        Some(file)
    }
}

fn cards(held: &mut Held, file: &[u8]) -> Result<String, Refusal> {
    let lent = Lent::new(file, 0xa5);
    let file = &lent.space[GUARD..GUARD + file.len()];
    let checked = check_cards(file);
    let said = held.set(|clock| clock.load_cards(file));
    lent.stands(0);
    assert_eq!(checked.err(), said.as_ref().err().copied(), "check_cards and load_cards differ");
    said
}

fn station(held: &mut Held, latitude: i32, strides: Strides, records: &[Record]) -> Result<String, Refusal> {
    let paint = Record { place: 0xa5, amplitude: 0xa5a5_a5a5, phase: 0xa5a5_a5a5 };
    let lent = Lent::new(records, paint);
    let said = held.set(|clock| clock.set_station(latitude, strides, &lent.space[GUARD..GUARD + records.len()]));
    lent.stands(0);
    said
}

fn spaced(heights: &[i64]) -> String {
    heights.iter().map(|height| format!(" {height}")).collect()
}

fn series(held: &Held, start: u32, step: u32, count: usize) -> Result<String, Refusal> {
    let mut lent = Lent::new(&vec![PAINT as i64; count], PAINT as i64);
    let said = held.read(|clock| clock.series(start, step, lent.numbers()));
    let heights = lent.stands(if said.is_ok() { count } else { 0 });
    said?;
    Ok(format!("heights{}", spaced(heights)))
}

fn bookings(held: &Held, minutes: &[u32], places: usize) -> Result<String, Refusal> {
    let lent_minutes = Lent::new(minutes, PAINT as u32);
    let mut lent_heights = Lent::new(&vec![PAINT as i64; places], PAINT as i64);
    let minutes = &lent_minutes.space[GUARD..GUARD + minutes.len()];
    let said = held.read(|clock| clock.bookings(minutes, lent_heights.numbers()));
    lent_minutes.stands(0);
    let heights = lent_heights.stands(if said.is_ok() { places } else { 0 });
    said?;
    Ok(format!("heights{}", spaced(heights)))
}

/// The turns that were written, no more of the buffers being changed; or the refusal, with nothing changed.
fn turns_line(said: Result<Turns, Refusal>, minutes: &Lent<u32>, heights: &Lent<i64>) -> Result<String, Refusal> {
    let count = said.map_or(0, |found| found.count);
    let pairs = minutes.stands(count).iter().zip(heights.stands(count));
    let written: String = pairs.map(|(minute, height)| format!(" {minute} {height}")).collect();
    Ok(format!("turns {count} {}{written}", u8::from(said?.first_high)))
}

fn turns(held: &Held, first: u32, last: u32, minute_places: usize, height_places: usize) -> Result<String, Refusal> {
    let mut lent_minutes = Lent::new(&vec![PAINT as u32; minute_places], PAINT as u32);
    let mut lent_heights = Lent::new(&vec![PAINT as i64; height_places], PAINT as i64);
    let said = held.read(|clock| clock.turns(first, last, lent_minutes.numbers(), lent_heights.numbers()));
    turns_line(said, &lent_minutes, &lent_heights)
}

fn year(held: &Held, sheet: Sheet, count: usize, minute_places: usize, height_places: usize) -> Result<String, Refusal> {
    let mut lent_series = Lent::new(&vec![PAINT as i64; count], PAINT as i64);
    let mut lent_minutes = Lent::new(&vec![PAINT as u32; minute_places], PAINT as u32);
    let mut lent_heights = Lent::new(&vec![PAINT as i64; height_places], PAINT as i64);
    let said = held.read(|clock| clock.year(sheet, lent_series.numbers(), lent_minutes.numbers(), lent_heights.numbers()));
    let series = lent_series.stands(if said.is_ok() { count } else { 0 });
    let turns = turns_line(said, &lent_minutes, &lent_heights)?;
    Ok(format!("year {count}{} {turns}", spaced(series)))
}

/// No cards take `MOST_CARDS` bytes, so no more are lent.
fn hourly(held: &Held, number: u32, size: usize) -> Result<String, Refusal> {
    let mut lent = Lent::new(&vec![PAINT as u8; size.min(MOST_CARDS)], PAINT as u8);
    let said = held.read(|clock| clock.hourly(number, lent.numbers()));
    let cards = lent.stands(said.unwrap_or(0));
    let lines: String = cards.iter().map(|&byte| char::from(byte)).collect();
    Ok(format!("hourly {}\n{}", said?, lines.strip_suffix('\n').unwrap_or(&lines)))
}

/// Reads one call and makes it; nothing where the script is not of the form.
fn play_call(held: &mut Held, script: &mut Script) -> Option<Result<String, Refusal>> {
    let words = script.words()?;
    Some(match words[..] {
        [b"cards", size] => {
            let size = place(size)?;
            script.line += 1;
            cards(held, script.card_file(size)?)
        }
        [b"station", latitude, count, ref lengths @ ..] => {
            let latitude = number(latitude, i64::from(i32::MIN), i64::from(i32::MAX))?.try_into().ok()?;
            let (count, strides) = (word(count)?, strides(lengths)?);
            script.line += 1;
            station(held, latitude, strides, &script.records(count)?)
        }
        [b"date", year, month] => {
            let (year, month) = (word(year)?, word(month)?);
            script.line += 1;
            held.set(|clock| clock.set_date(year, month))
        }
        [b"height", minute] => {
            let minute = word(minute)?;
            script.line += 1;
            held.read(|clock| clock.height(minute)).map(|height| format!("height {height}"))
        }
        [b"series", start, step, count] => {
            let (start, step, count) = (word(start)?, word(step)?, place(count)?);
            script.line += 1;
            series(held, start, step, count)
        }
        [b"bookings", count, places] => {
            let (count, places) = (word(count)?, place(places)?);
            script.line += 1;
            bookings(held, &script.minutes(count)?, places)
        }
        [b"turns", first, last, minutes, heights] => {
            let (first, last, minutes, heights) = (word(first)?, word(last)?, place(minutes)?, place(heights)?);
            script.line += 1;
            turns(held, first, last, minutes, heights)
        }
        [b"year", year_number, start, step, count, first, last, minutes, heights] => {
            let (start, step, first, last) = (word(start)?, word(step)?, word(first)?, word(last)?);
            let sheet = Sheet { year: word(year_number)?, start, step, first, last };
            let (count, minutes, heights) = (place(count)?, place(minutes)?, place(heights)?);
            script.line += 1;
            year(held, sheet, count, minutes, heights)
        }
        [b"hourly", number, size] => {
            let (number, size) = (word(number)?, place(size)?);
            script.line += 1;
            hourly(held, number, size)
        }
        _ => return None,
    })
}

fn play(held: &mut Held, text: &[u8], out: &mut impl Write) -> io::Result<()> {
    let mut script = Script { rest: text, line: 1 };
    while !script.rest.is_empty() {
        match play_call(held, &mut script) {
            Some(Ok(line)) => writeln!(out, "{line}")?,
            Some(Err(refusal)) => writeln!(out, "refused {} {}", refusal.number, refusal.place)?,
            None => return writeln!(out, "script {}", script.line),
        }
    }
    Ok(())
}

fn main() -> io::Result<()> {
    let mut out = io::BufWriter::new(io::stdout().lock());
    let mut held = Held::new();
    let paths: Vec<_> = std::env::args_os().skip(1).collect();
    if paths.is_empty() {
        let mut text = Vec::new();
        io::stdin().read_to_end(&mut text)?;
        play(&mut held, &text, &mut out)?;
    }
    for (number, path) in paths.iter().enumerate() {
        held.begin(number);
        play(&mut held, &std::fs::read(path)?, &mut out)?;
        writeln!(out)?;
    }
    out.flush()
}
