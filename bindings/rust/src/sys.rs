//! The declarations of `bindings/c/cuvalimodo.h`, which says what each is, and a safe function over each. Nothing checks the declarations against the
//! Rattle source but `bindings/test`.
//!
//! All `unsafe` of this crate stands here, and for one reason: the library asks of its caller what references and slices are. A pointer is aligned
//! and not null, also that of an empty slice; what `&mut` lends overlaps nothing else; and a [`Clock`] is all zeros or as a call left it, since
//! nothing outside this module can write to one.

/// How many bytes a clock has.
pub const CLOCK_SIZE: usize = 20936;

/// How many bytes the hourly cards of 31 days take.
pub const HOURLY_SIZE: usize = 4278;

/// How many bytes a name has.
pub const NAME_SIZE: usize = 5;

#[repr(C, align(8))]
#[derive(Clone)]
pub struct Clock {
    inside: [u8; CLOCK_SIZE],
}

impl Clock {
    /// All zeros: a clock without a table.
    pub const fn zeroed() -> Clock {
        Clock { inside: [0; CLOCK_SIZE] }
    }

    pub fn bytes(&self) -> &[u8; CLOCK_SIZE] {
        &self.inside
    }
}

/// One of a station's constituents.
#[repr(C)]
#[derive(Clone, Copy, Debug, PartialEq, Eq, Hash)]
pub struct Record {
    /// Its position among the card file's frequencies, from 0: see [`crate::Clock::place_of`].
    pub place: u8,
    /// Tenths of a millimetre, 0 to 65,535.
    pub amplitude: u32,
    /// Phase lag in hundredths of a degree, 0 to 35,999.
    pub phase: u32,
}

/// The lengths of the strides by which turns are looked for, in minutes, 1 to 720 each. Which one is taken, the station's amplitudes say:
/// (K1 + O1) / (M2 + S2).
#[repr(C)]
#[derive(Clone, Copy, Debug, PartialEq, Eq, Hash)]
pub struct Strides {
    /// Up to 0.25.
    pub semidiurnal: u32,
    /// Between them.
    pub mixed: u32,
    /// Over 3.
    pub diurnal: u32,
}

/// What a year's sheet is asked for; minutes after 00:00 GMT on 1 January.
#[derive(Clone, Copy, Debug, PartialEq, Eq, Hash)]
pub struct Sheet {
    /// 1950 to 2049.
    pub year: u32,
    /// The minute of the series' first height.
    pub start: u32,
    /// Minutes from one height to the next, 1 to 1,440.
    pub step: u32,
    /// The minute where the search for turns begins.
    pub first: u32,
    /// The minute where it ends.
    pub last: u32,
}

#[repr(C)]
pub struct Counts {
    pub number: u32,
    pub line: usize,
    pub frequencies: usize,
    pub mains: usize,
    pub satellites: usize,
    pub shallows: usize,
}

#[repr(C)]
pub struct Verdict {
    pub number: u32,
    pub place: usize,
}

#[repr(C)]
pub struct Reading {
    pub number: u32,
    pub place: usize,
    pub height: i64,
}

#[repr(C)]
pub struct Turnings {
    pub number: u32,
    pub place: usize,
    pub count: usize,
    pub high: bool,
}

#[repr(C)]
pub struct Cards {
    pub number: u32,
    pub place: usize,
    pub bytes: usize,
}

#[repr(C)]
pub struct TableNames {
    pub count: usize,
    pub bytes: [u8; 160 * NAME_SIZE],
}

#[repr(C)]
pub struct Text {
    pub text: [u8; 64],
}

extern "C" {
    fn cuvalimodo_check_cards(file: *const u8, file_length: usize) -> Counts;
    fn cuvalimodo_new(clock: &mut Clock);
    fn cuvalimodo_load_cards(clock: &mut Clock, file: *const u8, file_length: usize) -> Verdict;
    fn cuvalimodo_names(clock: &Clock) -> TableNames;
    fn cuvalimodo_set_station(clock: &mut Clock, latitude: i32, strides: Strides, records: *const Record, records_length: usize) -> Verdict;
    fn cuvalimodo_set_date(clock: &mut Clock, year: u32, month: u32) -> Verdict;
    fn cuvalimodo_height(clock: &Clock, minute: u32) -> Reading;
    fn cuvalimodo_series(clock: &Clock, start: u32, step: u32, heights: *mut i64, heights_length: usize) -> Verdict;
    fn cuvalimodo_bookings(clock: &Clock, minutes: *const u32, minutes_length: usize, heights: *mut i64, heights_length: usize) -> Verdict;
    fn cuvalimodo_turns(
        clock: &Clock,
        first: u32,
        last: u32,
        minutes: *mut u32,
        minutes_length: usize,
        heights: *mut i64,
        heights_length: usize,
    ) -> Turnings;
    fn cuvalimodo_year(
        clock: &Clock,
        year: u32,
        start: u32,
        step: u32,
        first: u32,
        last: u32,
        series: *mut i64,
        series_length: usize,
        minutes: *mut u32,
        minutes_length: usize,
        heights: *mut i64,
        heights_length: usize,
    ) -> Turnings;
    fn cuvalimodo_hourly(clock: &Clock, station: u32, cards: *mut u8, cards_length: usize) -> Cards;
    fn cuvalimodo_refusal_text(number: u32) -> Text;
}

pub fn check_cards(file: &[u8]) -> Counts {
    // SAFETY: see the head of this file.
    unsafe { cuvalimodo_check_cards(file.as_ptr(), file.len()) }
}

pub fn new(clock: &mut Clock) {
    // SAFETY: see the head of this file.
    unsafe { cuvalimodo_new(clock) }
}

pub fn load_cards(clock: &mut Clock, file: &[u8]) -> Verdict {
    // SAFETY: see the head of this file.
    unsafe { cuvalimodo_load_cards(clock, file.as_ptr(), file.len()) }
}

pub fn names(clock: &Clock) -> TableNames {
    // SAFETY: see the head of this file.
    unsafe { cuvalimodo_names(clock) }
}

pub fn set_station(clock: &mut Clock, latitude: i32, strides: Strides, records: &[Record]) -> Verdict {
    // SAFETY: see the head of this file.
    unsafe { cuvalimodo_set_station(clock, latitude, strides, records.as_ptr(), records.len()) }
}

pub fn set_date(clock: &mut Clock, year: u32, month: u32) -> Verdict {
    // SAFETY: see the head of this file.
    unsafe { cuvalimodo_set_date(clock, year, month) }
}

pub fn height(clock: &Clock, minute: u32) -> Reading {
    // SAFETY: see the head of this file.
    unsafe { cuvalimodo_height(clock, minute) }
}

pub fn series(clock: &Clock, start: u32, step: u32, heights: &mut [i64]) -> Verdict {
    // SAFETY: see the head of this file.
    unsafe { cuvalimodo_series(clock, start, step, heights.as_mut_ptr(), heights.len()) }
}

pub fn bookings(clock: &Clock, minutes: &[u32], heights: &mut [i64]) -> Verdict {
    // SAFETY: see the head of this file.
    unsafe { cuvalimodo_bookings(clock, minutes.as_ptr(), minutes.len(), heights.as_mut_ptr(), heights.len()) }
}

pub fn turns(clock: &Clock, first: u32, last: u32, minutes: &mut [u32], heights: &mut [i64]) -> Turnings {
    // SAFETY: see the head of this file.
    unsafe { cuvalimodo_turns(clock, first, last, minutes.as_mut_ptr(), minutes.len(), heights.as_mut_ptr(), heights.len()) }
}

pub fn year(clock: &Clock, sheet: Sheet, series: &mut [i64], minutes: &mut [u32], heights: &mut [i64]) -> Turnings {
    let Sheet { year, start, step, first, last } = sheet;
    let (minutes_length, heights_length) = (minutes.len(), heights.len());
    let (minutes, heights) = (minutes.as_mut_ptr(), heights.as_mut_ptr());
    // SAFETY: see the head of this file.
    unsafe {
        cuvalimodo_year(clock, year, start, step, first, last, series.as_mut_ptr(), series.len(), minutes, minutes_length, heights, heights_length)
    }
}

pub fn hourly(clock: &Clock, station: u32, cards: &mut [u8]) -> Cards {
    // SAFETY: see the head of this file.
    unsafe { cuvalimodo_hourly(clock, station, cards.as_mut_ptr(), cards.len()) }
}

pub fn refusal_text(number: u32) -> Text {
    // SAFETY: it takes any number.
    unsafe { cuvalimodo_refusal_text(number) }
}
