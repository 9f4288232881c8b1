//! A berth clock: tidal heights, high and low waters, and hourly cards, from a card file of constituents, a station and a month.
//!
//! The calls are those of the proved library of Cuvalimodo (`crates/cuvalimodo_c`). One that is turned down gives a [`Refusal`], with document 01's
//! number and place, and leaves the clock and the lent buffers as they were.
//!
//! Units: latitude in minutes of arc, north positive; amplitudes and heights in tenths of a millimetre; phase lags in hundredths of a degree;
//! minutes after 00:00 GMT on the 1st of the month, for a year's sheet on 1 January.
//!
//! ```
//! use cuvalimodo::{Clock, Record, Refusal, Strides};
//! # fn main() -> Result<(), Refusal> {
//! let cards = include_bytes!(concat!(env!("CARGO_MANIFEST_DIR"), "/../../data/standard-cards.txt"));
//! let mut clock = Clock::new();
//! clock.load_cards(cards)?;
//! let mean = Record { place: clock.place_of("Z0").unwrap(), amplitude: 6067, phase: 0 };
//! clock.set_station(2905, Strides::USUAL, &[mean])?;
//! clock.set_date(1976, 7)?;
//! assert_eq!(clock.height(510), Ok(6067));
//!
//! // An update that is refused leaves the clock as it was: station, month and heights.
//! let refused = clock.set_station(2905, Strides::USUAL, &[mean; 147]).unwrap_err();
//! assert_eq!(refused, Refusal { number: Refusal::TOO_MANY, place: 147 });
//! assert_eq!(clock.height(510), Ok(6067));
//! # Ok(())
//! # }
//! ```
#![deny(unsafe_code)]
#![warn(missing_docs)]

#[allow(unsafe_code, missing_docs)]
mod sys;

use std::fmt;
pub use sys::{Record, Sheet, Strides, CLOCK_SIZE, HOURLY_SIZE};

/// A refused call: why, by document 01's number, and its place (a card's line, a station's record, a booked minute or an hourly card, from 1;
/// else 0).
#[derive(Clone, Copy, Debug, PartialEq, Eq, Hash)]
pub struct Refusal {
    /// Why: one of the constants below.
    pub number: u32,
    /// Where.
    pub place: usize,
}

impl Refusal {
    /// A line over 80 columns, or a byte outside 32 to 126.
    pub const BAD_LINE: u32 = 1;
    /// A malformed number.
    pub const MALFORMED: u32 = 2;
    /// A number outside its range.
    pub const OUT_OF_RANGE: u32 = 3;
    /// A name blank or twice, or a station's place twice.
    pub const BAD_NAME: u32 = 4;
    /// A definition, main or frequency missing, or a place not in the table.
    pub const MISSING: u32 = 5;
    /// More entries or records than there may be.
    pub const TOO_MANY: u32 = 6;
    /// The card file ends inside a part.
    pub const ENDED: u32 = 7;
    /// Year or month out of range.
    pub const BAD_DATE: u32 = 8;
    /// Minutes outside the month, or the year, or reversed; or step out of range.
    pub const BAD_MINUTES: u32 = 9;
    /// More turns than one of the lent buffers holds.
    pub const TOO_MANY_TURNS: u32 = 10;
    /// A nodal correction too large.
    pub const TOO_LARGE: u32 = 11;
    /// The clock has no table.
    pub const NO_TABLE: u32 = 21;
    /// The clock has no station.
    pub const NO_STATION: u32 = 22;
    /// The clock has no month.
    pub const NO_MONTH: u32 = 23;
    /// The two lent buffers differ in length.
    pub const UNEQUAL_BUFFERS: u32 = 31;
    /// A station number over 99999, for hourly cards.
    pub const BAD_STATION_NUMBER: u32 = 32;
    /// A height outside -999 to 9998 centimetres.
    pub const BAD_HEIGHT: u32 = 33;
    /// The lent buffer is too short for the month's hourly cards.
    pub const SHORT_BUFFER: u32 = 34;
    /// A station's stride outside 1 to 720 minutes.
    pub const BAD_STRIDE: u32 = 35;

    /// The library's words for it.
    ///
    /// ```
    /// use cuvalimodo::Refusal;
    /// let refusal = Refusal { number: Refusal::NO_MONTH, place: 0 };
    /// assert_eq!(refusal.text(), "no month");
    /// assert_eq!(refusal.to_string(), "no month (refusal 23 at 0)");
    /// ```
    pub fn text(&self) -> String {
        let text = sys::refusal_text(self.number).text;
        text.iter().take_while(|&&byte| byte != 0).map(|&byte| char::from(byte)).collect()
    }
}

impl fmt::Display for Refusal {
    fn fmt(&self, f: &mut fmt::Formatter<'_>) -> fmt::Result {
        write!(f, "{} (refusal {} at {})", self.text(), self.number, self.place)
    }
}

impl std::error::Error for Refusal {}

fn accepted(number: u32, place: usize) -> Result<(), Refusal> {
    if number == 0 {
        Ok(())
    } else {
        Err(Refusal { number, place })
    }
}

/// How much an accepted card file has of each kind.
#[derive(Clone, Copy, Debug, PartialEq, Eq)]
pub struct Counts {
    /// Entries of part 1.
    pub frequencies: usize,
    /// Main constituents.
    pub mains: usize,
    /// Satellites of all mains together.
    pub satellites: usize,
    /// Shallow-water constituents.
    pub shallows: usize,
}

impl Strides {
    /// The usual lengths, document 01's; the default too.
    ///
    /// ```
    /// use cuvalimodo::Strides;
    /// assert_eq!(Strides::USUAL, Strides { semidiurnal: 180, mixed: 30, diurnal: 360 });
    /// assert_eq!(Strides::default(), Strides::USUAL);
    /// ```
    pub const USUAL: Strides = Strides { semidiurnal: 180, mixed: 30, diurnal: 360 };
}

/// The usual lengths.
impl Default for Strides {
    fn default() -> Strides {
        Strides::USUAL
    }
}

/// How many turns were written, and whether the first is a high water; they alternate.
#[derive(Clone, Copy, Debug, PartialEq, Eq)]
pub struct Turns {
    /// How many.
    pub count: usize,
    /// Whether the first is high.
    pub first_high: bool,
}

impl Turns {
    /// Whether turn n, from 0, is a high water.
    pub fn is_high(&self, n: usize) -> bool {
        (n % 2 == 0) == self.first_high
    }
}

/// Checks a card file; a refusal's place is its line.
///
/// ```
/// use cuvalimodo::{check_cards, Refusal};
/// let cards = include_bytes!(concat!(env!("CARGO_MANIFEST_DIR"), "/../../data/standard-cards.txt"));
/// let counts = check_cards(cards)?;
/// assert_eq!((counts.frequencies, counts.mains, counts.satellites, counts.shallows), (145, 45, 162, 100));
/// assert_eq!(check_cards(b""), Err(Refusal { number: Refusal::ENDED, place: 1 }));
/// # Ok::<(), Refusal>(())
/// ```
pub fn check_cards(file: &[u8]) -> Result<Counts, Refusal> {
    let sys::Counts { number, line, frequencies, mains, satellites, shallows } = sys::check_cards(file);
    accepted(number, line)?;
    Ok(Counts { frequencies, mains, satellites, shallows })
}

/// A berth clock: a table of constituents, a station and a month, each there or not.
///
/// It has [`CLOCK_SIZE`] bytes and lies where you put it. Methods of `&self` may be called from several threads at once. [`Clock::height`] and
/// [`Clock::bookings`] take less than 1 KB of stack, every other call less than 1 MiB.
///
/// ```
/// use cuvalimodo::{Clock, Refusal};
/// use std::sync::RwLock;
/// static BERTH: RwLock<Clock> = RwLock::new(Clock::new());
/// assert_eq!(BERTH.read().unwrap().height(0), Err(Refusal { number: Refusal::NO_TABLE, place: 0 }));
/// assert!(BERTH.write().unwrap().load_cards(b"no cards").is_err());
/// ```
#[derive(Clone)]
pub struct Clock(sys::Clock);

impl Clock {
    /// A clock with no table, station or month.
    pub const fn new() -> Clock {
        Clock(sys::Clock::zeroed())
    }

    /// Drops table, station and month.
    pub fn reset(&mut self) {
        sys::new(&mut self.0);
    }

    /// Takes a card file's table in place of the old one. Station and month go.
    pub fn load_cards(&mut self, file: &[u8]) -> Result<(), Refusal> {
        let said = sys::load_cards(&mut self.0, file);
        accepted(said.number, said.place)
    }

    /// The names of the table's constituents by place, without the blanks behind them; none where the clock has no table.
    ///
    /// ```
    /// let cards = include_bytes!(concat!(env!("CARGO_MANIFEST_DIR"), "/../../data/standard-cards.txt"));
    /// let mut clock = cuvalimodo::Clock::new();
    /// assert!(clock.names().is_empty());
    /// clock.load_cards(cards)?;
    /// assert_eq!(clock.names().len(), 145);
    /// assert_eq!(clock.names()[..3], ["Z0", "SA", "SSA"]);
    /// # Ok::<(), cuvalimodo::Refusal>(())
    /// ```
    pub fn names(&self) -> Vec<String> {
        let names = sys::names(&self.0);
        let text = |name: &[u8]| name.iter().map(|&byte| char::from(byte)).collect::<String>();
        names.bytes.chunks(sys::NAME_SIZE).take(names.count).map(|name| text(name).trim_end_matches(' ').to_string()).collect()
    }

    /// The place of the constituent with a name, for a station's [`Record`]; none where the table has no such name.
    ///
    /// ```
    /// let cards = include_bytes!(concat!(env!("CARGO_MANIFEST_DIR"), "/../../data/standard-cards.txt"));
    /// let mut clock = cuvalimodo::Clock::new();
    /// assert_eq!(clock.place_of("SA"), None);
    /// clock.load_cards(cards)?;
    /// assert_eq!((clock.place_of("SA"), clock.place_of("none"), clock.place_of("longer")), (Some(1), None, None));
    /// for (place, name) in clock.names().iter().enumerate() {
    ///     assert_eq!(clock.place_of(name), u8::try_from(place).ok());
    /// }
    /// # Ok::<(), cuvalimodo::Refusal>(())
    /// ```
    pub fn place_of(&self, name: &str) -> Option<u8> {
        let padded = |name: &str| format!("{name:0$}", sys::NAME_SIZE);
        let place = self.names().iter().position(|each| padded(each) == padded(name))?;
        u8::try_from(place).ok()
    }

    /// Takes a station, its strides and at most 146 records, in place of the old one. The table stays; the month goes. The usual strides step over a
    /// double high water where its parts are near each other; shorter ones find it, and take longer.
    ///
    /// ```
    /// use cuvalimodo::{Clock, Record, Refusal, Strides};
    /// let cards = include_bytes!(concat!(env!("CARGO_MANIFEST_DIR"), "/../../data/standard-cards.txt"));
    /// let mut clock = Clock::new();
    /// clock.load_cards(cards)?;
    /// let tide = |name, amplitude, phase| Record { place: clock.place_of(name).unwrap(), amplitude, phase };
    /// let double = [tide("M2", 9000, 0), tide("M4", 2500, 18000)];
    /// let (mut minutes, mut heights) = ([0; 250], [0; 250]);
    ///
    /// clock.set_station(2905, Strides::USUAL, &double)?;
    /// clock.set_date(1976, 7)?;
    /// assert_eq!(clock.turns(0, 44640, &mut minutes, &mut heights)?.count, 120);
    ///
    /// clock.set_station(2905, Strides { semidiurnal: 20, ..Strides::USUAL }, &double)?;
    /// clock.set_date(1976, 7)?;
    /// assert_eq!(clock.turns(0, 44640, &mut minutes, &mut heights)?.count, 240);
    ///
    /// // A station that is refused leaves the old one, with its strides.
    /// let refused = clock.set_station(2905, Strides { diurnal: 721, ..Strides::USUAL }, &double);
    /// assert_eq!(refused, Err(Refusal { number: Refusal::BAD_STRIDE, place: 0 }));
    /// assert_eq!(clock.turns(0, 44640, &mut minutes, &mut heights)?.count, 240);
    /// # Ok::<(), Refusal>(())
    /// ```
    pub fn set_station(&mut self, latitude: i32, strides: Strides, records: &[Record]) -> Result<(), Refusal> {
        let said = sys::set_station(&mut self.0, latitude, strides, records);
        accepted(said.number, said.place)
    }

    /// Prepares a month, in place of the old one. Table and station stay.
    pub fn set_date(&mut self, year: u32, month: u32) -> Result<(), Refusal> {
        let said = sys::set_date(&mut self.0, year, month);
        accepted(said.number, said.place)
    }

    /// The height at a minute of the month.
    pub fn height(&self, minute: u32) -> Result<i64, Refusal> {
        let said = sys::height(&self.0, minute);
        accepted(said.number, said.place)?;
        Ok(said.height)
    }

    /// Fills `heights`: the height n, from 0, is that at minute `start + n * step`.
    pub fn series(&self, start: u32, step: u32, heights: &mut [i64]) -> Result<(), Refusal> {
        let said = sys::series(&self.0, start, step, heights);
        accepted(said.number, said.place)
    }

    /// Fills `heights` with the heights at a list of minutes, in any order and with repeats: each, at its place, is what [`Clock::height`] gives. The
    /// two are of one length. A refused list writes nothing; the place of the first minute outside the month is the refusal's.
    ///
    /// ```
    /// use cuvalimodo::{Clock, Record, Refusal, Strides};
    /// let cards = include_bytes!(concat!(env!("CARGO_MANIFEST_DIR"), "/../../data/standard-cards.txt"));
    /// let mut clock = Clock::new();
    /// clock.load_cards(cards)?;
    /// clock.set_station(2905, Strides::USUAL, &[Record { place: clock.place_of("M2").unwrap(), amplitude: 12130, phase: 8700 }])?;
    /// clock.set_date(1976, 7)?;
    /// let mut heights = [0; 3];
    /// clock.bookings(&[510, 0, 510], &mut heights)?;
    /// assert_eq!((heights[0], heights[1], heights[2]), (clock.height(510)?, clock.height(0)?, heights[0]));
    ///
    /// let before = heights;
    /// assert_eq!(clock.bookings(&[510, 44641, 50000], &mut heights), Err(Refusal { number: Refusal::BAD_MINUTES, place: 2 }));
    /// assert_eq!(clock.bookings(&[510], &mut heights), Err(Refusal { number: Refusal::UNEQUAL_BUFFERS, place: 0 }));
    /// assert_eq!(heights, before);
    /// # Ok::<(), Refusal>(())
    /// ```
    pub fn bookings(&self, minutes: &[u32], heights: &mut [i64]) -> Result<(), Refusal> {
        let said = sys::bookings(&self.0, minutes, heights);
        accepted(said.number, said.place)
    }

    /// Writes the high and low waters from minute `first` to minute `last` to the fronts of the two buffers; what is past them stays. 250 places are
    /// plenty for a month.
    pub fn turns(&self, first: u32, last: u32, minutes: &mut [u32], heights: &mut [i64]) -> Result<Turns, Refusal> {
        let said = sys::turns(&self.0, first, last, minutes, heights);
        accepted(said.number, said.place)?;
        Ok(Turns { count: said.count, first_high: said.high })
    }

    /// A year's sheet: fills `series` as [`Clock::series`] does, and writes the high and low waters as [`Clock::turns`] does; both, or neither and a
    /// refusal. Each month has its own weights. No month need be prepared, and one that is stays. 3,000 turns are plenty for a year.
    ///
    /// ```
    /// use cuvalimodo::{Clock, Record, Refusal, Sheet, Strides};
    /// let cards = include_bytes!(concat!(env!("CARGO_MANIFEST_DIR"), "/../../data/standard-cards.txt"));
    /// let mut clock = Clock::new();
    /// clock.load_cards(cards)?;
    /// clock.set_station(2905, Strides::USUAL, &[Record { place: clock.place_of("M2").unwrap(), amplitude: 12130, phase: 8700 }])?;
    /// let whole = Sheet { year: 1976, start: 0, step: 1440, first: 0, last: 366 * 1440 };
    /// let (mut daily, mut minutes, mut heights) = ([0; 367], [0; 3000], [0; 3000]);
    /// let found = clock.year(whole, &mut daily, &mut minutes, &mut heights)?;
    /// assert_eq!(found.count, 1414);
    ///
    /// // 1 July is day 182 of a leap year, from 0: its midnight is the first minute of July.
    /// clock.set_date(1976, 7)?;
    /// assert_eq!(clock.height(0), Ok(daily[182]));
    /// assert_eq!(clock.year(whole, &mut daily, &mut minutes[..9], &mut heights), Err(Refusal { number: Refusal::TOO_MANY_TURNS, place: 0 }));
    /// # Ok::<(), Refusal>(())
    /// ```
    pub fn year(&self, sheet: Sheet, series: &mut [i64], minutes: &mut [u32], heights: &mut [i64]) -> Result<Turns, Refusal> {
        let said = sys::year(&self.0, sheet, series, minutes, heights);
        accepted(said.number, said.place)?;
        Ok(Turns { count: said.count, first_high: said.high })
    }

    /// Writes the month's hourly cards, (I1,1X,I5,7X,3I2,12A4), under a station number of 0 to 99,999 to the front of the buffer; what is past them
    /// stays. How many bytes they take: 138 for each day of the month, so that [`HOURLY_SIZE`] are enough.
    ///
    /// ```
    /// use cuvalimodo::{Clock, Record, Refusal, Strides, HOURLY_SIZE};
    /// let cards = include_bytes!(concat!(env!("CARGO_MANIFEST_DIR"), "/../../data/standard-cards.txt"));
    /// let mut clock = Clock::new();
    /// clock.load_cards(cards)?;
    /// clock.set_station(2905, Strides::USUAL, &[Record { place: clock.place_of("Z0").unwrap(), amplitude: 18450, phase: 0 }])?;
    /// clock.set_date(1976, 2)?;
    /// let mut hourly = [b'.'; HOURLY_SIZE];
    /// let bytes = clock.hourly(7120, &mut hourly)?;
    /// assert_eq!(bytes, 29 * 138);
    /// assert_eq!(hourly[..69], *b"1  7120        1 276 185 185 185 185 185 185 185 185 185 185 185 185\n");
    /// assert!(hourly[bytes..].iter().all(|&byte| byte == b'.'));
    ///
    /// assert_eq!(clock.hourly(100_000, &mut hourly), Err(Refusal { number: Refusal::BAD_STATION_NUMBER, place: 0 }));
    /// assert_eq!(clock.hourly(7120, &mut hourly[..bytes - 1]), Err(Refusal { number: Refusal::SHORT_BUFFER, place: 0 }));
    /// # Ok::<(), Refusal>(())
    /// ```
    pub fn hourly(&self, number: u32, cards: &mut [u8]) -> Result<usize, Refusal> {
        let said = sys::hourly(&self.0, number, cards);
        accepted(said.number, said.place)?;
        Ok(said.bytes)
    }

    /// The clock's bytes. A refused call leaves the clock's state as it was, which is proved, and every byte, which is tested (`bindings/compare.py`).
    /// (Two clocks in one state may differ in bytes that mean nothing.)
    pub fn bytes(&self) -> &[u8; CLOCK_SIZE] {
        self.0.bytes()
    }
}

impl Default for Clock {
    fn default() -> Clock {
        Clock::new()
    }
}

/// Tells the clock's state by what it answers to minute 0.
impl fmt::Debug for Clock {
    fn fmt(&self, f: &mut fmt::Formatter<'_>) -> fmt::Result {
        f.debug_struct("Clock").field("height_at_0", &self.height(0)).finish_non_exhaustive()
    }
}
