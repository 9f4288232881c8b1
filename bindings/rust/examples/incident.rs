//! A clock runs, an update is refused, and the clock goes on: Victoria, the manual's sample station, in July 1976.
//! Usage: incident CARDS, where CARDS is a card file (data/standard-cards.txt).

use cuvalimodo::{check_cards, Clock, Record, Refusal, Strides, Turns};
use std::error::Error;

/// The sample's constituents (001, appendix 7.4): name, amplitude, phase lag. Amplitudes are 10^-4 of the sample's unit, feet by their size, so the
/// heights are too.
const VICTORIA: [(&str, u32, u32); 11] = [
    ("Z0", 60670, 0),
    ("Q1", 1970, 13030),
    ("O1", 12110, 13700),
    ("NO1", 1120, 12080),
    ("P1", 6740, 14850),
    ("S1", 980, 15410),
    ("K1", 20700, 14940),
    ("J1", 1170, 16640),
    ("N2", 2940, 6340),
    ("M2", 12130, 8700),
    ("S2", 3320, 9390),
];
const LATITUDE: i32 = 48 * 60 + 25;
const ASKED: u32 = 13 * 1440 + 8 * 60 + 30;

/// What the clock says of the month.
#[derive(PartialEq)]
struct Month {
    turns: Turns,
    minutes: [u32; 250],
    heights: [i64; 250],
    hourly: [i64; 31 * 24 + 1],
}

fn read_month(clock: &Clock) -> Result<Month, Refusal> {
    let (mut minutes, mut heights, mut hourly) = ([0; 250], [0; 250], [0; 31 * 24 + 1]);
    let turns = clock.turns(0, 31 * 1440, &mut minutes, &mut heights)?;
    clock.series(0, 60, &mut hourly)?;
    Ok(Month { turns, minutes, heights, hourly })
}

fn print_first_day(month: &Month) {
    println!("Victoria, July 1976: {} turns, on the first day", month.turns.count);
    for n in (0..month.turns.count).take_while(|&n| month.minutes[n] < 1440) {
        let word = if month.turns.is_high(n) { "high" } else { "low " };
        println!("{:02}:{:02}  {}  {:7.4}", month.minutes[n] / 60, month.minutes[n] % 60, word, month.heights[n] as f64 / 10000.0);
    }
}

fn main() -> Result<(), Box<dyn Error>> {
    let path = std::env::args().nth(1).ok_or("usage: incident CARDS")?;
    let cards = std::fs::read(path)?;
    let counts = check_cards(&cards)?;
    println!(
        "cards: {} frequencies, {} mains, {} satellites, {} shallow",
        counts.frequencies, counts.mains, counts.satellites, counts.shallows
    );

    let mut berth = Clock::new();
    berth.load_cards(&cards)?;
    let mut records = Vec::new();
    for (name, amplitude, phase) in VICTORIA {
        let place = berth.place_of(name).ok_or(format!("the card file has no {name}"))?;
        records.push(Record { place, amplitude, phase });
    }
    berth.set_station(LATITUDE, Strides::USUAL, &records)?;
    berth.set_date(1976, 7)?;
    let before = read_month(&berth)?;
    print_first_day(&before);
    println!("the water stands at {:.4} at 08:30 on the 14th", berth.height(ASKED)? as f64 / 10000.0);

    let update: Vec<_> = (0..147).map(|place| Record { place, amplitude: 500, phase: 0 }).collect();
    let refusal = berth.set_station(LATITUDE, Strides::USUAL, &update).err().ok_or("the update is accepted")?;
    println!("an update with {} records: refusal {} at {}, {}", update.len(), refusal.number, refusal.place, refusal.text());

    let after = read_month(&berth)?;
    if before != after {
        return Err("the clock is changed".into());
    }
    println!(
        "the clock goes on: the same {} turns and {} hourly heights, and {:.4} at 08:30 on the 14th",
        after.turns.count,
        after.hourly.len(),
        berth.height(ASKED)? as f64 / 10000.0
    );
    Ok(())
}
