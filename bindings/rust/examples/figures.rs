//! Writes what can be counted of a shared cache in the text form of Prometheus, for each of its
//! seats. A server answers `/metrics` with such a text.
//!
//! `cargo run --example figures`
use std::fmt::{Error as Unwritten, Write};
use tscache::{Config, Error, Figures, Seat, Shared, Span, Time, Value};

/// What is counted: its name, its type, what it says, and where it stands.
type Metric = (&'static str, &'static str, &'static str, fn(&Figures) -> u64);

const METRICS: [Metric; 9] = [
    ("pages", "gauge", "Pages of the cache.", |of| of.pages),
    ("rotations_total", "counter", "How often the pages rotated.", |of| of.rotations),
    ("nodes", "gauge", "End keys on the pages.", |of| of.nodes),
    ("bytes", "gauge", "What the end keys cost.", |of| of.bytes),
    ("memory_bytes", "gauge", "Bytes of memory that hold the pages.", |of| of.memory),
    ("adds_total", "counter", "Adds that were accepted.", |of| of.adds),
    ("refusals_total", "counter", "Adds that were refused.", |of| of.refusals),
    ("lookups_total", "counter", "Lookups and questions for writes.", |of| of.lookups),
    ("evicted_pages_total", "counter", "Pages that Adds dropped.", |of| of.evicted),
];

/// The text of these seats.
fn text(seats: &mut [Seat]) -> Result<String, Unwritten> {
    let figures: Vec<_> = seats.iter_mut().map(|seat| seat.figures().0).collect();
    let mut text = String::new();
    for (name, kind, help, of) in METRICS {
        writeln!(text, "# HELP tscache_{name} {help}\n# TYPE tscache_{name} {kind}")?;
        for (seat, figures) in figures.iter().enumerate() {
            writeln!(text, "tscache_{name}{{seat=\"{seat}\"}} {}", of(figures))?;
        }
    }
    Ok(text)
}

fn main() -> Result<(), Error> {
    let (_shared, mut seats) = Shared::open(&Config::default(), 2, u64::MAX)?;
    let read = Value { time: Time::new(20, 0), owner: None };
    for key in [b"a", b"b", b"c"] {
        while seats[0].add(&Span::Point(key), read, Time::new(20, 0), 64) == Err(Error::Busy) {
            std::thread::yield_now();
        }
    }
    print!("{}", text(&mut seats).expect("a string takes each text"));
    Ok(())
}
