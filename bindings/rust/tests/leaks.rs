//! Opened and dropped so often, each thing leaves nothing behind. It is a program of its own, with
//! one test, since nothing else may take memory meanwhile.
#![cfg(all(target_os = "linux", target_env = "gnu"))]

use tscache::{Cache, Config, Error, Shared, Span, Time, Value};

/// What glibc's `mallinfo2` tells.
#[repr(C)]
struct Heap {
    words: [usize; 10],
}

extern "C" {
    fn mallinfo2() -> Heap;
}

/// How many bytes malloc has handed out that were not freed.
fn in_use() -> usize {
    // SAFETY: the function is glibc's, takes nothing, and gives ten words
    let Heap { words: [_, _, _, _, mapped, _, _, used, _, _] } = unsafe { mallinfo2() };
    mapped + used
}

const CONFIG: Config = Config {
    page_first: 132,
    page_max: 132,
    min_pages: 2,
    retention: 10,
    low_water: Time::new(5, 0),
};

fn cache() -> Result<(), Error> {
    let value = Value { time: Time::new(20, 0), owner: None };
    Cache::open(&CONFIG)?.add(&Span::Point(b"a"), value, Time::new(20, 0)).map(drop)
}

fn applied() -> Result<(), Error> {
    let value = Value { time: Time::new(20, 0), owner: None };
    let mut cache = Cache::open(&CONFIG)?;
    cache.add(&Span::Point(b"a"), value, Time::new(20, 0))?;
    let summary = cache.summary(&Span::Onward { from: b"", exclude_from: false }, usize::MAX)?;
    assert_eq!(cache.apply(&summary[1..], Time::new(20, 0)), Err(Error::SummaryVersion));
    cache.apply(&summary, Time::new(20, 0)).map(drop)
}

fn applied_of_a_seat() -> Result<(), Error> {
    let value = Value { time: Time::new(20, 0), owner: None };
    let (_shared, mut seats) = Shared::open(&CONFIG, 2, 9)?;
    seats[0].add(&Span::Point(b"a"), value, Time::new(20, 0), 64)?;
    let all = Span::Onward { from: b"", exclude_from: false };
    let (summary, _) = seats[1].summary(&all, usize::MAX)?;
    Cache::open(&CONFIG)?.apply(&summary, Time::new(20, 0)).map(drop)
}

fn shared(closes: bool) -> Result<(), Error> {
    let (shared, mut seats) = Shared::open(&CONFIG, 2, 9)?;
    let value = Value { time: Time::new(20, 0), owner: None };
    seats[0].add(&Span::Point(b"a"), value, Time::new(20, 0), 64)?;
    if closes {
        drop(seats);
        assert_eq!(shared.close().unwrap(), 1);
    }
    Ok(())
}

fn refused() -> Result<(), Error> {
    let wrong = Config { min_pages: 0, ..CONFIG };
    assert_eq!(Cache::open(&wrong).err(), Some(Error::MinPages));
    assert_eq!(Shared::open(&wrong, 2, 9).err(), Some(Error::MinPages));
    Ok(())
}

/// What opens something and drops it.
type Kind = fn() -> Result<(), Error>;

#[test]
fn nothing_is_left_behind() -> Result<(), Error> {
    const TIMES: usize = 2_000;
    let kinds: [(&str, Kind); 6] = [
        ("caches", cache),
        ("summaries that are applied", applied),
        ("summaries of a seat that are applied", applied_of_a_seat),
        ("shared caches that are closed", || shared(true)),
        ("shared caches that are dropped", || shared(false)),
        ("refused ones", refused),
    ];
    for (name, kind) in kinds {
        (0..TIMES / 10).try_for_each(|_| kind())?;
        let before = in_use();
        (0..TIMES).try_for_each(|_| kind())?;
        let left = in_use().saturating_sub(before);
        assert!(left < 16 << 10, "{TIMES} {name} leave {left} bytes");
    }
    Ok(())
}
