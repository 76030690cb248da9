//! Times lookups and Adds of single keys that are there, of 65,536 keys or as many as the first
//! word says: through this crate, and in a `BTreeMap` behind a mutex that keeps the latest time of
//! each key and knows no ranges. Then seats of a shared cache look up on 1 and 4 threads, and so
//! do threads that share the map.
//!
//! It prints the nanoseconds of one call, in that turn over 1,024 places in which it was quickest,
//! of 225; and the lookups of all threads together in a millisecond, in the quickest round of
//! nine. Each turn looks up, and then adds. The keys, where they lie, and the order of all that is
//! done are those of `speed.c` and of the repository's `bench bytes`, so that their figures can
//! stand beside these; the map is made when the cache is done with, or else its keys would lie
//! between those of the cache.
use std::collections::BTreeMap;
use std::hint::black_box;
use std::sync::{Barrier, Mutex};
use std::thread;
use std::time::{Duration, Instant};
use tscache::{Cache, Config, Error, Shared, Span, Time, Value};

const PLACES: u64 = 1024;
/// How often each call is timed over all places.
const TURNS: u64 = 225;
/// How often threads are timed.
const ROUNDS: usize = 9;
const STRIDE: u64 = 1_696_631;
const OWNER: Option<[u8; 16]> = Some([0x11, 0, 0, 0, 0, 0, 0, 0, 0, 0, 0, 0, 0, 0, 0, 0]);
/// When the keys are added first.
const FIRST_WALL: u64 = 10;
/// How often a thread goes over all places.
const LONG_TURNS: u64 = 250;

fn key_of(place: u64) -> [u8; 8] {
    (place * 64).to_be_bytes()
}

/// Of many turns, each at a later time, the least that lookups took, and the least that Adds took.
fn least(
    mut turn: impl FnMut(u64) -> Result<[Duration; 2], Error>,
) -> Result<[Duration; 2], Error> {
    let mut best = [Duration::MAX; 2];
    for i in 0..TURNS {
        let times = turn(FIRST_WALL + 1 + i)?;
        best = [best[0].min(times[0]), best[1].min(times[1])];
    }
    Ok(best)
}

fn each(time: Duration) -> u128 {
    time.as_nanos() / u128::from(PLACES)
}

fn config(nodes: u64) -> Config {
    let size = (nodes * 40) as u32;
    Config { page_first: size, page_max: size, ..Config::default() }
}

fn at(wall: u64) -> Value {
    Value { time: Time::new(wall, 0), owner: OWNER }
}

/// One thread and this crate.
fn alone(nodes: u64, places: &[[u8; 8]]) -> Result<[Duration; 2], Error> {
    let now = Time::new(1, 0);
    let mut cache = Cache::open(&config(nodes))?;
    for place in 0..nodes {
        cache.add(&Span::Point(&key_of(place)), at(FIRST_WALL), now)?;
    }
    least(|wall| {
        let (mut latest, mut all_kept) = (Time::new(0, 0), true);
        let start = Instant::now();
        for key in places {
            latest = latest.max(cache.get_max(&Span::Point(key)).time);
        }
        let lookups = start.elapsed();
        let start = Instant::now();
        for key in places {
            all_kept &= cache.add(&Span::Point(key), at(wall), now)?.kept;
        }
        let adds = start.elapsed();
        assert!(all_kept && latest == Time::new(wall - 1, 0));
        Ok([lookups, adds])
    })
}

/// One thread and the map.
fn alone_in_map(nodes: u64, places: &[[u8; 8]]) -> Result<[Duration; 2], Error> {
    let map = map(nodes);
    least(|wall| {
        let start = Instant::now();
        for key in places {
            black_box(map.lock().unwrap().get(&key[..]).copied());
        }
        let lookups = start.elapsed();
        let start = Instant::now();
        for key in places {
            let mut map = map.lock().unwrap();
            let latest = map.get_mut(&key[..]).unwrap();
            if latest.time < Time::new(wall, 0) {
                *latest = at(wall);
            }
        }
        Ok([lookups, start.elapsed()])
    })
}

fn map(nodes: u64) -> Mutex<BTreeMap<Vec<u8>, Value>> {
    Mutex::new((0..nodes).map(|place| (key_of(place).to_vec(), at(FIRST_WALL))).collect())
}

fn print(who: &str, [lookup, add]: [Duration; 2]) {
    println!("{who}, lookup of a key: {} ns", each(lookup));
    println!("{who}, add of a key: {} ns", each(add));
}

/// How many calls all threads make in a millisecond, each of which goes over all places again and
/// again, from the same moment on.
fn together(threads: u64, work: &(dyn Fn(u64) + Sync)) -> u128 {
    let barrier = Barrier::new(threads as usize);
    let times: Vec<Duration> = thread::scope(|scope| {
        let started: Vec<_> = (0..threads)
            .map(|thread| {
                let barrier = &barrier;
                scope.spawn(move || {
                    barrier.wait();
                    let start = Instant::now();
                    work(thread);
                    start.elapsed()
                })
            })
            .collect();
        started.into_iter().map(|thread| thread.join().unwrap()).collect()
    });
    let longest = times.into_iter().max().unwrap_or_default();
    u128::from(threads * PLACES * LONG_TURNS) * 1_000_000 / longest.as_nanos().max(1)
}

/// Lookups on one and on four threads.
fn on_threads(nodes: u64, places: &[[u8; 8]]) -> Result<(), Error> {
    let map = map(nodes);
    let (_shared, seats) = Shared::open(&config(nodes), 4, u64::MAX)?;
    let seats: Vec<_> = seats.into_iter().map(Mutex::new).collect();
    for place in 0..nodes {
        seats[0].lock().unwrap().add(
            &Span::Point(&key_of(place)),
            at(FIRST_WALL),
            Time::new(1, 0),
            8,
        )?;
    }
    let of_seats = |thread: u64| {
        let mut seat = seats[thread as usize].lock().unwrap();
        for _ in 0..LONG_TURNS {
            for key in places {
                black_box(seat.get_max(&Span::Point(key)));
            }
        }
    };
    let of_map = |_: u64| {
        for _ in 0..LONG_TURNS {
            for key in places {
                black_box(map.lock().unwrap().get(&key[..]).copied());
            }
        }
    };
    let best = |threads, work: &(dyn Fn(u64) + Sync)| {
        (0..ROUNDS).map(|_| together(threads, work)).max().unwrap_or_default()
    };
    let (one, four) = (best(1, &of_seats), best(4, &of_seats));
    let (map_one, map_four) = (best(1, &of_map), best(4, &of_map));
    println!("Rust, {nodes} nodes, lookups of seats in a millisecond: {one} on 1 thread, {four} on 4, {} per cent", four * 100 / one.max(1));
    println!("a map behind a mutex, {nodes} keys, lookups in a millisecond: {map_one} on 1 thread, {map_four} on 4, {} per cent", map_four * 100 / map_one.max(1));
    Ok(())
}

fn main() -> Result<(), Error> {
    let nodes = std::env::args().nth(1).and_then(|word| word.parse().ok()).unwrap_or(65_536);
    let places: Vec<[u8; 8]> = (0..PLACES).map(|i| key_of(i * STRIDE % nodes)).collect();
    print(&format!("Rust, {nodes} nodes"), alone(nodes, &places)?);
    print(&format!("a map behind a mutex, {nodes} keys"), alone_in_map(nodes, &places)?);
    on_threads(nodes, &places)
}
