//! A range that four threads serve under a lease. Their reads stand in one shared cache, at which
//! each thread has a seat of its own, and a write of any of them is clear of each read that was
//! answered before, on whichever thread.
//!
//! It is the repository's `crates/example_lease_holder` over this crate, call for call, and prints
//! what that prints of each form of cache. What that one hands on with a latch as a front, of which
//! this crate has none, is a number here: how many Adds of the cache's one history a seat has to have
//! seen before it asks for a write. What is proved there is checked here, of each write.
//!
//! `cargo run --example lease_holder`
use std::collections::BTreeMap;
use std::sync::{Mutex, MutexGuard};
use std::thread;
use tscache::{Config, Error, Seat, Shared, Span, Time, Value};

/// A key with a time, or with a value.
type Row = (&'static str, u64);

/// A transaction: its name, which keys it reads and when, and which one it wants to write, when
/// and what.
type Plan = (char, &'static [Row], (&'static str, u64, u64));

/// The id of a transaction.
type Id = [u8; 16];

/// The keys of the range, with what they are at first.
const KEYS: [Row; 4] = [("k", 1), ("m", 2), ("n", 3), ("z", 4)];

/// One for each thread. No key is written by two of them, so that it makes no difference which
/// thread comes first.
const PLANS: [Plan; 4] = [
    ('A', &[("k", 20), ("m", 12)], ("n", 30, 31)),
    ('B', &[("k", 18), ("m", 30)], ("m", 30, 32)),
    ('C', &[("m", 25), ("k", 16)], ("k", 15, 33)),
    ('D', &[("n", 14), ("k", 12)], ("z", 5, 34)),
];

/// What a key is from a time on.
struct Version {
    at: Time,
    value: u64,
}

/// What lies under the latch of a key. Who reads or writes the key holds the latch meanwhile.
struct Held {
    key: &'static str,
    versions: Vec<Version>,
    /// The reads that were answered. A store keeps none of them: here they are what a write is
    /// checked by.
    answered: Vec<Value>,
    /// What the latch hands on: so many Adds of the cache's history there are up to the last of
    /// these reads.
    adds: u64,
}

impl Held {
    /// A key that nobody has read yet, with its value from the beginning of time on.
    fn new(key: &'static str, value: u64) -> Held {
        Held {
            key,
            versions: vec![Version { at: Time::new(0, 0), value }],
            answered: Vec::new(),
            adds: 0,
        }
    }

    /// What the key is at a time.
    fn value_at(&self, at: Time) -> Option<u64> {
        self.versions
            .iter()
            .filter(|version| version.at <= at)
            .max_by_key(|version| version.at)
            .map(|version| version.value)
    }

    /// Reads the key at a time. The read is added to the cache before it is answered: one that is
    /// refused isn't answered, and a write may pass it. The place that it has in the history goes
    /// to the latch, so that whoever writes next knows how far to look.
    fn read(&mut self, me: &mut Seat, at: Time, by: Id) -> Result<Option<u64>, Error> {
        let value = self.value_at(at);
        let read = Value { time: at, owner: Some(by) };
        let place = loop {
            // an Add takes turns with those of other seats; where they are in the way, they are
            // let run
            match me.add(&Span::Point(self.key.as_bytes()), read, at, 64) {
                Err(Error::Busy) => thread::yield_now(),
                Ok((place, _added)) => break place,
                Err(why) => return Err(why),
            }
        };
        self.adds = self.adds.max(place + 1);
        self.answered.push(read);
        Ok(value)
    }

    /// Writes the key at the earliest time from the wanted one on that is clear of what the cache
    /// answers. Where there is none, nothing is written.
    fn write(&mut self, me: &mut Seat, wanted: Time, by: Id, value: u64) -> Result<Time, Error> {
        self.take_over(me);
        let at = me.earliest_write(&[Span::Point(self.key.as_bytes())], wanted, by)?;
        assert!(
            self.answered.iter().all(|read| is_passed(*read, at, by)),
            "a write would change what was read"
        );
        self.versions.push(Version { at, value });
        Ok(at)
    }

    /// The seat sees all reads of the key that were answered, which other seats have added. Each
    /// lookup tells how many Adds of the one history it counts, and no later one of the seat
    /// counts fewer. Those under the latch have returned, so the first lookup counts them; that
    /// alone is not proved of the library, and so it is looked at.
    fn take_over(&self, me: &mut Seat) {
        while me.low_water().1 < self.adds {
            thread::yield_now();
        }
    }

    /// What the cache answers of the key. Where a write was pushed, it is what it was pushed by: a
    /// read, or the floor.
    fn reason(&self, me: &mut Seat) -> Value {
        me.get_max(&Span::Point(self.key.as_bytes())).0
    }
}

/// A range that is served under a lease: its keys, each with its latch.
struct Lease {
    latches: BTreeMap<&'static str, Mutex<Held>>,
}

impl Lease {
    fn start() -> Lease {
        Lease {
            latches: KEYS
                .iter()
                .map(|(key, value)| (*key, Mutex::new(Held::new(key, *value))))
                .collect(),
        }
    }

    /// Waits for the latch of a key, and holds it.
    fn hold(&self, key: &str) -> MutexGuard<'_, Held> {
        self.latches[key].lock().unwrap()
    }
}

/// A thread: its seat, its transaction, and what is to be printed.
struct Worker {
    me: Seat,
    plan: Plan,
    told: Vec<String>,
}

impl Worker {
    /// Reads the keys of its transaction, one after another.
    fn read(&mut self, lease: &Lease) -> Result<(), Error> {
        let (name, reads, _) = self.plan;
        for (key, wall) in reads {
            let time = at(*wall);
            let value = lease
                .hold(key)
                .read(&mut self.me, time, id_of(name))?
                .expect("a version is from the beginning of time on");
            self.told.push(format!("{name} read \"{key}\" at {}: {value}", shown(time)));
        }
        Ok(())
    }

    /// Writes the key of its transaction.
    fn write(&mut self, lease: &Lease) -> Result<(), Error> {
        let (name, _, (key, wall, value)) = self.plan;
        let wanted = at(wall);
        let mut held = lease.hold(key);
        let time = held.write(&mut self.me, wanted, id_of(name), value)?;
        let from = shown(wanted);
        self.told.push(if time == wanted {
            format!("{name} wrote \"{key}\" at {from}, as it wanted")
        } else {
            // a store tells its transaction, which then checks its own reads again
            let why = because(key, held.reason(&mut self.me));
            format!(
                "{name} wanted to write \"{key}\" at {from}, was pushed to {}: {why}",
                shown(time)
            )
        });
        Ok(())
    }
}

/// Whether a write would leave a read as it was: that one is earlier, or at the same time and the
/// transaction's own. A store has the cache look; here it is what that is checked by.
fn is_passed(read: Value, at: Time, by: Id) -> bool {
    read.time < at || (read.time == at && read.owner == Some(by))
}

/// A time of no logical count.
fn at(wall: u64) -> Time {
    Time::new(wall, 0)
}

/// A time as it is printed.
fn shown(time: Time) -> String {
    format!("{}.{}", time.wall, time.logical)
}

/// The id of a transaction.
fn id_of(name: char) -> Id {
    u128::from(u32::from(name)).to_be_bytes()
}

/// What a key was read by, as the cache answers. What no transaction owns is the floor, or was
/// read by two at once.
fn because(key: &str, read: Value) -> String {
    let time = shown(read.time);
    match PLANS.iter().find(|(name, _, _)| read.owner == Some(id_of(*name))) {
        Some((name, _, _)) => format!("\"{key}\" was read at {time} by {name}"),
        None => format!("\"{key}\" may have been read up to {time}"),
    }
}

/// Has all threads do the same at once, and prints what they tell, in their order.
fn all_do(
    lease: &Lease,
    workers: &mut [Worker],
    turn: fn(&mut Worker, &Lease) -> Result<(), Error>,
) -> Result<(), Error> {
    thread::scope(|scope| {
        let started: Vec<_> =
            workers.iter_mut().map(|worker| scope.spawn(move || turn(worker, lease))).collect();
        started.into_iter().try_for_each(|thread| thread.join().unwrap())
    })?;
    for line in workers.iter_mut().flat_map(|worker| worker.told.drain(..)) {
        println!("{line}");
    }
    Ok(())
}

/// The lease begins at 10: nothing is known of reads before, so the floor stands there. Each
/// thread gets a seat.
fn main() -> Result<(), Error> {
    let config = Config { low_water: at(10), ..Config::default() };
    let (shared, seats) = Shared::open(&config, PLANS.len() as u32, u64::MAX)?;
    let lease = Lease::start();
    let mut workers: Vec<_> = seats
        .into_iter()
        .zip(PLANS)
        .map(|(me, plan)| Worker { me, plan, told: Vec::new() })
        .collect();
    for turn in [Worker::read, Worker::write, Worker::read] {
        all_do(&lease, &mut workers, turn)?;
    }
    // the lease ends: each seat is handed in, and the cache has had an Add for each read that was
    // answered
    drop(workers);
    let adds = shared.close().expect("each seat was handed in");
    assert_eq!(
        adds,
        lease.latches.values().map(|latch| latch.lock().unwrap().answered.len() as u64).sum()
    );
    Ok(())
}
