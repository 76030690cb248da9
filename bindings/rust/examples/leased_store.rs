//! A small key-value store of several versions, whose writes ask the timestamp cache.
//!
//! Each key has its versions by their times, and a transaction reads as of its own time. So a
//! write at a time at which its key was already read by somebody else, or later, would change what
//! that reader saw: it has to move up. The holder of the range's lease remembers its reads in a
//! cache, and asks it before each write. The next holder knows nothing of those reads: its cache
//! begins with the floor at the time at which its lease starts, so every older write moves up
//! above that.
//!
//! `cargo run --example leased_store` shows a few transactions, and then checks many of four
//! threads: once as it should be, when no read would find anything else at the end, and once with
//! holders that don't ask, when many would.
use std::collections::BTreeMap;
use std::sync::atomic::{AtomicU64, Ordering};
use std::sync::Mutex;
use std::thread;
use tscache::{Cache, Config, Error, Span, Time, Value};

/// The versions of each key, by their times. They outlive a lease.
type Versions = BTreeMap<Vec<u8>, BTreeMap<Time, Vec<u8>>>;

/// What tells the time. Each reading is later than all before.
#[derive(Default)]
struct Clock(AtomicU64);

impl Clock {
    fn now(&self) -> Time {
        Time::new(self.0.fetch_add(1, Ordering::Relaxed) + 1, 0)
    }
}

/// A transaction: who it is, and the time as of which it reads and writes.
#[derive(Clone, Copy)]
struct Transaction {
    id: [u8; 16],
    time: Time,
}

/// What holds the lease of the range of all keys: the reads since its start.
struct Holder {
    reads: Cache,
    /// Whether a write asks the cache. One that doesn't is there to show what comes of that.
    asks: bool,
}

impl Holder {
    /// Takes the lease over from a time on. No holder before it serves a read at a later time.
    fn start(time: Time) -> Result<Holder, Error> {
        let config = Config { low_water: time, ..Config::default() };
        Ok(Holder { reads: Cache::open(&config)?, asks: true })
    }

    /// Reads a key as of the transaction's time, and remembers that.
    fn get(
        &mut self,
        versions: &Versions,
        by: Transaction,
        key: &[u8],
        now: Time,
    ) -> Result<Option<Vec<u8>>, Error> {
        self.reads.add(&Span::Point(key), Value { time: by.time, owner: Some(by.id) }, now)?;
        Ok(versions
            .get(key)
            .and_then(|all| all.range(..=by.time).next_back())
            .map(|(_, value)| value.clone()))
    }

    /// How many keys have a value from one key to before another, as of the transaction's time.
    /// All of the span was read then, also the keys that are not there.
    fn count(
        &mut self,
        versions: &Versions,
        by: Transaction,
        from: &[u8],
        to: &[u8],
        now: Time,
    ) -> Result<usize, Error> {
        self.reads.add(&Span::until(from, to), Value { time: by.time, owner: Some(by.id) }, now)?;
        Ok(versions
            .range(from.to_vec()..to.to_vec())
            .filter(|(_, all)| all.range(..=by.time).next().is_some())
            .count())
    }

    /// Writes a key at the transaction's time, or at the first time after it that no read forbids,
    /// and above the newest version, and gives that time.
    fn put(
        &mut self,
        versions: &mut Versions,
        by: Transaction,
        key: &[u8],
        value: &[u8],
    ) -> Result<Time, Error> {
        let mut time = self.clear(key, by)?;
        let all = versions.entry(key.to_vec()).or_default();
        if let Some((&newest, _)) = all.iter().next_back() {
            time = time.max(newest.next().ok_or(Error::NoTime)?);
        }
        all.insert(time, value.to_vec());
        Ok(time)
    }

    /// The first time, not before the transaction's, at which no read forbids a write.
    fn clear(&mut self, key: &[u8], by: Transaction) -> Result<Time, Error> {
        if !self.asks {
            return Ok(by.time);
        }
        self.reads.earliest_write(&[Span::Point(key)], by.time, by.id)
    }
}

/// Shows what moves a write up, and what doesn't.
fn show() -> Result<(), Error> {
    let mut versions = Versions::new();
    let (reader, writer) = ([1; 16], [2; 16]);
    let mut holder = Holder::start(Time::new(10, 0))?;
    let now = Time::new(30, 0);

    let scan = Transaction { id: reader, time: Time::new(20, 0) };
    let there = holder.count(&versions, scan, b"a", b"n", now)?;
    println!("a transaction counts the keys before n as of 20: {there}");

    let early = Transaction { id: writer, time: Time::new(15, 0) };
    let apple = holder.put(&mut versions, early, b"apple", b"red")?;
    println!(
        "another writes apple at 15, and moves up to {}.{}: 20 was read there",
        apple.wall, apple.logical
    );
    assert_eq!(apple, Time::new(20, 1));
    assert_eq!(holder.count(&versions, scan, b"a", b"n", now)?, there);

    let plum = holder.put(&mut versions, early, b"plum", b"blue")?;
    println!("it writes plum at {}: nobody read that", plum.wall);
    assert_eq!(plum, Time::new(15, 0));

    let own = holder.put(&mut versions, scan, b"fig", b"green")?;
    println!("the one that counted writes fig at {}: its own read forbids it nothing", own.wall);
    assert_eq!(own, Time::new(20, 0));

    let mut next = Holder::start(Time::new(40, 0))?;
    let late = next.put(
        &mut versions,
        Transaction { id: writer, time: Time::new(25, 0) },
        b"zucchini",
        b"long",
    )?;
    let Time { wall, logical } = late;
    println!("after the lease went on at 40, a write at 25 moves up to {wall}.{logical}:");
    println!("who read there before is not known");
    assert_eq!(late, Time::new(40, 1));
    Ok(())
}

/// How many turns each of the threads takes.
const TURNS: u64 = 2_000;

/// So long ago a writer began.
const WRITERS_LAG: u64 = 40;

/// What came of a trial.
#[derive(Debug)]
struct Counts {
    writes: usize,
    /// So many of them a read moved up.
    pushed: usize,
    reads: usize,
    /// So many of them would find something else at the end than they found.
    changed: usize,
}

/// A read that was answered: its time, its key, and what it found.
type Read = (Time, [u8; 1], Option<Vec<u8>>);

/// One of 32 keys, as if by chance.
fn key_of(thread: u64, turn: u64) -> u8 {
    ((thread * 4096 + turn).wrapping_mul(0x9E37_79B9_7F4A_7C15) >> 59) as u8
}

/// A turn: a read at the present time, or a write of a transaction that began a while ago.
fn turn(
    range: &Mutex<(Holder, Versions)>,
    clock: &Clock,
    thread: u64,
    turn: u64,
) -> Result<Result<Read, bool>, Error> {
    let now = clock.now();
    let id = (u128::from(thread) << 64 | u128::from(turn + 1)).to_be_bytes();
    let key = [key_of(thread, turn)];
    let mut range = range.lock().unwrap();
    let (holder, versions) = &mut *range;
    if turn % 2 == 0 {
        let by = Transaction { id, time: now };
        return Ok(Ok((by.time, key, holder.get(versions, by, &key, now)?)));
    }
    let by = Transaction { id, time: Time::new(now.wall.saturating_sub(WRITERS_LAG), 0) };
    let is_pushed = holder.clear(&key, by)? > by.time;
    holder.put(versions, by, &key, &turn.to_le_bytes())?;
    Ok(Err(is_pushed))
}

/// Has four threads read and write a few keys, and looks at the end what each read would find as
/// of its time.
fn trial(asks: bool) -> Result<Counts, Error> {
    let clock = Clock::default();
    let holder = Holder { asks, ..Holder::start(clock.now())? };
    let range = Mutex::new((holder, Versions::new()));
    let turns = |thread| (0..TURNS).map(|i| turn(&range, &clock, thread, i)).collect();
    let all: Vec<Vec<Result<Read, bool>>> = thread::scope(|scope| {
        let started: Vec<_> = (0..4).map(|thread| scope.spawn(move || turns(thread))).collect();
        started.into_iter().map(|thread| thread.join().unwrap()).collect::<Result<_, Error>>()
    })?;
    let (_, versions) = range.into_inner().unwrap();
    let reads: Vec<_> = all.iter().flatten().filter_map(|turn| turn.as_ref().ok()).collect();
    let writes: Vec<_> = all.iter().flatten().filter_map(|turn| turn.as_ref().err()).collect();
    let finds = |key: &[u8], time| versions.get(key)?.range(..=time).next_back().map(|(_, v)| v);
    let changed = |(time, key, found): &&&Read| finds(key, *time) != found.as_ref();
    Ok(Counts {
        writes: writes.len(),
        pushed: writes.iter().filter(|is_pushed| ***is_pushed).count(),
        reads: reads.len(),
        changed: reads.iter().filter(changed).count(),
    })
}

fn main() -> Result<(), Error> {
    show()?;
    let Counts { writes, pushed, reads, changed } = trial(true)?;
    println!(
        "four threads: of {writes} writes {pushed} were pushed; of {reads} reads {changed} changed"
    );
    assert!(pushed * 10 >= writes && changed == 0);
    let without = trial(false)?;
    println!("and where no write asks: of {} reads {} changed", without.reads, without.changed);
    assert!(without.pushed == 0 && without.changed > 0);
    Ok(())
}
