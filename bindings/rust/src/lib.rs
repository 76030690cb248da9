#![doc = include_str!("../README.md")]
#![warn(missing_docs)]

use std::ffi::c_void;
use std::fmt;
use std::mem::MaybeUninit;
use std::ptr::null_mut;

mod built;
#[cfg(doctest)]
mod does_not_compile;
mod ffi;
mod flat;
mod leases;
mod texts;
mod writes;

pub use built::{built, Built};
use flat::Flat;
pub use texts::{check, replay, TextError};

/// A time of a hybrid logical clock. The smaller wall time comes first, and of two equal ones the
/// smaller count.
///
/// ```
/// use tscache::Time;
/// assert!(Time::new(19, 7) < Time::new(20, 0) && Time::new(20, 0) < Time::new(20, 1));
/// ```
// (it is `tsc_time`)
#[repr(C)]
#[derive(Clone, Copy, Debug, Default, PartialEq, Eq, PartialOrd, Ord, Hash)]
pub struct Time {
    /// Nanoseconds, below 2^63.
    pub wall: u64,
    /// A count among the times of one nanosecond, below 2^31.
    pub logical: u32,
}

impl Time {
    /// The time of these parts. Calls refuse it with [`Error::Time`] where one is too large.
    ///
    /// ```
    /// use tscache::{Cache, Config, Error, Time};
    /// let too_late = Config { low_water: Time::new(1 << 63, 0), ..Config::default() };
    /// assert_eq!(Cache::open(&too_late).err(), Some(Error::Time));
    /// ```
    #[inline]
    #[must_use = "a time alone changes nothing"]
    pub const fn new(wall: u64, logical: u32) -> Time {
        Time { wall, logical }
    }
}

/// A time with the transaction that owns it, if one does. Sixteen zero bytes name none.
///
/// ```
/// use tscache::{Cache, Config, Error, Span, Time, Value};
/// let mut cache = Cache::open(&Config::default())?;
/// let (key, at) = (Span::Point(b"a"), Time::new(20, 0));
/// cache.add(&key, Value { time: at, owner: Some([0; 16]) }, at)?;
/// assert_eq!(cache.get_max(&key), Value { time: at, owner: None });
/// # Ok::<(), Error>(())
/// ```
#[derive(Clone, Copy, Debug, PartialEq, Eq, Hash)]
pub struct Value {
    /// When.
    pub time: Time,
    /// By whom.
    pub owner: Option<[u8; 16]>,
}

/// How a cache is set up.
///
/// A lease holder sets [`low_water`](Config::low_water) to the start of its lease, or later: it
/// knows nothing of the reads before.
///
/// ```
/// use tscache::{Cache, Config, Error, Span, Time};
/// let start_of_lease = Time::new(1_000, 0);
/// let mut cache = Cache::open(&Config { low_water: start_of_lease, ..Config::default() })?;
/// let told = cache.earliest_write(&[Span::Point(b"a")], Time::new(900, 0), [0x22; 16])?;
/// assert_eq!(told, Time::new(1_000, 1));
/// # Ok::<(), Error>(())
/// ```
#[derive(Clone, Copy, Debug, PartialEq, Eq)]
pub struct Config {
    /// How many bytes the first page may have, 64 at the least.
    pub page_first: u32,
    /// How many bytes a page may have at the most, up to 2^30.
    pub page_max: u32,
    /// A page is dropped only while there are at least so many: 1 to 64.
    pub min_pages: u32,
    /// And once all of it is older than so many nanoseconds, below 2^63.
    pub retention: u64,
    /// Where the floor stands at first: at or above each time at which a read was answered before
    /// this cache was there.
    pub low_water: Time,
}

impl Default for Config {
    /// Pages of 128 KiB that grow to 32 MiB, at least two of them, and ten seconds.
    ///
    /// The floor is at 0. That is right only if no read was answered before the cache is opened: a
    /// lease holder sets [`low_water`](Config::low_water).
    fn default() -> Config {
        Config {
            page_first: 128 << 10,
            page_max: 32 << 20,
            min_pages: 2,
            retention: 10_000_000_000,
            low_water: Time::new(0, 0),
        }
    }
}

/// The keys that a read touched, or that a lookup asks of.
///
/// A range from a key to itself is that key if one of its ends is included, and otherwise it has no
/// key. A range whose first key is the greater one is inverted. Every call but a lookup refuses it
/// as [`Error::Inverted`]; to a lookup it has no key.
///
/// ```
/// use tscache::{Cache, Config, Error, Span, Time, Value};
/// let mut cache = Cache::open(&Config::default())?;
/// let (read, nothing) = (Time::new(20, 0), Time::new(0, 0));
/// cache.add(&Span::until(b"b", b"d"), Value { time: read, owner: None }, read)?;
/// let behind = |from| Span::Onward { from, exclude_from: true };
/// assert_eq!(cache.get_max(&Span::Point(b"c")).time, read);
/// assert_eq!(cache.get_max(&Span::Point(b"d")).time, nothing);
/// assert_eq!(cache.get_max(&behind(b"b")).time, read);
/// assert_eq!(cache.get_max(&behind(b"d")).time, nothing);
/// assert_eq!(cache.get_max(&Span::until(b"c", b"c")).time, read);
/// # Ok::<(), Error>(())
/// ```
#[derive(Clone, Copy, Debug, PartialEq, Eq)]
pub enum Span<'a> {
    /// One key.
    Point(&'a [u8]),
    /// From one key to another.
    Range {
        /// The first key.
        from: &'a [u8],
        /// The last key.
        to: &'a [u8],
        /// The first key itself is no part of it.
        exclude_from: bool,
        /// The last key itself is no part of it.
        exclude_to: bool,
    },
    /// All keys from one on.
    Onward {
        /// The first key.
        from: &'a [u8],
        /// That key itself is no part of it.
        exclude_from: bool,
    },
}

impl<'a> Span<'a> {
    /// From one key to another that is excluded.
    ///
    /// ```
    /// use tscache::Span;
    /// let (from, to): (&[u8], &[u8]) = (b"a", b"c");
    /// let range = Span::Range { from, to, exclude_from: false, exclude_to: true };
    /// assert_eq!(Span::until(b"a", b"c"), range);
    /// ```
    #[inline]
    #[must_use = "a span alone adds nothing and asks nothing"]
    pub const fn until(from: &'a [u8], to: &'a [u8]) -> Span<'a> {
        Span::Range { from, to, exclude_from: false, exclude_to: true }
    }

    #[inline]
    fn parts(&self) -> (&'a [u8], &'a [u8], u32) {
        match *self {
            Span::Point(key) => (key, &[], ffi::POINT),
            Span::Range { from, to, exclude_from, exclude_to } => (
                from,
                to,
                u32::from(exclude_from) * ffi::EXCLUDE_FROM
                    + u32::from(exclude_to) * ffi::EXCLUDE_TO,
            ),
            Span::Onward { from, exclude_from } => {
                (from, &[], ffi::ONWARD + u32::from(exclude_from) * ffi::EXCLUDE_FROM)
            }
        }
    }
}

/// A span with the value that is added to it.
#[derive(Clone, Copy, Debug, PartialEq, Eq)]
pub struct Mark<'a> {
    /// What was read.
    pub span: Span<'a>,
    /// When, and by whom.
    pub value: Value,
}

/// What an Add did.
#[derive(Clone, Copy, Debug, PartialEq, Eq)]
pub struct Added {
    /// Its span is not empty, and its time is above the floor.
    pub kept: bool,
    /// A new page came to the front.
    pub rotated: bool,
    /// How many pages were dropped.
    pub evicted: u64,
}

/// What can be counted of a cache, and of what was asked of it. Each count stays at 2^64 - 1 once
/// it is there.
///
/// The last four are of a cache that one thread uses, or of one seat alone. Seats share none of
/// them: a program adds up what its seats tell.
// (it is `tsc_figures`)
#[repr(C)]
#[derive(Clone, Copy, Debug, PartialEq, Eq)]
pub struct Figures {
    /// How many pages there are.
    pub pages: u64,
    /// How often they rotated.
    pub rotations: u64,
    /// How many end keys the pages hold, each counted once for each page that holds it.
    pub nodes: u64,
    /// What these cost: for each as many bytes as it has, and 32 more.
    pub bytes: u64,
    /// The bytes of all blocks of memory that hold these pages, as `malloc` was asked for them. At
    /// a seat these are of the copy that it reads.
    pub memory: u64,
    /// Adds that were accepted. Several marks at once are one Add, and so is a summary that is
    /// applied.
    pub adds: u64,
    /// Adds that the library refused, for whatever reason.
    pub refusals: u64,
    /// Lookups and questions for writes that were answered: one for each call.
    pub lookups: u64,
    /// Pages that these Adds dropped.
    pub evicted: u64,
}

/// Why a call was refused. A call that is refused adds nothing.
#[derive(Clone, Copy, Debug, PartialEq, Eq, Hash)]
pub enum Error {
    /// A time is out of range.
    Time,
    /// A key of a span to be added has more than 4096 bytes.
    KeyTooLong,
    /// Of a span that is added, written or summarized the first key is greater than the second.
    Inverted,
    /// A span to be added costs more than the largest page may have.
    TooLarge,
    /// There may be no pages of these sizes.
    PageSize,
    /// There may not be so many pages.
    MinPages,
    /// Reads may not be retained for so long.
    Retention,
    /// Memory was refused.
    NoMemory,
    /// There are 1 or more seats, and of a shared cache at most 64.
    Seats,
    /// Others were in the way at each try.
    Busy,
    /// A shared cache has had as many Adds as it may have.
    Full,
    /// A read of somebody else stands at the last time, so a write may be made at none.
    NoTime,
    /// The bytes are a summary of another version.
    SummaryVersion,
    /// Some bytes of a summary are missing, or there are more than it has.
    SummaryLength,
    /// A summary was changed: its digest is another one.
    SummaryChecksum,
    /// The digest is right, and what it is of is no summary: its sender made it wrong.
    SummaryForm,
    /// An Add was to have no tries, by which none is ever made.
    Tries,
    /// There are at most 1,024 stripes.
    Stripes,
    /// A bound of stripes is not above the one before it, or the first one is the empty key.
    Bounds,
    /// A code of the library that no call of this crate brings about.
    Other(u32),
}

impl fmt::Display for Error {
    fn fmt(&self, f: &mut fmt::Formatter<'_>) -> fmt::Result {
        f.write_str(match self {
            Error::Time => "a time is out of range",
            Error::KeyTooLong => "a key is too long",
            Error::Inverted => "the range is inverted",
            Error::TooLarge => "the span is too large for a page",
            Error::PageSize => {
                "page_first is 64 to page_max, and page_max at most 2^30, in stripes at least 8256"
            }
            Error::MinPages => "min_pages is 1 to 64",
            Error::Retention => "retention is at most 2^63 - 1 nanoseconds",
            Error::NoMemory => "out of memory",
            Error::Seats => "seats are 1 or more, and of a shared cache at most 64",
            Error::Busy => "others were in the way",
            Error::Full => "there are as many Adds as there may be",
            Error::NoTime => "there is no time at which the write may be made",
            Error::SummaryVersion => "the summary is of another version",
            Error::SummaryLength => "the summary has another length",
            Error::SummaryChecksum => "the summary was changed",
            Error::SummaryForm => "the bytes are no summary",
            Error::Tries => "tries are 1 or more",
            Error::Stripes => "stripes are at most 1024",
            Error::Bounds => "the bounds of stripes are out of order",
            Error::Other(code) => return write!(f, "code {code} of the library"),
        })
    }
}

impl std::error::Error for Error {}

/// Ends the program where a call that only reads was refused, which none of this crate brings
/// about: what it would tell else is a time of zero, below which any write passes.
#[inline]
#[track_caller]
fn answered(code: u32) {
    if code != 0 {
        refused();
    }
}

#[cold]
#[track_caller]
fn refused() -> ! {
    panic!("a call that only reads was refused");
}

#[inline]
fn done(code: u32) -> Result<(), Error> {
    if code == 0 {
        Ok(())
    } else {
        Err(fault(code))
    }
}

#[cold]
fn fault(code: u32) -> Error {
    match code {
        2 => Error::Time,
        4 => Error::KeyTooLong,
        5 => Error::Inverted,
        6 => Error::TooLarge,
        8 => Error::PageSize,
        9 => Error::MinPages,
        10 => Error::Retention,
        11 => Error::NoMemory,
        12 => Error::Seats,
        14 => Error::Busy,
        15 => Error::Full,
        18 => Error::NoTime,
        19 => Error::SummaryVersion,
        20 => Error::SummaryLength,
        21 => Error::SummaryChecksum,
        22 => Error::SummaryForm,
        23 => Error::Tries,
        24 => Error::Stripes,
        25 => Error::Bounds,
        other => Error::Other(other),
    }
}

impl From<Value> for ffi::Value {
    #[inline]
    fn from(value: Value) -> ffi::Value {
        ffi::Value {
            wall: value.time.wall,
            logical: value.time.logical,
            owner: value.owner.unwrap_or([0; 16]),
        }
    }
}

impl From<ffi::Value> for Value {
    #[inline]
    fn from(value: ffi::Value) -> Value {
        let owner = Some(value.owner).filter(|owner| *owner != [0; 16]);
        Value { time: Time::new(value.wall, value.logical), owner }
    }
}

impl From<ffi::Added> for Added {
    #[inline]
    fn from(added: ffi::Added) -> Added {
        Added { kept: added.kept, rotated: added.rotated, evicted: added.evicted }
    }
}

/// Makes a call of a seat that only reads, until no other holds a lock that it needs.
///
/// A shared cache answers at once. In stripes the call tries 64 times, and then others run.
#[inline]
fn until_free(mut call: impl FnMut() -> u32) -> u32 {
    loop {
        match call() {
            ffi::BUSY => std::thread::yield_now(),
            code => return code,
        }
    }
}

/// The keys of some marks, one behind the other, and the marks with where theirs lie.
fn flat(marks: &[Mark<'_>]) -> Result<Flat<ffi::Mark>, Error> {
    let part = |mark: &Mark<'_>, at: ffi::Span| {
        let ffi::Span { from_at, from_len, to_at, to_len, ends } = at;
        ffi::Mark { from_at, from_len, to_at, to_len, value: mark.value.into(), ends }
    };
    Flat::of(marks, |mark| mark.span, part)
}

/// A timestamp cache, in a store of its own.
///
/// It may go to another thread, and is used by one at a time. There is no copy of it.
// Each call writes to its store, so those that threads use at once lie in different lines of the
// processor's caches, and not beside each other.
#[derive(Debug)]
#[repr(align(128))]
pub struct Cache {
    store: ffi::Store,
    handle: u64,
}

// SAFETY: the library proves of its store that what it owns may go to another thread, and each
// call takes `&mut self`.
unsafe impl Send for Cache {}

// SAFETY, of each call below: the store began as null and only these calls change it; it is behind
// `&mut` and so used by one call at a time; it is never copied; each pointer comes from a
// reference or a slice that lives through the call, and what is written to is a local of its own,
// which a call writes as a whole wherever it answers 0.
impl Cache {
    /// A cache to which nothing was added. The call takes the memory of an empty page, however
    /// large pages may grow.
    ///
    /// ```
    /// use tscache::{Cache, Config, Error};
    /// let too_small = Config { page_first: 63, ..Config::default() };
    /// assert_eq!(Cache::open(&too_small).err(), Some(Error::PageSize));
    /// ```
    #[must_use = "the cache forgets its reads where it is dropped"]
    pub fn open(config: &Config) -> Result<Cache, Error> {
        let mut cache = Cache { store: ffi::Store { at: null_mut::<c_void>() }, handle: 0 };
        let Config { page_first, page_max, min_pages, retention, low_water } = *config;
        done(unsafe {
            ffi::tsc_open(
                &mut cache.store,
                page_first,
                page_max,
                min_pages,
                retention,
                &low_water,
                &mut cache.handle,
            )
        })?;
        Ok(cache)
    }

    /// Adds a span that was read, with the time and the owner of the read, at the moment `now`. A
    /// single key that the newest page holds takes no memory. All other keys are copied.
    ///
    /// ```
    /// use tscache::{Cache, Config, Error, Span, Time, Value};
    /// let mut cache = Cache::open(&Config::default())?;
    /// let read = Value { time: Time::new(20, 0), owner: Some([0x11; 16]) };
    /// let added = cache.add(&Span::until(b"a", b"c"), read, Time::new(20, 0))?;
    /// assert!(added.kept && !added.rotated && added.evicted == 0);
    /// # Ok::<(), Error>(())
    /// ```
    #[inline]
    #[must_use = "a read whose Add is refused may not be answered"]
    pub fn add(&mut self, span: &Span<'_>, value: Value, now: Time) -> Result<Added, Error> {
        let (from, to, ends) = span.parts();
        let mut added = MaybeUninit::<ffi::Added>::uninit();
        done(unsafe {
            ffi::tsc_add(
                &mut self.store,
                self.handle,
                from.as_ptr(),
                from.len(),
                to.as_ptr(),
                to.len(),
                ends,
                &value.into(),
                &now,
                added.as_mut_ptr(),
            )
        })?;
        Ok(unsafe { added.assume_init() }.into())
    }

    /// Adds several marks, one after another at one moment, all of them or none. The keys are
    /// copied twice: here into one piece, and then by the library. What the marks change of the
    /// newest page is copied too.
    ///
    /// ```
    /// use tscache::{Cache, Config, Error, Mark, Span, Time, Value};
    /// let mut cache = Cache::open(&Config::default())?;
    /// let value = Value { time: Time::new(20, 0), owner: None };
    /// let spans = [Span::Point(b"a"), Span::until(b"c", b"b")];
    /// let marks = spans.map(|span| Mark { span, value });
    /// assert_eq!(cache.add_all(&marks, Time::new(20, 0)), Err(Error::Inverted));
    /// assert_eq!(cache.get_max(&Span::Point(b"a")).time, Time::new(0, 0));
    /// assert!(cache.add_all(&marks[..1], Time::new(20, 0))?.kept);
    /// assert_eq!(cache.get_max(&Span::Point(b"a")), value);
    /// # Ok::<(), Error>(())
    /// ```
    #[must_use = "reads whose Add is refused may not be answered"]
    pub fn add_all(&mut self, marks: &[Mark<'_>], now: Time) -> Result<Added, Error> {
        let Flat { keys, parts } = flat(marks)?;
        let mut added = MaybeUninit::<ffi::Added>::uninit();
        done(unsafe {
            ffi::tsc_add_all(
                &mut self.store,
                self.handle,
                keys.as_ptr(),
                keys.len(),
                parts.as_ptr(),
                parts.len(),
                &now,
                added.as_mut_ptr(),
            )
        })?;
        Ok(unsafe { added.assume_init() }.into())
    }

    /// The latest time on a span, with its owner where all reads of that time are one
    /// transaction's, or the floor. A range whose first key is greater than the second is empty,
    /// and the floor answers. Keys may be of any length, and no memory is taken. The call searches
    /// the pages from the newest on, up to the first whose latest time is below what it has found.
    ///
    /// ```
    /// use tscache::{Cache, Config, Error, Span, Time, Value};
    /// let mut cache = Cache::open(&Config { low_water: Time::new(5, 0), ..Config::default() })?;
    /// let (one, two) = ([0x11; 16], [0x22; 16]);
    /// let read = |owner| Value { time: Time::new(20, 0), owner };
    /// cache.add(&Span::Point(b"a"), read(Some(one)), Time::new(20, 0))?;
    /// assert_eq!(cache.get_max(&Span::Point(b"a")), read(Some(one)));
    /// cache.add(&Span::Point(b"a"), read(Some(two)), Time::new(20, 0))?;
    /// assert_eq!(cache.get_max(&Span::Point(b"a")), read(None));
    /// assert_eq!(cache.get_max(&Span::Point(b"b")).time, Time::new(5, 0));
    /// # Ok::<(), Error>(())
    /// ```
    #[inline]
    #[must_use = "a lookup changes nothing: what it answers is all of it"]
    pub fn get_max(&mut self, span: &Span<'_>) -> Value {
        let (from, to, ends) = span.parts();
        let mut found = MaybeUninit::<ffi::Value>::uninit();
        // it is refused only where the handle names no cache, or there are no such ends
        answered(unsafe {
            ffi::tsc_get_max(
                &mut self.store,
                self.handle,
                from.as_ptr(),
                from.len(),
                to.as_ptr(),
                to.len(),
                ends,
                found.as_mut_ptr(),
            )
        });
        unsafe { found.assume_init() }.into()
    }

    /// Where the floor stands. It makes no search, and takes no memory.
    ///
    /// ```
    /// use tscache::{Cache, Config, Error, Time};
    /// let mut cache = Cache::open(&Config { low_water: Time::new(5, 0), ..Config::default() })?;
    /// assert_eq!(cache.low_water(), Time::new(5, 0));
    /// # Ok::<(), Error>(())
    /// ```
    #[inline]
    #[must_use = "a lookup changes nothing: what it answers is all of it"]
    pub fn low_water(&mut self) -> Time {
        let mut floor = MaybeUninit::uninit();
        // it is refused only where the handle names no cache
        answered(unsafe { ffi::tsc_low_water(&mut self.store, self.handle, floor.as_mut_ptr()) });
        unsafe { floor.assume_init() }
    }

    /// What can be counted. `examples/figures.rs` writes it in the text form of Prometheus. The
    /// call costs a step for each page, and for `memory` one for each 1 to 64 end keys. It takes
    /// no memory.
    ///
    /// ```
    /// use tscache::{Cache, Config, Error, Span, Time, Value};
    /// let mut cache = Cache::open(&Config::default())?;
    /// let read = Value { time: Time::new(20, 0), owner: None };
    /// cache.add(&Span::until(b"a", b"c"), read, Time::new(20, 0))?;
    /// let refused = cache.add(&Span::until(b"c", b"a"), read, Time::new(20, 0));
    /// assert_eq!(refused, Err(Error::Inverted));
    /// let figures = cache.figures();
    /// assert_eq!((figures.pages, figures.nodes, figures.bytes), (1, 2, 66));
    /// assert!(figures.memory > figures.bytes);
    /// assert_eq!((figures.adds, figures.refusals, figures.lookups), (1, 1, 0));
    /// # Ok::<(), Error>(())
    /// ```
    #[inline]
    #[must_use = "counting changes nothing: what it answers is all of it"]
    pub fn figures(&mut self) -> Figures {
        let mut figures = MaybeUninit::uninit();
        // it is refused only where the handle names no cache
        answered(unsafe {
            ffi::tsc_figures_of(&mut self.store, self.handle, figures.as_mut_ptr())
        });
        unsafe { figures.assume_init() }
    }
}

impl Drop for Cache {
    fn drop(&mut self) {
        unsafe { ffi::tsc_free(&mut self.store) }
    }
}

/// A timestamp cache that threads share, for who opened it. They use it by its [seats](Seat). It is
/// one cache of which there are two copies, or [in stripes](Shared::open_striped).
///
/// ```
/// use tscache::{Config, Shared, Span, Time, Value};
/// let (shared, seats) = Shared::open(&Config::default(), 2, u64::MAX)?;
/// let value = Value { time: Time::new(20, 0), owner: Some([0x11; 16]) };
/// std::thread::scope(|scope| {
///     for mut seat in seats {
///         scope.spawn(move || {
///             let (span, now) = (Span::Point(b"a"), Time::new(20, 0));
///             while seat.add(&span, value, now, 64) == Err(tscache::Error::Busy) {
///                 std::thread::yield_now();
///             }
///             assert_eq!(seat.get_max(&Span::Point(b"a")).0, value);
///         });
///     }
/// });
/// assert_eq!(shared.close().unwrap(), 2);
/// # Ok::<(), tscache::Error>(())
/// ```
#[derive(Debug)]
pub struct Shared {
    store: ffi::Store,
    handle: u64,
}

/// A seat of a [shared](Shared) cache, in a store of its own. It is handed in where it is dropped.
///
/// All Adds of the cache form one history, and a seat has seen a beginning of it. A lookup that
/// returns more Adds than the place of an Add counts that Add, whichever seat made it, and so does
/// each later lookup of its seat.
///
/// No call of a seat waits, but in stripes those that only read: they let other threads run, and
/// try until they have the locks that they need.
///
/// It may go to another thread, and is used by one at a time. There is no copy of it.
// It lies apart as a `Cache` does.
#[derive(Debug)]
#[repr(align(128))]
pub struct Seat {
    store: ffi::Store,
    handle: u64,
}

// SAFETY: as of `Cache`; and stores with seats of one cache may be used at once.
unsafe impl Send for Shared {}

// SAFETY: as of `Shared`.
unsafe impl Send for Seat {}

impl Shared {
    /// A cache to which nothing was added, and its seats, 1 to 64 of them. There may be `limit`
    /// Adds: take `u64::MAX`, which is never reached, since a smaller limit is for tests. The call
    /// takes the memory of two empty caches, and some for each seat.
    ///
    /// ```
    /// use tscache::{Config, Error, Shared};
    /// let (_shared, seats) = Shared::open(&Config::default(), 8, u64::MAX)?;
    /// assert_eq!(seats.len(), 8);
    /// assert_eq!(Shared::open(&Config::default(), 65, u64::MAX).err(), Some(Error::Seats));
    /// # Ok::<(), Error>(())
    /// ```
    #[must_use = "the cache forgets its reads where all of its seats are dropped"]
    pub fn open(config: &Config, seats: u32, limit: u64) -> Result<(Shared, Vec<Seat>), Error> {
        let mut shared = Shared { store: ffi::Store { at: null_mut::<c_void>() }, handle: 0 };
        let Config { page_first, page_max, min_pages, retention, low_water } = *config;
        done(unsafe {
            ffi::tsc_open_shared(
                &mut shared.store,
                page_first,
                page_max,
                min_pages,
                retention,
                &low_water,
                seats,
                limit,
                &mut shared.handle,
            )
        })?;
        let mut all = flat::room(seats as usize)?;
        for i in 1..=u64::from(seats) {
            all.push(shared.seat(i)?);
        }
        Ok((shared, all))
    }

    /// A cache in stripes to which nothing was added, and its seats: 1 or more, as many as there is
    /// memory for.
    ///
    /// Stripe 0 has the keys below the first bound, and each other one those from its bound on,
    /// below the next. Each is a cache of its own, under a lock of its own, so Adds of threads
    /// that call different stripes do not wait for one another. Bounds ascend, and there are at
    /// most 1,023 of them. `page_max` is 8,256 or more, into which each span fits. There may be as
    /// many pages as stripes times those of one cache, and the call takes the memory of as many
    /// empty caches.
    ///
    /// A call of a seat acquires the locks of the stripes that its span touches. An Add is refused
    /// as [`Error::Busy`] as in a shared cache. A lookup and each other call lets other threads run,
    /// and tries again. Nobody counts the Adds of all seats: the place of an Add is that among the
    /// seat's own, and a seat that has seen so many Adds has made so many.
    ///
    /// ```
    /// use tscache::{Config, Error, Shared, Span, Time, Value};
    /// let (shared, mut seats) = Shared::open_striped(&Config::default(), &[b"g", b"p"], 2)?;
    /// let read = Value { time: Time::new(20, 0), owner: Some([0x11; 16]) };
    /// let (place, added) = seats[0].add(&Span::until(b"a", b"k"), read, Time::new(20, 0), 64)?;
    /// assert!(place == 0 && added.kept);
    /// assert_eq!(seats[1].get_max(&Span::Point(b"h")), (read, 0));
    /// drop(seats);
    /// assert_eq!(shared.close().expect("no seat is out"), 1);
    /// let out_of_order = Shared::open_striped(&Config::default(), &[b"p", b"g"], 2);
    /// assert_eq!(out_of_order.err(), Some(Error::Bounds));
    /// # Ok::<(), Error>(())
    /// ```
    #[must_use = "the cache forgets its reads where all of its seats are dropped"]
    pub fn open_striped(
        config: &Config,
        bounds: &[&[u8]],
        seats: u32,
    ) -> Result<(Shared, Vec<Seat>), Error> {
        let mut shared = Shared { store: ffi::Store { at: null_mut::<c_void>() }, handle: 0 };
        let Config { page_first, page_max, min_pages, retention, low_water } = *config;
        let mut keys =
            flat::room(bounds.iter().fold(0, |sum, bound| bound.len().saturating_add(sum)))?;
        let mut lens = flat::room(bounds.len())?;
        for bound in bounds {
            keys.extend_from_slice(bound);
            lens.push(bound.len());
        }
        done(unsafe {
            ffi::tsc_open_striped(
                &mut shared.store,
                page_first,
                page_max,
                min_pages,
                retention,
                &low_water,
                keys.as_ptr(),
                keys.len(),
                lens.as_ptr(),
                lens.len(),
                seats,
                &mut shared.handle,
            )
        })?;
        let mut all = flat::room(seats as usize)?;
        for i in 1..=u64::from(seats) {
            all.push(shared.seat(i)?);
        }
        Ok((shared, all))
    }

    fn seat(&mut self, i: u64) -> Result<Seat, Error> {
        let mut seat = Seat { store: ffi::Store { at: null_mut::<c_void>() }, handle: 0 };
        done(unsafe {
            ffi::tsc_move(&mut self.store, self.handle + i, &mut seat.store, &mut seat.handle)
        })?;
        Ok(seat)
    }

    /// How many Adds there were, once each seat was dropped. Where one wasn't, the cache is handed
    /// back. The call takes no memory, does not wait, and costs a few steps for each seat.
    ///
    /// ```
    /// use tscache::{Config, Error, Shared};
    /// let (shared, seats) = Shared::open(&Config::default(), 2, u64::MAX)?;
    /// let shared = shared.close().expect_err("two seats are out");
    /// drop(seats);
    /// assert_eq!(shared.close().expect("none is out"), 0);
    /// # Ok::<(), Error>(())
    /// ```
    #[must_use = "where a seat is out the cache is handed back, and not closed"]
    pub fn close(mut self) -> Result<u64, Shared> {
        let mut length = 0;
        match unsafe { ffi::tsc_close_shared(&mut self.store, self.handle, &mut length) } {
            0 => Ok(length),
            _ => Err(self),
        }
    }
}

impl Drop for Shared {
    fn drop(&mut self) {
        unsafe { ffi::tsc_free(&mut self.store) }
    }
}

// SAFETY, of each call below: as of those of `Cache`.
impl Seat {
    /// Adds a span that was read, and returns the Add's place among all of the cache, counted from
    /// 0. It waits for nobody: if others are in the way at each of its tries, it is refused as
    /// [`Error::Busy`]. Take 64 tries; if it is refused, call `std::thread::yield_now` and try
    /// again. Without any try it is refused as [`Error::Tries`].
    ///
    /// The call copies the keys, also known ones. Each Add of a shared cache is made on both
    /// copies. Between two tries the call pauses for a moment, and leaves the processor to nobody.
    ///
    /// ```
    /// use tscache::{Config, Error, Shared, Span, Time, Value};
    /// let (_shared, mut seats) = Shared::open(&Config::default(), 2, u64::MAX)?;
    /// let read = Value { time: Time::new(20, 0), owner: Some([0x11; 16]) };
    /// let (place, added) = loop {
    ///     match seats[0].add(&Span::Point(b"a"), read, Time::new(20, 0), 64) {
    ///         Err(Error::Busy) => std::thread::yield_now(),
    ///         told => break told?,
    ///     }
    /// };
    /// assert!(place == 0 && added.kept);
    /// # Ok::<(), Error>(())
    /// ```
    #[inline]
    #[must_use = "a read whose Add is refused may not be answered"]
    pub fn add(
        &mut self,
        span: &Span<'_>,
        value: Value,
        now: Time,
        tries: u32,
    ) -> Result<(u64, Added), Error> {
        let (from, to, ends) = span.parts();
        let (mut place, mut added) = (0, MaybeUninit::<ffi::Added>::uninit());
        done(unsafe {
            ffi::tsc_seat_add(
                &mut self.store,
                self.handle,
                from.as_ptr(),
                from.len(),
                to.as_ptr(),
                to.len(),
                ends,
                &value.into(),
                &now,
                tries,
                &mut place,
                added.as_mut_ptr(),
            )
        })?;
        Ok((place, unsafe { added.assume_init() }.into()))
    }

    /// Adds several marks as one Add, all of them or none, as [`add`](Seat::add) does. The keys
    /// are copied as by [`Cache::add_all`], and once more, in stripes twice. In several stripes
    /// the Add is prepared anew at each try.
    ///
    /// ```
    /// use tscache::{Config, Error, Mark, Shared, Span, Time, Value};
    /// let (shared, mut seats) = Shared::open(&Config::default(), 2, u64::MAX)?;
    /// let value = Value { time: Time::new(20, 0), owner: Some([0x11; 16]) };
    /// let spans = [Span::Point(b"a"), Span::until(b"c", b"e")];
    /// let marks = spans.map(|span| Mark { span, value });
    /// let (place, added) = seats[0].add_all(&marks, Time::new(20, 0), 64)?;
    /// assert!(place == 0 && added.kept);
    /// drop(seats);
    /// assert_eq!(shared.close().expect("no seat is out"), 1);
    /// # Ok::<(), Error>(())
    /// ```
    #[must_use = "reads whose Add is refused may not be answered"]
    pub fn add_all(
        &mut self,
        marks: &[Mark<'_>],
        now: Time,
        tries: u32,
    ) -> Result<(u64, Added), Error> {
        let Flat { keys, parts } = flat(marks)?;
        let (mut place, mut added) = (0, MaybeUninit::<ffi::Added>::uninit());
        done(unsafe {
            ffi::tsc_seat_add_all(
                &mut self.store,
                self.handle,
                keys.as_ptr(),
                keys.len(),
                parts.as_ptr(),
                parts.len(),
                &now,
                tries,
                &mut place,
                added.as_mut_ptr(),
            )
        })?;
        Ok((place, unsafe { added.assume_init() }.into()))
    }

    /// The latest time on a span, as [`Cache::get_max`] answers, and how many Adds the seat has
    /// seen then. It waits for nobody; in stripes it tries until it has the locks that it needs.
    ///
    /// ```
    /// use tscache::{Config, Error, Shared, Span, Time, Value};
    /// let (_shared, mut seats) = Shared::open(&Config::default(), 2, u64::MAX)?;
    /// let read = Value { time: Time::new(20, 0), owner: Some([0x11; 16]) };
    /// let (place, _) = seats[0].add(&Span::Point(b"a"), read, Time::new(20, 0), 64)?;
    /// let (latest, seen) = seats[1].get_max(&Span::Point(b"a"));
    /// assert!(latest == read && seen > place);
    /// # Ok::<(), Error>(())
    /// ```
    #[inline]
    #[must_use = "a lookup changes nothing: what it answers is all of it"]
    pub fn get_max(&mut self, span: &Span<'_>) -> (Value, u64) {
        let (from, to, ends) = span.parts();
        let (mut seen, mut found) = (0, MaybeUninit::<ffi::Value>::uninit());
        // it is refused only where the handle names no seat, or there are no such ends
        answered(until_free(|| unsafe {
            ffi::tsc_seat_get_max(
                &mut self.store,
                self.handle,
                from.as_ptr(),
                from.len(),
                to.as_ptr(),
                to.len(),
                ends,
                &mut seen,
                found.as_mut_ptr(),
            )
        }));
        (unsafe { found.assume_init() }.into(), seen)
    }

    /// Where the floor stands, and how many Adds the seat has seen then. In stripes it is the
    /// earliest floor of all. The call waits as [`get_max`](Seat::get_max) does, and takes no
    /// memory.
    ///
    /// A thread that continues the work of another asks so until its seat has seen the last Add of
    /// that one.
    ///
    /// ```
    /// use tscache::{Config, Error, Shared, Span, Time, Value};
    /// let (_shared, mut seats) = Shared::open(&Config::default(), 2, u64::MAX)?;
    /// let read = Value { time: Time::new(20, 0), owner: None };
    /// let (place, _) = seats[0].add(&Span::Point(b"a"), read, Time::new(20, 0), 64)?;
    /// while seats[1].low_water().1 <= place {
    ///     std::thread::yield_now();
    /// }
    /// # Ok::<(), Error>(())
    /// ```
    #[inline]
    #[must_use = "a lookup changes nothing: what it answers is all of it"]
    pub fn low_water(&mut self) -> (Time, u64) {
        let (mut seen, mut floor) = (0, MaybeUninit::uninit());
        // it is refused only where the handle names no seat
        answered(until_free(|| unsafe {
            ffi::tsc_seat_low_water(&mut self.store, self.handle, &mut seen, floor.as_mut_ptr())
        }));
        (unsafe { floor.assume_init() }, seen)
    }

    /// What can be counted, and how many Adds the seat has seen then. In stripes it is what the
    /// figures of all come to, where one stripe is read after another. The call waits as
    /// [`get_max`](Seat::get_max) does, and costs what [`Cache::figures`] does. In stripes it
    /// takes some memory for each page, and `memory` is 0 where that is refused, or locks are
    /// busy.
    ///
    /// ```
    /// use tscache::{Config, Error, Shared};
    /// let (_shared, mut seats) = Shared::open(&Config::default(), 1, u64::MAX)?;
    /// let (figures, seen) = seats[0].figures();
    /// assert!(figures.pages == 1 && seen == 0);
    /// # Ok::<(), Error>(())
    /// ```
    #[inline]
    #[must_use = "counting changes nothing: what it answers is all of it"]
    pub fn figures(&mut self) -> (Figures, u64) {
        let (mut seen, mut figures) = (0, MaybeUninit::uninit());
        // it is refused only where the handle names no seat
        answered(until_free(|| unsafe {
            ffi::tsc_seat_figures_of(&mut self.store, self.handle, &mut seen, figures.as_mut_ptr())
        }));
        (unsafe { figures.assume_init() }, seen)
    }
}

impl Drop for Seat {
    fn drop(&mut self) {
        unsafe { ffi::tsc_free(&mut self.store) }
    }
}

#[cfg(test)]
mod tests {
    use super::*;

    const ONE: Option<[u8; 16]> = Some([0x11; 16]);
    const TWO: Option<[u8; 16]> = Some([0x22; 16]);

    fn at(wall: u64, owner: Option<[u8; 16]>) -> Value {
        Value { time: Time::new(wall, 0), owner }
    }

    fn small() -> Cache {
        Cache::open(&Config {
            page_first: 132,
            page_max: 132,
            min_pages: 2,
            retention: 10,
            low_water: Time::new(5, 0),
        })
        .unwrap()
    }

    /// The pages, how often they rotated, the nodes and the bytes.
    fn pages(of: Figures) -> (u64, u64, u64, u64) {
        (of.pages, of.rotations, of.nodes, of.bytes)
    }

    /// The Adds, the refusals, the lookups and the pages that were evicted.
    fn calls(of: Figures) -> (u64, u64, u64, u64) {
        (of.adds, of.refusals, of.lookups, of.evicted)
    }

    #[test]
    fn the_default_is_what_it_says() {
        let said = Config {
            page_first: 131_072,
            page_max: 33_554_432,
            min_pages: 2,
            retention: 10_000_000_000,
            low_water: Time::new(0, 0),
        };
        assert_eq!(Config::default(), said);
    }

    #[test]
    fn spans() {
        let mut cache = small();
        let now = Time::new(20, 0);
        let open = Span::Range { from: b"a", to: b"c", exclude_from: true, exclude_to: true };
        assert_eq!(
            cache.add(&open, at(20, ONE), now),
            Ok(Added { kept: true, rotated: false, evicted: 0 })
        );
        assert_eq!(cache.get_max(&Span::Point(b"a")), at(5, None));
        assert_eq!(cache.get_max(&Span::Point(b"b")), at(20, ONE));
        cache.add(&Span::Onward { from: b"b", exclude_from: false }, at(20, TWO), now).unwrap();
        assert_eq!(cache.get_max(&Span::Point(b"b")), at(20, None));
        assert_eq!(cache.get_max(&Span::Onward { from: b"x", exclude_from: true }), at(20, TWO));
        assert_eq!(cache.get_max(&Span::until(b"c", b"a")), at(5, None));
    }

    #[test]
    fn pages_rotate() {
        let mut cache = small();
        for key in [b"a", b"b", b"c", b"d"] {
            assert!(cache.add(&Span::Point(key), at(20, ONE), Time::new(20, 0)).unwrap().kept);
        }
        assert_eq!(
            cache.add(&Span::Point(b"e"), at(20, ONE), Time::new(20, 0)),
            Ok(Added { kept: true, rotated: true, evicted: 0 })
        );
        assert_eq!(pages(cache.figures()), (2, 1, 5, 165));
        for key in [b"f", b"g", b"h"] {
            cache.add(&Span::Point(key), at(41, ONE), Time::new(40, 0)).unwrap();
        }
        assert_eq!(
            cache.add(&Span::Point(b"i"), at(41, ONE), Time::new(40, 0)),
            Ok(Added { kept: true, rotated: true, evicted: 1 })
        );
        assert_eq!(pages(cache.figures()), (2, 2, 5, 165));
        assert_eq!(cache.low_water(), Time::new(20, 0));
        assert_eq!(cache.get_max(&Span::Point(b"a")), at(20, None));
    }

    /// A cache counts what was asked of it, and what its pages take. Another cache counts its own.
    #[test]
    fn a_cache_counts_its_calls() {
        let (mut cache, mut other) = (small(), small());
        let (key, now) = (Span::Point(b"a"), Time::new(20, 0));
        let marks = [Mark { span: key, value: at(20, ONE) }; 3];
        assert_eq!(calls(cache.figures()), (0, 0, 0, 0));
        cache.add(&key, at(20, ONE), now).unwrap();
        cache.add_all(&marks, now).unwrap();
        let summary = cache.summary(&key, 9).unwrap();
        cache.apply(&summary, now).unwrap();
        assert_eq!(calls(cache.figures()), (3, 0, 0, 0));
        cache.add(&Span::until(b"c", b"a"), at(20, ONE), now).unwrap_err();
        cache.add_all(&marks, Time::new(1 << 63, 0)).unwrap_err();
        cache.apply(&summary[1..], now).unwrap_err();
        assert_eq!(calls(cache.figures()), (3, 3, 0, 0));
        for asked in 1..4 {
            assert_eq!(cache.get_max(&key), at(20, ONE));
            assert_eq!(cache.may_write(&key, now, [9; 16]), Ok(false));
            assert_eq!(cache.earliest_write(&[key], now, [0x11; 16]), Ok(now));
            assert_eq!(calls(cache.figures()), (3, 3, 3 * asked, 0));
        }
        let little = cache.figures().memory;
        for key in 0..40u8 {
            let now = Time::new(100 * u64::from(key), 0);
            cache.add(&Span::Point(&[key; 40]), at(now.wall, ONE), now).unwrap();
        }
        let figures = cache.figures();
        assert_eq!((figures.adds, figures.refusals, figures.lookups), (43, 3, 9));
        assert!(figures.evicted > 0 && figures.evicted == figures.rotations + 1 - figures.pages);
        assert!(little > 0 && figures.memory > little && figures.memory > figures.bytes);
        assert_eq!(calls(other.figures()), (0, 0, 0, 0));
    }

    /// A seat counts what was asked of it, and none of what was asked of others.
    #[test]
    fn a_seat_counts_its_calls() {
        let (_shared, mut seats) = Shared::open(&Config::default(), 3, u64::MAX).unwrap();
        let (key, now) = (Span::Point(b"a"), Time::new(20, 0));
        let marks = [Mark { span: key, value: at(20, ONE) }; 3];
        let told = |seats: &mut [Seat]| -> Vec<_> {
            seats.iter_mut().map(|seat| calls(seat.figures().0)).collect()
        };
        seats[0].add(&key, at(20, ONE), now, 64).unwrap();
        seats[1].add_all(&marks, now, 64).unwrap();
        seats[1].add(&key, at(20, ONE), now, 64).unwrap();
        assert_eq!(told(&mut seats), [(1, 0, 0, 0), (2, 0, 0, 0), (0, 0, 0, 0)]);
        seats[0].add(&key, at(20, ONE), now, 0).unwrap_err();
        seats[0].add_all(&marks, Time::new(1 << 63, 0), 64).unwrap_err();
        assert_eq!(seats[2].get_max(&key), (at(20, ONE), 3));
        assert_eq!(seats[2].may_write_all(&[key, key], now, [9; 16]), Ok(false));
        assert_eq!(seats[2].earliest_write(&[key], now, [0x11; 16]), Ok(now));
        assert_eq!(told(&mut seats), [(1, 2, 0, 0), (2, 0, 0, 0), (0, 0, 3, 0)]);
        assert!(seats.iter_mut().all(|seat| seat.figures().0.memory > 0));
    }

    #[test]
    fn refusals() {
        let mut cache = small();
        let now = Time::new(20, 0);
        assert_eq!(cache.add(&Span::Point(&[0; 4097]), at(20, ONE), now), Err(Error::KeyTooLong));
        assert_eq!(cache.get_max(&Span::until(&[0; 4097], b"b")), at(5, None));
        assert_eq!(cache.add(&Span::Point(&[0; 101]), at(20, ONE), now), Err(Error::TooLarge));
        assert_eq!(cache.add(&Span::until(b"c", b"a"), at(20, ONE), now), Err(Error::Inverted));
        assert_eq!(cache.add(&Span::Point(b"a"), at(1 << 63, ONE), now), Err(Error::Time));
        assert_eq!(
            cache.add(&Span::Point(b"a"), at(20, ONE), Time::new(0, 1 << 31)),
            Err(Error::Time)
        );
        assert_eq!(
            Cache::open(&Config { min_pages: 0, ..Config::default() }).err(),
            Some(Error::MinPages)
        );
        assert_eq!(
            Cache::open(&Config { retention: 1 << 63, ..Config::default() }).err(),
            Some(Error::Retention)
        );
        assert_eq!(pages(cache.figures()), (1, 0, 0, 0));
    }

    #[test]
    fn a_logical_count_goes_in_and_comes_out() {
        let time = |wall| Time::new(wall, 3);
        let config = Config { low_water: time(5), ..Config::default() };
        let value = Value { time: time(20), owner: ONE };
        let mut cache = Cache::open(&config).unwrap();
        assert!(cache.add(&Span::Point(b"a"), value, time(20)).unwrap().kept);
        assert_eq!((cache.get_max(&Span::Point(b"a")), cache.low_water()), (value, time(5)));
        let (_shared, mut seats) = Shared::open(&config, 1, 2).unwrap();
        for place in 0..2 {
            assert_eq!(
                seats[0].add(&Span::Point(b"a"), value, time(20), 1).map(|told| told.0),
                Ok(place)
            );
        }
        assert_eq!(
            (seats[0].get_max(&Span::Point(b"a")), seats[0].low_water()),
            ((value, 2), (time(5), 2))
        );
    }

    #[test]
    fn defaults_and_texts() {
        let config = Config {
            page_first: 131_072,
            page_max: 33_554_432,
            min_pages: 2,
            retention: 10_000_000_000,
            low_water: Time::new(0, 0),
        };
        assert_eq!(Config::default(), config);
        let faults = [
            Error::Time,
            Error::KeyTooLong,
            Error::Inverted,
            Error::TooLarge,
            Error::PageSize,
            Error::MinPages,
        ];
        let texts = [
            "a time is out of range",
            "a key is too long",
            "the range is inverted",
            "the span is too large for a page",
        ];
        assert_eq!(faults.map(|why| why.to_string())[..4], texts);
        assert_eq!(
            faults[4].to_string(),
            "page_first is 64 to page_max, and page_max at most 2^30, in stripes at least 8256"
        );
        assert_eq!(faults[5].to_string(), "min_pages is 1 to 64");
        let faults = [Error::NoMemory, Error::Seats, Error::Busy, Error::Full, Error::Other(99)];
        let texts = [
            "out of memory",
            "seats are 1 or more, and of a shared cache at most 64",
            "others were in the way",
            "there are as many Adds as there may be",
            "code 99 of the library",
        ];
        assert_eq!(faults.map(|why| why.to_string()), texts);
        assert_eq!(Error::Retention.to_string(), "retention is at most 2^63 - 1 nanoseconds");
    }

    #[test]
    fn goes_to_another_thread() {
        let mut cache = small();
        cache.add(&Span::Point(b"a"), at(20, ONE), Time::new(20, 0)).unwrap();
        let mut cache = std::thread::spawn(move || {
            cache.add(&Span::Point(b"b"), at(21, TWO), Time::new(21, 0)).unwrap();
            cache
        })
        .join()
        .unwrap();
        assert_eq!(cache.get_max(&Span::until(b"a", b"z")), at(21, TWO));
    }

    #[test]
    fn threads_share() {
        let (shared, seats) = Shared::open(&Config::default(), 4, 1000).unwrap();
        let shared = shared.close().unwrap_err();
        let accepted: u64 = std::thread::scope(|scope| {
            let all: Vec<_> = seats
                .into_iter()
                .map(|mut seat| {
                    scope.spawn(move || {
                        let mut accepted = 0;
                        for wall in 20..120 {
                            let value = at(wall, ONE);
                            match seat.add(&Span::Point(b"a"), value, Time::new(20, 0), 8) {
                                Ok((_, added)) => {
                                    assert!(added.kept);
                                    accepted += 1;
                                    assert!(seat.get_max(&Span::Point(b"a")).0.time >= value.time);
                                }
                                Err(why) => assert_eq!(why, Error::Busy),
                            }
                        }
                        assert!(seat.low_water().1 >= accepted);
                        accepted
                    })
                })
                .collect();
            all.into_iter().map(|thread| thread.join().unwrap()).sum()
        });
        assert_eq!(shared.close().unwrap(), accepted);
    }

    /// Threads whose Adds lie in stripes of their own, and one that looks up all stripes, which
    /// never tells a time that sinks, nor half of a batch.
    #[test]
    fn threads_share_stripes() {
        const ADDS: u64 = 2_000;
        let bounds: [&[u8]; 3] = [b"b", b"c", b"d"];
        let (shared, mut seats) = Shared::open_striped(&Config::default(), &bounds, 5).unwrap();
        let shared = shared.close().unwrap_err();
        let mut reader = seats.pop().unwrap();
        std::thread::scope(|scope| {
            for (i, mut seat) in seats.into_iter().enumerate() {
                scope.spawn(move || {
                    let (own, other) = ([b'a' + i as u8], [b'a' + (i as u8 + 1) % 4, b'x']);
                    for wall in 20..20 + ADDS {
                        let value = at(wall, ONE);
                        let spans = [Span::Point(&own), Span::Point(&other)];
                        let marks = spans.map(|span| Mark { span, value });
                        let told = loop {
                            match seat.add_all(&marks, Time::new(20, 0), 8) {
                                Err(Error::Busy) => std::thread::yield_now(),
                                told => break told.unwrap(),
                            }
                        };
                        assert!(told.0 == wall - 20 && told.1.kept);
                        assert_eq!(seat.get_max(&spans[0]), (value, wall - 19));
                    }
                });
            }
            let mut last = Time::default();
            while last < Time::new(19 + ADDS, 0) {
                let (latest, seen) = reader.get_max(&Span::until(b"a", b"e"));
                assert!(latest.time >= last && seen == 0);
                let either = Span::until(b"a", b"b");
                assert!(reader.earliest_write(&[either], last, [9; 16]).is_ok());
                last = latest.time;
            }
        });
        for (i, key) in [b"a", b"b", b"c", b"d"].into_iter().enumerate() {
            let other = [b'a' + (i as u8 + 1) % 4, b'x'];
            let last = Time::new(19 + ADDS, 0);
            assert_eq!(reader.get_max(&Span::Point(key)).0.time, last);
            assert_eq!(reader.get_max(&Span::Point(&other)).0.time, last);
        }
        let (figures, seen) = reader.figures();
        assert!(figures.pages == 4 && figures.nodes == 8 && figures.memory > 0 && seen == 0);
        assert_eq!(reader.low_water(), (Time::default(), 0));
        drop(reader);
        assert_eq!(shared.close().unwrap(), 4 * ADDS);
    }

    /// What a seat in stripes tells of reads, a cache takes over: each stripe at its own floor.
    #[test]
    fn a_lease_goes_on_from_stripes() {
        let config = Config {
            page_first: 132,
            page_max: 8256,
            min_pages: 1,
            retention: 10,
            low_water: Time::new(5, 0),
        };
        let (_shared, mut seats) = Shared::open_striped(&config, &[b"g", b"p"], 2).unwrap();
        for (wall, key) in (20..).zip(b"ABCDEFGHIJKLMNOPQRSTUVWXYZ".chunks(1)) {
            seats[0].add(&Span::Point(key), at(wall, ONE), Time::new(2 * wall, 0), 64).unwrap();
        }
        seats[1].add(&Span::until(b"k", b"q"), at(9, TWO), Time::new(60, 0), 64).unwrap();
        let whole = Span::Onward { from: b"", exclude_from: false };
        let (summary, seen) = seats[1].summary(&whole, usize::MAX).unwrap();
        assert_eq!(seen, 1);
        let mut next = Cache::open(&Config::default()).unwrap();
        next.apply(&summary, Time::new(60, 0)).unwrap();
        let mut floors = Vec::new();
        for key in [b"A", b"M", b"Z", b"a", b"g", b"k", b"p", b"q", b"z"] {
            let span = Span::Point(key);
            assert_eq!(next.get_max(&span), seats[0].get_max(&span).0, "{key:?}");
            floors.push(next.get_max(&span).time.wall);
        }
        assert!(floors[3] > 5 && floors[4..] == [5, 9, 9, 5, 5], "{floors:?}");
        let (short, _) = seats[1].summary(&whole, 0).unwrap();
        assert!(short.len() < summary.len());
        next.apply(&short, Time::new(60, 0)).unwrap();
        assert_eq!(next.get_max(&Span::Point(b"z")).time, Time::new(9, 0));
        let (part, _) = seats[0].summary(&Span::until(b"h", b"j"), usize::MAX).unwrap();
        assert_eq!(part.len(), 74);
        let inverted = seats[0].summary(&Span::until(b"j", b"h"), 9);
        assert_eq!(inverted, Err(Error::Inverted));
    }

    /// Bounds that are refused, by name.
    #[test]
    fn bounds_of_stripes() {
        let config = Config::default();
        let open = |bounds: &[&[u8]], seats| Shared::open_striped(&config, bounds, seats).err();
        assert_eq!(open(&[], 0), Some(Error::Seats));
        assert_eq!(open(&[b"b", b"a"], 1), Some(Error::Bounds));
        assert_eq!(open(&[b""], 1), Some(Error::Bounds));
        assert_eq!(open(&[b"a", &[b'b'; 4097]], 1), Some(Error::KeyTooLong));
        let small = Config { page_first: 64, page_max: 8255, ..config };
        assert_eq!(Shared::open_striped(&small, &[], 1).err(), Some(Error::PageSize));
        let keys: Vec<_> = (1..=1024u16).map(u16::to_be_bytes).collect();
        let keys: Vec<_> = keys.iter().map(|key| &key[..]).collect();
        assert_eq!(open(&keys, 1), Some(Error::Stripes));
        let small = Config { page_first: 64, ..config };
        let (shared, mut seats) = Shared::open_striped(&small, &keys[1..], 100).unwrap();
        assert_eq!((seats.len(), seats[99].figures().0.pages), (100, 1024));
        drop(seats);
        assert_eq!(shared.close().unwrap(), 0);
    }

    /// Each code of `tscache.h` is one error, with a text of its own.
    #[test]
    fn codes() {
        let rows = [
            (2, Error::Time),
            (4, Error::KeyTooLong),
            (5, Error::Inverted),
            (6, Error::TooLarge),
            (8, Error::PageSize),
            (9, Error::MinPages),
            (10, Error::Retention),
            (11, Error::NoMemory),
            (12, Error::Seats),
            (14, Error::Busy),
            (15, Error::Full),
            (18, Error::NoTime),
            (19, Error::SummaryVersion),
            (20, Error::SummaryLength),
            (21, Error::SummaryChecksum),
            (22, Error::SummaryForm),
            (23, Error::Tries),
            (24, Error::Stripes),
            (25, Error::Bounds),
            (1, Error::Other(1)),
            (13, Error::Other(13)),
            (99, Error::Other(99)),
        ];
        for (code, wanted) in rows {
            assert_eq!(done(code), Err(wanted));
            let alike = rows.iter().filter(|(_, other)| other.to_string() == wanted.to_string());
            assert_eq!(alike.count(), 1, "{wanted}");
        }
        assert_eq!(done(0), Ok(()));
    }

    /// None is refused; one that was would tell a time below which any write passes.
    #[test]
    #[should_panic(expected = "a call that only reads was refused")]
    fn a_lookup_that_is_refused_is_not_passed_over() {
        answered(0);
        answered(1);
    }

    /// What threads use at once lies apart.
    /// Each of the sixteen bytes of a transaction goes in and comes out at its own place.
    #[test]
    fn a_transaction_keeps_its_bytes() {
        let one: [u8; 16] = std::array::from_fn(|i| i as u8 * 0x11);
        let (key, time) = (Span::Point(b"a"), Time::new(20, 0));
        let value = Value { time, owner: Some(one) };
        let marks = [Mark { span: Span::Point(b"b"), value }];
        let mut cache = Cache::open(&Config::default()).unwrap();
        let (_shared, mut seats) = Shared::open(&Config::default(), 1, 9).unwrap();
        let seat = &mut seats[0];
        cache.add(&key, value, time).unwrap();
        cache.add_all(&marks, time).unwrap();
        seat.add(&key, value, time, 64).unwrap();
        seat.add_all(&marks, time, 64).unwrap();
        for span in [key, marks[0].span] {
            assert_eq!((cache.get_max(&span), seat.get_max(&span).0), (value, value));
            assert_eq!(cache.may_write(&span, time, one), Ok(true));
            assert_eq!(seat.may_write(&span, time, one), Ok(true));
            for i in 0..16 {
                let mut other = one;
                other[i] ^= 1;
                let later = Ok(Time::new(20, 1));
                assert_eq!(cache.may_write(&span, time, other), Ok(false), "{i}");
                assert_eq!(seat.may_write(&span, time, other), Ok(false), "{i}");
                assert_eq!(cache.earliest_write(&[span], time, other), later, "{i}");
                assert_eq!(seat.earliest_write(&[span], time, other), later, "{i}");
            }
        }
    }

    /// No Add is refused as busy that tries so often as no other can be in its way.
    #[test]
    fn an_add_tries_as_often_as_it_is_told() {
        let (_shared, seats) = Shared::open(&Config::default(), 4, u64::MAX).unwrap();
        std::thread::scope(|scope| {
            for mut seat in seats {
                scope.spawn(move || {
                    let (value, now) = (at(20, ONE), Time::new(20, 0));
                    let marks = [Mark { span: Span::Point(b"b"), value }];
                    for _ in 0..2_000 {
                        seat.add(&Span::Point(b"a"), value, now, u32::MAX).unwrap();
                        seat.add_all(&marks, now, u32::MAX).unwrap();
                    }
                });
            }
        });
    }

    #[test]
    fn a_lookup_that_is_refused_ends_the_program() {
        for code in 1..256 {
            assert!(std::panic::catch_unwind(|| answered(code)).is_err(), "{code}");
        }
        answered(0);
    }

    #[test]
    fn seats_lie_apart() {
        assert!(std::mem::align_of::<Cache>() >= 128 && std::mem::align_of::<Seat>() >= 128);
        let (_shared, seats) = Shared::open(&Config::default(), 64, 9).unwrap();
        let at: Vec<_> = seats.iter().map(|seat| seat as *const Seat as usize).collect();
        assert!(at.windows(2).all(|two| two[0] % 128 == 0 && two[1] - two[0] >= 128));
    }

    #[test]
    fn seats() {
        assert_eq!(Shared::open(&Config::default(), 65, 9).err(), Some(Error::Seats));
        assert_eq!(Shared::open(&Config::default(), u32::MAX, 9).err(), Some(Error::Seats));
        let (shared, mut seats) = Shared::open(&Config::default(), 2, 1).unwrap();
        let now = Time::new(20, 0);
        assert_eq!(seats[0].add(&Span::Point(b"a"), at(20, ONE), now, 0), Err(Error::Tries));
        assert_eq!(seats[0].add_all(&[], now, 0), Err(Error::Tries));
        let marks = [
            Mark { span: Span::Point(b"a"), value: at(20, ONE) },
            Mark { span: Span::Point(b"b"), value: at(21, TWO) },
        ];
        assert_eq!(
            seats[0].add_all(&marks, now, 1),
            Ok((0, Added { kept: true, rotated: false, evicted: 0 }))
        );
        assert_eq!(seats[1].get_max(&Span::until(b"a", &[b'z'; 5000])), (at(21, TWO), 1));
        let (figures, seen) = seats[1].figures();
        assert_eq!((pages(figures), seen), ((1, 0, 2, 66), 1));
        assert_eq!(seats[1].add(&Span::Point(b"a"), at(20, ONE), now, 1), Err(Error::Full));
        drop(seats);
        assert_eq!(shared.close().unwrap(), 1);
    }
}
