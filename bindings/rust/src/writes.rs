//! When a write is clear of reads: the same calls as those of the crate `timestamp_cache`.
use crate::flat::{lying, Flat};
use crate::{done, ffi, until_free, Cache, Error, Seat, Span, Time};

const MOST_WALL: u64 = i64::MAX as u64;
const MOST_LOGICAL: u32 = i32::MAX as u32;

impl Time {
    /// The first time after this one, or `None` after the last.
    ///
    /// ```
    /// use tscache::Time;
    /// assert_eq!(Time::new(20, 0).next(), Some(Time::new(20, 1)));
    /// assert_eq!(Time::new(20, i32::MAX as u32).next(), Some(Time::new(21, 0)));
    /// assert_eq!(Time::new(i64::MAX as u64, i32::MAX as u32).next(), None);
    /// ```
    #[inline]
    #[must_use = "the time itself stays as it is"]
    pub const fn next(self) -> Option<Time> {
        if self.logical < MOST_LOGICAL {
            Some(Time::new(self.wall, self.logical + 1))
        } else if self.wall < MOST_WALL {
            Some(Time::new(self.wall + 1, 0))
        } else {
            None
        }
    }
}

/// Asks with the keys of some spans in one piece. Those of one span whose second key has no bytes
/// are handed over where they lie.
#[inline]
fn ask(spans: &[Span<'_>], call: impl FnOnce(&[u8], &[ffi::Span]) -> u32) -> Result<(), Error> {
    if let [span] = spans {
        let (from, to, ends) = span.parts();
        if to.is_empty() {
            return done(call(from, &[lying(0, from, to, ends)]));
        }
    }
    let Flat { keys, parts } = Flat::of(spans, |span| *span, |_, at| at)?;
    done(call(&keys, &parts))
}

/// When a write is wanted, and by whom.
#[inline]
fn written(at: Time, by: [u8; 16]) -> ffi::Value {
    ffi::Value { wall: at.wall, logical: at.logical, owner: by }
}

impl Cache {
    /// Whether a transaction may write a span at some time: whether that is clear of what a lookup
    /// of the span answers, and so of each read that was added there, also of one that was dropped
    /// since.
    ///
    /// It costs a lookup, and is refused as [`earliest_write`](Cache::earliest_write) is, but
    /// never with [`Error::NoTime`]: no write may be made then, and that is no refusal.
    ///
    /// ```
    /// use tscache::{Cache, Config, Error, Span, Time, Value};
    /// let mut cache = Cache::open(&Config::default())?;
    /// let (reader, writer, at) = ([0x11; 16], [0x22; 16], Time::new(20, 0));
    /// cache.add(&Span::Point(b"b"), Value { time: at, owner: Some(reader) }, at)?;
    /// assert!(cache.may_write(&Span::Point(b"b"), at, reader)?);
    /// assert!(!cache.may_write(&Span::Point(b"b"), at, writer)?);
    /// let too_late = Time::new(1 << 63, 0);
    /// assert_eq!(cache.may_write(&Span::Point(b"b"), too_late, writer), Err(Error::Time));
    /// # Ok::<(), Error>(())
    /// ```
    #[inline]
    #[must_use = "a write may be made only where this says so"]
    pub fn may_write(&mut self, span: &Span<'_>, at: Time, by: [u8; 16]) -> Result<bool, Error> {
        self.may_write_all(std::slice::from_ref(span), at, by)
    }

    /// Whether a transaction may write all of these spans at some time, by the rule of
    /// [`may_write`](Cache::may_write). It is so just where
    /// [`earliest_write`](Cache::earliest_write) tells that very time. It costs what that does.
    ///
    /// ```
    /// # use tscache::{Cache, Config, Error, Span, Time, Value};
    /// # let mut cache = Cache::open(&Config::default())?;
    /// # let (writer, at) = ([0x22; 16], Time::new(20, 0));
    /// cache.add(&Span::Point(b"b"), Value { time: at, owner: None }, at)?;
    /// let spans = [Span::Point(b"a"), Span::Point(b"b")];
    /// assert!(!cache.may_write_all(&spans, at, writer)?);
    /// assert!(cache.may_write_all(&spans, Time::new(20, 1), writer)?);
    /// # Ok::<(), Error>(())
    /// ```
    #[inline]
    #[must_use = "a write may be made only where this says so"]
    pub fn may_write_all(
        &mut self,
        spans: &[Span<'_>],
        at: Time,
        by: [u8; 16],
    ) -> Result<bool, Error> {
        let (write, mut may) = (written(at, by), false);
        // SAFETY: as of the other calls.
        ask(spans, |keys, asked| unsafe {
            ffi::tsc_may_write(
                &mut self.store,
                self.handle,
                keys.as_ptr(),
                keys.len(),
                asked.as_ptr(),
                asked.len(),
                &write,
                &mut may,
            )
        })?;
        Ok(may)
    }

    /// The earliest time, not before `at`, at which a transaction may write all of these spans. It
    /// costs a lookup for each. The keys of a range, or of several spans, are copied into one
    /// piece, which takes memory.
    ///
    /// It is refused with [`Error::NoTime`] where a read of somebody else stands at the last time,
    /// with [`Error::Time`] where `at` is out of range, with [`Error::Inverted`] where a span is
    /// inverted, and with [`Error::NoMemory`] where there is none for the keys of a range, or of
    /// several spans.
    ///
    /// ```
    /// use tscache::{Cache, Config, Error, Span, Time, Value};
    /// let mut cache = Cache::open(&Config::default())?;
    /// let (reader, writer) = ([0x11; 16], [0x22; 16]);
    /// let read = Value { time: Time::new(20, 0), owner: Some(reader) };
    /// cache.add(&Span::until(b"a", b"c"), read, Time::new(20, 0))?;
    /// let wanted = Time::new(15, 0);
    /// let spans = [Span::Point(b"b"), Span::Point(b"z")];
    /// assert_eq!(cache.earliest_write(&spans, wanted, writer)?, Time::new(20, 1));
    /// assert_eq!(cache.earliest_write(&[Span::Point(b"c")], wanted, writer)?, wanted);
    /// # Ok::<(), Error>(())
    /// ```
    #[inline]
    #[must_use = "the write may not be made before the time that this tells"]
    pub fn earliest_write(
        &mut self,
        spans: &[Span<'_>],
        at: Time,
        by: [u8; 16],
    ) -> Result<Time, Error> {
        let (write, mut time) = (written(at, by), at);
        // SAFETY: as of the other calls.
        ask(spans, |keys, asked| unsafe {
            ffi::tsc_earliest_write(
                &mut self.store,
                self.handle,
                keys.as_ptr(),
                keys.len(),
                asked.as_ptr(),
                asked.len(),
                &write,
                &mut time,
            )
        })?;
        Ok(time)
    }
}

impl Seat {
    /// As [`Cache::may_write`], by what a lookup of the seat answers. The call waits as
    /// [`get_max`](Seat::get_max) does.
    ///
    /// ```
    /// use tscache::{Config, Error, Shared, Span, Time, Value};
    /// let (_shared, mut seats) = Shared::open(&Config::default(), 2, u64::MAX)?;
    /// let (key, reader, writer, at) = (Span::Point(b"a"), [0x11; 16], [0x22; 16], Time::new(20, 0));
    /// seats[0].add(&key, Value { time: at, owner: Some(reader) }, at, 64)?;
    /// assert!(seats[1].may_write(&key, at, reader)?);
    /// assert!(!seats[1].may_write(&key, at, writer)?);
    /// # Ok::<(), Error>(())
    /// ```
    #[inline]
    #[must_use = "a write may be made only where this says so"]
    pub fn may_write(&mut self, span: &Span<'_>, at: Time, by: [u8; 16]) -> Result<bool, Error> {
        self.may_write_all(std::slice::from_ref(span), at, by)
    }

    /// As [`Cache::may_write_all`], by what lookups of the seat answer, one after another. The
    /// call waits as [`get_max`](Seat::get_max) does.
    ///
    /// ```
    /// use tscache::{Config, Error, Shared, Span, Time, Value};
    /// let (_shared, mut seats) = Shared::open(&Config::default(), 2, u64::MAX)?;
    /// let (spans, at) = ([Span::Point(b"a"), Span::Point(b"b")], Time::new(20, 0));
    /// seats[0].add(&spans[1], Value { time: at, owner: None }, at, 64)?;
    /// assert!(seats[1].may_write_all(&spans[..1], at, [0x22; 16])?);
    /// assert!(!seats[1].may_write_all(&spans, at, [0x22; 16])?);
    /// # Ok::<(), Error>(())
    /// ```
    #[inline]
    #[must_use = "a write may be made only where this says so"]
    pub fn may_write_all(
        &mut self,
        spans: &[Span<'_>],
        at: Time,
        by: [u8; 16],
    ) -> Result<bool, Error> {
        let (write, mut may, mut seen) = (written(at, by), false, 0);
        // SAFETY: as of the other calls.
        ask(spans, |keys, asked| {
            until_free(|| unsafe {
                ffi::tsc_seat_may_write(
                    &mut self.store,
                    self.handle,
                    keys.as_ptr(),
                    keys.len(),
                    asked.as_ptr(),
                    asked.len(),
                    &write,
                    &mut seen,
                    &mut may,
                )
            })
        })?;
        Ok(may)
    }

    /// As [`Cache::earliest_write`], by what lookups of the seat answer. The call waits as
    /// [`get_max`](Seat::get_max) does.
    ///
    /// ```
    /// use tscache::{Config, Error, Shared, Span, Time, Value};
    /// let (_shared, mut seats) = Shared::open(&Config::default(), 2, u64::MAX)?;
    /// let (writer, at) = ([0x22; 16], Time::new(20, 0));
    /// seats[0].add(&Span::Point(b"a"), Value { time: at, owner: None }, at, 64)?;
    /// let told = seats[1].earliest_write(&[Span::Point(b"a")], at, writer)?;
    /// assert_eq!(told, Time::new(20, 1));
    /// assert!(seats[1].may_write(&Span::Point(b"a"), told, writer)?);
    /// # Ok::<(), Error>(())
    /// ```
    #[inline]
    #[must_use = "the write may not be made before the time that this tells"]
    pub fn earliest_write(
        &mut self,
        spans: &[Span<'_>],
        at: Time,
        by: [u8; 16],
    ) -> Result<Time, Error> {
        let (write, mut time, mut seen) = (written(at, by), at, 0);
        // SAFETY: as of the other calls.
        ask(spans, |keys, asked| {
            until_free(|| unsafe {
                ffi::tsc_seat_earliest_write(
                    &mut self.store,
                    self.handle,
                    keys.as_ptr(),
                    keys.len(),
                    asked.as_ptr(),
                    asked.len(),
                    &write,
                    &mut seen,
                    &mut time,
                )
            })
        })?;
        Ok(time)
    }
}

#[cfg(test)]
mod tests {
    use super::*;
    use crate::{Config, Shared, Value};

    const ONE: [u8; 16] = [0x11; 16];
    const TWO: [u8; 16] = [0x22; 16];
    const LAST: Time = Time::new(MOST_WALL, MOST_LOGICAL);

    /// A read, the time and the transaction of a write, and the earliest time at which that is
    /// clear.
    type Row = ((Time, Option<[u8; 16]>), Time, [u8; 16], Result<Time, Error>);

    #[test]
    fn the_earliest_time_is_clear_and_none_before_it_is() {
        let t = Time::new;
        let rows: [Row; 9] = [
            ((t(20, 0), Some(ONE)), t(20, 1), TWO, Ok(t(20, 1))),
            ((t(20, 0), Some(ONE)), t(20, 0), TWO, Ok(t(20, 1))),
            ((t(20, 0), Some(ONE)), t(20, 0), ONE, Ok(t(20, 0))),
            ((t(20, 0), Some(ONE)), t(15, 3), ONE, Ok(t(20, 0))),
            ((t(20, 0), None), t(20, 0), ONE, Ok(t(20, 1))),
            ((t(20, MOST_LOGICAL), None), t(15, 0), ONE, Ok(t(21, 0))),
            ((LAST, None), t(15, 0), ONE, Err(Error::NoTime)),
            ((LAST, Some(ONE)), t(15, 0), ONE, Ok(LAST)),
            ((t(20, 0), None), t(20, 0), [0; 16], Ok(t(20, 1))),
        ];
        let span = Span::Point(b"a");
        for (row, ((time, owner), at, by, wanted)) in rows.into_iter().enumerate() {
            let mut cache = Cache::open(&Config::default()).unwrap();
            cache.add(&span, Value { time, owner }, t(20, 0)).unwrap();
            let told = cache.earliest_write(&[span], at, by);
            assert_eq!(told, wanted, "row {row}");
            assert_eq!(cache.may_write(&span, at, by), Ok(told == Ok(at)), "row {row}");
            if let Ok(told) = told {
                assert_eq!(cache.may_write(&span, told, by), Ok(true), "row {row}");
            }
        }
    }

    #[test]
    fn the_next_time() {
        let t = Time::new;
        let rows = [
            (t(0, 0), Some(t(0, 1))),
            (t(20, MOST_LOGICAL - 1), Some(t(20, MOST_LOGICAL))),
            (t(20, MOST_LOGICAL), Some(t(21, 0))),
            (t(MOST_WALL - 1, MOST_LOGICAL), Some(t(MOST_WALL, 0))),
            (t(MOST_WALL, MOST_LOGICAL - 1), Some(LAST)),
            (LAST, None),
        ];
        for (time, next) in rows {
            assert_eq!(time.next(), next, "{time:?}");
        }
    }

    #[test]
    fn times_that_are_out_of_range() {
        let (_shared, mut seats) = Shared::open(&Config::default(), 1, 9).unwrap();
        let mut cache = Cache::open(&Config::default()).unwrap();
        for wrong in [Time::new(MOST_WALL + 1, 0), Time::new(20, MOST_LOGICAL + 1)] {
            for spans in [&[Span::Point(b"a")][..], &[]] {
                assert_eq!(cache.may_write_all(spans, wrong, ONE), Err(Error::Time));
                assert_eq!(seats[0].may_write_all(spans, wrong, ONE), Err(Error::Time));
                assert_eq!(cache.earliest_write(spans, wrong, ONE), Err(Error::Time));
                assert_eq!(seats[0].earliest_write(spans, wrong, ONE), Err(Error::Time));
            }
        }
    }

    /// A span that is asked of by itself is asked of as among others, with its ends. After a read
    /// of one key, at 20, it is told whether that key is in each of these spans.
    #[test]
    fn a_span_by_itself() {
        let range =
            |from, to, exclude_from, exclude_to| Span::Range { from, to, exclude_from, exclude_to };
        let onward = |from, exclude_from| Span::Onward { from, exclude_from };
        let rows: [(&[u8], Span<'_>, bool); 14] = [
            (b"a", Span::Point(b"a"), true),
            (b"a", onward(b"a", false), true),
            (b"a", onward(b"a", true), false),
            (b"a", onward(b"", true), true),
            (b"a", onward(b"b", false), false),
            (b"a", range(b"a", b"b", false, false), true),
            (b"a", range(b"a", b"b", true, false), false),
            (b"b", range(b"a", b"b", true, false), true),
            (b"b", range(b"a", b"b", true, true), false),
            (b"", Span::Point(b""), true),
            (b"", onward(b"", false), true),
            (b"", onward(b"", true), false),
            (b"", range(b"", b"", false, false), true),
            (b"", range(b"", b"", true, true), false),
        ];
        let (wanted, at, next) = (Time::new(15, 0), Time::new(20, 0), Time::new(20, 1));
        for (key, span, is_in) in rows {
            let read = Value { time: at, owner: Some(ONE) };
            let mut cache = Cache::open(&Config::default()).unwrap();
            let (_shared, mut seats) = Shared::open(&Config::default(), 1, 9).unwrap();
            cache.add(&Span::Point(key), read, at).unwrap();
            seats[0].add(&Span::Point(key), read, at, 64).unwrap();
            let earliest = Ok(if is_in { next } else { wanted });
            let other = Span::Point(b"other");
            for spans in [&[span][..], &[span, other], &[other, span]] {
                assert_eq!(cache.earliest_write(spans, wanted, TWO), earliest, "{spans:?}");
                assert_eq!(seats[0].earliest_write(spans, wanted, TWO), earliest, "{spans:?}");
                assert_eq!(cache.may_write_all(spans, at, TWO), Ok(!is_in), "{spans:?}");
                assert_eq!(seats[0].may_write_all(spans, at, TWO), Ok(!is_in), "{spans:?}");
            }
            assert_eq!(cache.may_write(&span, at, TWO), Ok(!is_in), "{span:?}");
            assert_eq!(seats[0].may_write(&span, at, TWO), Ok(!is_in), "{span:?}");
        }
    }

    /// A span that has no keys only because its ends were exchanged lets no write pass.
    #[test]
    fn inverted_spans() {
        let (_shared, mut seats) = Shared::open(&Config::default(), 1, 9).unwrap();
        let mut cache = Cache::open(&Config::default()).unwrap();
        let (at, inverted) = (Time::new(20, 0), Span::until(b"b", b"a"));
        let to_no_bytes = Span::until(b"b", b"");
        for spans in [
            &[inverted][..],
            &[to_no_bytes],
            &[Span::Point(b"a"), inverted],
            &[to_no_bytes, Span::Point(b"a")],
        ] {
            assert_eq!(cache.may_write_all(spans, at, ONE), Err(Error::Inverted), "{spans:?}");
            assert_eq!(seats[0].may_write_all(spans, at, ONE), Err(Error::Inverted), "{spans:?}");
            assert_eq!(cache.earliest_write(spans, at, ONE), Err(Error::Inverted), "{spans:?}");
            assert_eq!(seats[0].earliest_write(spans, at, ONE), Err(Error::Inverted), "{spans:?}");
        }
        assert_eq!(cache.may_write(&inverted, at, ONE), Err(Error::Inverted));
        assert_eq!(seats[0].may_write(&inverted, at, ONE), Err(Error::Inverted));
    }

    #[test]
    fn a_seat_asks_as_a_cache_does() {
        let (shared, mut seats) = Shared::open(&Config::default(), 2, 9).unwrap();
        let read = Value { time: Time::new(20, 0), owner: Some(ONE) };
        seats[0].add(&Span::Point(b"a"), read, Time::new(20, 0), 1).unwrap();
        let spans = [Span::Point(b"b"), Span::until(b"a", b"b")];
        let (wanted, at, next) = (Time::new(15, 0), Time::new(20, 0), Time::new(20, 1));
        assert_eq!(seats[1].earliest_write(&spans, wanted, TWO), Ok(next));
        assert_eq!(seats[1].earliest_write(&spans, wanted, ONE), Ok(at));
        let rows = [
            (&spans[1..], at, TWO, false),
            (&spans[1..], at, ONE, true),
            (&spans[..], at, TWO, false),
            (&spans[..], at, ONE, true),
            (&spans[..1], at, TWO, true),
            (&spans[..], next, TWO, true),
        ];
        for (spans, at, by, may) in rows {
            assert_eq!(seats[1].may_write_all(spans, at, by), Ok(may), "{spans:?} {at:?}");
            if let [span] = spans {
                assert_eq!(seats[1].may_write(span, at, by), Ok(may), "{span:?} {at:?}");
            }
        }
        drop(seats);
        assert_eq!(shared.close().unwrap(), 1);
    }
}
