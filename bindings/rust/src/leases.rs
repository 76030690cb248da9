//! What was read of a span, as bytes for the next holder of its lease: the same calls as those of
//! the crate `timestamp_cache`.
use crate::texts::with_room;
use crate::{done, ffi, until_free, Added, Cache, Error, Seat, Span, Time};
use std::mem::MaybeUninit;

impl Cache {
    /// What was read of a span, as bytes to be sent to the next holder of its lease, who calls
    /// [`apply`](Cache::apply) with them. The caller stops answering reads of the span before it
    /// asks.
    ///
    /// At most `most` marks are told, and `usize::MAX` leaves none out. Where there is no room for
    /// a mark its time raises a floor of the summary: later writes are pushed further by it, and
    /// never less far. With `most` of 0 it is such a floor alone.
    ///
    /// The span is refused as one that is to be added, and with [`Error::NoMemory`] where memory
    /// for the bytes was. A shared cache is asked [at a seat](Seat::summary).
    ///
    /// The call costs a lookup for each end key of a read within the span, and for each gap
    /// between two. A summary of more than 4,096 bytes is made twice: at first to learn its
    /// length. Meanwhile the call takes the memory of the marks, and up to some six times that of
    /// the bytes.
    ///
    /// ```
    /// use tscache::{Cache, Config, Error, Span, Time, Value};
    /// let (reader, writer, all) = ([0x11; 16], [0x22; 16], Span::until(b"a", b"z"));
    /// let read = Value { time: Time::new(20, 0), owner: Some(reader) };
    /// let mut former = Cache::open(&Config::default())?;
    /// former.add(&Span::Point(b"b"), read, Time::new(20, 0))?;
    /// let summary = former.summary(&all, usize::MAX)?;
    ///
    /// let mut next = Cache::open(&Config::default())?;
    /// next.apply(&summary, Time::new(30, 0))?;
    /// assert_eq!(next.get_max(&Span::Point(b"b")), read);
    /// assert!(!next.may_write(&Span::Point(b"b"), Time::new(20, 0), writer)?);
    /// # Ok::<(), Error>(())
    /// ```
    #[must_use = "the next holder of the lease goes on from these bytes"]
    pub fn summary(&mut self, span: &Span<'_>, most: usize) -> Result<Vec<u8>, Error> {
        let (from, to, ends) = span.parts();
        // SAFETY: as of the other calls, and the room is a vector's own, of which no one else has a
        // reference
        let (code, bytes) = with_room(|out, len| unsafe {
            ffi::tsc_summary(
                &mut self.store,
                self.handle,
                from.as_ptr(),
                from.len(),
                to.as_ptr(),
                to.len(),
                ends,
                most,
                out.as_mut_ptr(),
                out.len(),
                len,
            )
        })
        .ok_or(Error::NoMemory)?;
        done(code).map(|()| bytes)
    }

    /// Adds what the bytes of a [`summary`](Cache::summary) tell, at the moment `now`: all of it or
    /// nothing. The new holder of a lease does so before it answers its first write of the span.
    /// From then on no answer within the span is earlier than what the former holder's cache
    /// answered there, no answer anywhere has sunk, and reads that were told as marks keep their
    /// owners.
    ///
    /// Bytes of which some are missing or were changed are refused by name, and the cache is as it
    /// was. The digest is no signature: who takes bytes from somebody that may lie has them signed.
    /// Where it is refused the holder asks for the bytes again, or opens a cache with
    /// [`low_water`](crate::Config::low_water) at or above each time at which a read was answered.
    ///
    /// The call goes over the bytes once for their digest. It takes the memory of the marks twice,
    /// and that of what they change of the newest page.
    ///
    /// ```
    /// use tscache::{Cache, Config, Error, Span, Time};
    /// let mut cache = Cache::open(&Config::default())?;
    /// let mut summary = cache.summary(&Span::Point(b"a"), 0)?;
    /// let cut = &summary[..summary.len() - 1];
    /// assert_eq!(cache.apply(cut, Time::new(30, 0)), Err(Error::SummaryLength));
    /// summary[9] ^= 1;
    /// assert_eq!(cache.apply(&summary, Time::new(30, 0)), Err(Error::SummaryChecksum));
    /// # Ok::<(), Error>(())
    /// ```
    #[must_use = "where it is refused no write of the span may be answered"]
    pub fn apply(&mut self, summary: &[u8], now: Time) -> Result<Added, Error> {
        let mut added = MaybeUninit::<ffi::Added>::uninit();
        // SAFETY: as of the other calls
        done(unsafe {
            ffi::tsc_apply(
                &mut self.store,
                self.handle,
                summary.as_ptr(),
                summary.len(),
                &now,
                added.as_mut_ptr(),
            )
        })?;
        Ok(unsafe { added.assume_init() }.into())
    }
}

impl Seat {
    /// What was read of a span of the shared cache, as bytes for the next holder of its lease, and
    /// how many Adds the seat has seen then: what [`Cache::summary`] tells after these. The cache
    /// stays open. The call waits as [`get_max`](Seat::get_max) does, and costs what
    /// [`Cache::summary`] does. An Add meanwhile copies what it changes of the pages.
    ///
    /// The caller has all threads stop answering reads of the span. Then it asks until the seat has
    /// seen the last Add of each of them; in practice it asks once. The next holder
    /// [applies](Cache::apply) the bytes.
    ///
    /// ```
    /// use tscache::{Cache, Config, Error, Shared, Span, Time, Value};
    /// let (_shared, mut seats) = Shared::open(&Config::default(), 2, u64::MAX)?;
    /// let read = Value { time: Time::new(20, 0), owner: Some([0x11; 16]) };
    /// let (last, _) = seats[1].add(&Span::Point(b"b"), read, Time::new(20, 0), 64)?;
    /// let summary = loop {
    ///     let (bytes, seen) = seats[0].summary(&Span::until(b"a", b"z"), usize::MAX)?;
    ///     if seen > last {
    ///         break bytes;
    ///     }
    /// };
    ///
    /// let mut next = Cache::open(&Config::default())?;
    /// next.apply(&summary, Time::new(30, 0))?;
    /// assert_eq!(next.get_max(&Span::Point(b"b")), read);
    /// # Ok::<(), Error>(())
    /// ```
    #[must_use = "the next holder of the lease goes on from these bytes"]
    pub fn summary(&mut self, span: &Span<'_>, most: usize) -> Result<(Vec<u8>, u64), Error> {
        let (from, to, ends) = span.parts();
        let mut seen = 0;
        // SAFETY: as of `Cache::summary`
        let (code, bytes) = with_room(|out, len| {
            until_free(|| unsafe {
                ffi::tsc_seat_summary(
                    &mut self.store,
                    self.handle,
                    from.as_ptr(),
                    from.len(),
                    to.as_ptr(),
                    to.len(),
                    ends,
                    most,
                    &mut seen,
                    out.as_mut_ptr(),
                    out.len(),
                    len,
                )
            })
        })
        .ok_or(Error::NoMemory)?;
        done(code).map(|()| (bytes, seen))
    }
}

#[cfg(test)]
mod tests {
    use super::*;
    use crate::{Config, Shared, Value};

    const NOW: Time = Time::new(50, 0);

    fn cache() -> Cache {
        Cache::open(&Config { low_water: Time::new(5, 0), ..Config::default() }).unwrap()
    }

    /// Summaries of many lengths, below, at and above the room that is asked with first, go to
    /// another cache, which then answers the same.
    #[test]
    fn summaries_of_many_lengths() {
        let all = Span::Onward { from: b"", exclude_from: false };
        let lengths = [0, 1, 92, 93, 94, 5000u16].map(|count| {
            let (mut former, mut next) = (cache(), cache());
            let mut keys: Vec<_> = (0..count).map(|i| i.to_be_bytes().to_vec()).collect();
            if count == 92 {
                keys[91].resize(38, 0);
            }
            for (wall, key) in (20..).zip(&keys) {
                let read = Value { time: Time::new(wall, 0), owner: Some([1; 16]) };
                former.add(&Span::Point(key), read, NOW).unwrap();
            }
            let summary = former.summary(&all, usize::MAX).unwrap();
            assert_eq!(next.apply(&summary, NOW).map(|added| added.kept), Ok(count > 0));
            keys.push(b"z".to_vec());
            for key in &keys {
                let span = Span::Point(key);
                assert_eq!(next.get_max(&span), former.get_max(&span), "{key:?} of {count}");
            }
            assert_eq!(next.summary(&all, usize::MAX).as_ref(), Ok(&summary));
            summary.len()
        });
        assert_eq!(lengths, [68, 111, 4096, 4067, 4110, 215_068]);
    }

    /// A seat tells what a cache tells after the same Adds, and how many these were, while other
    /// seats go on; and its lease goes on to a cache as that of a cache does.
    #[test]
    fn a_seat_tells_what_a_cache_does() {
        let all = Span::until(b"a", b"z");
        for (count, most) in [(0, 9), (1, 9), (7, 9), (7, 3), (7, 0), (300, usize::MAX)] {
            let config = Config { low_water: Time::new(5, 0), ..Config::default() };
            let (mut cache, mut next) = (cache(), self::cache());
            let (shared, mut seats) = Shared::open(&config, 3, u64::MAX).unwrap();
            for i in 0..count {
                let key = [b'a' + (i % 20) as u8, i as u8];
                let span = if i % 3 == 0 { Span::until(&key, b"w") } else { Span::Point(&key) };
                let read = Value { time: Time::new(20 + i, 0), owner: Some([1 + i as u8 % 3; 16]) };
                cache.add(&span, read, NOW).unwrap();
                seats[i as usize % 3].add(&span, read, NOW, 64).unwrap();
            }
            let told = cache.summary(&all, most).unwrap();
            for seat in &mut seats {
                assert_eq!(seat.summary(&all, most), Ok((told.clone(), count)), "{count} {most}");
            }
            assert_eq!(next.apply(&told, NOW).map(|added| added.kept), Ok(count > 0));
            let later = Value { time: Time::new(900, 0), owner: None };
            assert_eq!(seats[1].add(&all, later, NOW, 64).map(|told| told.0), Ok(count));
            assert_eq!(seats[0].get_max(&all), (later, count + 1));
            drop(seats);
            assert_eq!(shared.close().unwrap(), count + 1);
        }
    }

    /// While other seats add, a summary covers each Add before the place that it tells, also where
    /// it grew from one ask for its bytes to the next.
    #[test]
    fn a_seat_tells_all_that_it_has_seen() {
        const ADDS: u64 = 600;
        let (_shared, mut seats) = Shared::open(&Config::default(), 3, u64::MAX).unwrap();
        let mut teller = seats.pop().unwrap();
        let all = Span::Onward { from: b"", exclude_from: false };
        let add_all = |thread: usize, mut seat: Seat| {
            (0..ADDS).map(move |i| {
                let key = [thread as u8, (i % 200) as u8];
                let read = Value { time: Time::new(20 + i, 0), owner: Some([1; 16]) };
                let told = seat.add(&Span::Point(&key), read, NOW, u32::MAX).unwrap();
                (told.0, key, read.time)
            })
        };
        let (added, summaries) = std::thread::scope(|scope| {
            let start = |(i, seat)| scope.spawn(move || Vec::from_iter(add_all(i, seat)));
            let adders: Vec<_> = seats.into_iter().enumerate().map(start).collect();
            let mut summaries = Vec::new();
            while summaries.last().map_or(true, |(_, seen)| *seen < 2 * ADDS) {
                summaries.push(teller.summary(&all, usize::MAX).unwrap());
            }
            let added = adders.into_iter().flat_map(|adder| adder.join().unwrap());
            (Vec::from_iter(added), summaries)
        });
        for (summary, seen) in summaries.iter().rev().step_by(1 + summaries.len() / 20) {
            let mut next = Cache::open(&Config::default()).unwrap();
            next.apply(summary, NOW).unwrap();
            for (place, key, time) in &added {
                let told = next.get_max(&Span::Point(key)).time;
                assert!(place >= seen || told >= *time, "{place} of {seen}: {told:?} {time:?}");
            }
        }
    }

    #[test]
    fn a_seat_refuses_what_a_cache_does() {
        let (_shared, mut seats) = Shared::open(&Config::default(), 1, 9).unwrap();
        let long = [0; 4097];
        assert_eq!(seats[0].summary(&Span::Point(&long), 9), Err(Error::KeyTooLong));
        assert_eq!(seats[0].summary(&Span::until(b"c", b"a"), 9), Err(Error::Inverted));
    }

    #[test]
    fn refusals() {
        let mut cache = cache();
        let long = [0; 4097];
        assert_eq!(cache.summary(&Span::Point(&long), 9), Err(Error::KeyTooLong));
        assert_eq!(cache.summary(&Span::until(b"c", b"a"), 9), Err(Error::Inverted));
        let summary = cache.summary(&Span::until(b"a", b"c"), 9).unwrap();
        for cut in 0..summary.len() {
            assert_eq!(cache.apply(&summary[..cut], NOW), Err(Error::SummaryLength));
        }
        for place in 0..summary.len() {
            let mut changed = summary.clone();
            changed[place] ^= 0x10;
            let why = match place {
                0 => Error::SummaryVersion,
                1..=8 => Error::SummaryLength,
                _ => Error::SummaryChecksum,
            };
            assert_eq!(cache.apply(&changed, NOW), Err(why), "{place}");
        }
        assert_eq!(cache.apply(&summary, Time::new(1 << 63, 0)), Err(Error::Time));
        assert!(cache.apply(&summary, NOW).is_ok());
    }
}
