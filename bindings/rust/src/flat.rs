//! The keys of several spans in one piece, as the library takes them. Memory that is refused here
//! is told as the library tells it, so that no call ends the program.
use crate::{ffi, Error, Span};

/// Keys that lie one behind the other, and the parts whose keys they are.
pub(crate) struct Flat<P> {
    pub keys: Vec<u8>,
    pub parts: Vec<P>,
}

impl<P> Flat<P> {
    /// Lays the keys of some items behind one another. It asks for memory once for all keys, and
    /// once for all parts.
    pub(crate) fn of<'a, T>(
        items: &[T],
        span: impl Fn(&T) -> Span<'a>,
        part: impl Fn(&T, ffi::Span) -> P,
    ) -> Result<Flat<P>, Error> {
        let lengths = items.iter().map(|item| {
            let (from, to, _) = span(item).parts();
            from.len().saturating_add(to.len())
        });
        let mut keys = room(lengths.fold(0, usize::saturating_add))?;
        let mut parts = room(items.len())?;
        for item in items {
            let (from, to, ends) = span(item).parts();
            parts.push(part(item, lying(keys.len(), from, to, ends)));
            keys.extend_from_slice(from);
            keys.extend_from_slice(to);
        }
        Ok(Flat { keys, parts })
    }
}

/// A span whose first key lies at some place among the keys, and the second behind it.
#[inline]
pub(crate) fn lying(from_at: usize, from: &[u8], to: &[u8], ends: u32) -> ffi::Span {
    let to_at = from_at + from.len();
    ffi::Span { from_at, from_len: from.len(), to_at, to_len: to.len(), ends }
}

/// An empty vector that takes so many without asking for memory again.
pub(crate) fn room<T>(count: usize) -> Result<Vec<T>, Error> {
    let mut all = Vec::new();
    all.try_reserve_exact(count).map_err(|_| Error::NoMemory)?;
    Ok(all)
}

#[cfg(test)]
mod tests {
    use super::*;

    #[test]
    fn keys_lie_one_behind_the_other() {
        let spans = [
            Span::until(b"ab", b"c"),
            Span::Point(b""),
            Span::Onward { from: b"def", exclude_from: true },
        ];
        let places =
            |_: &Span<'_>, at: ffi::Span| (at.from_at, at.from_len, at.to_at, at.to_len, at.ends);
        let Flat { keys, parts } = Flat::of(&spans, |span| *span, places).unwrap();
        assert_eq!(keys, b"abcdef");
        assert_eq!(
            parts,
            [
                (0, 2, 2, 1, ffi::EXCLUDE_TO),
                (3, 0, 3, 0, ffi::POINT),
                (3, 3, 6, 0, ffi::ONWARD + ffi::EXCLUDE_FROM),
            ]
        );
    }

    /// More keys than there can be are refused as those are for which there is no memory.
    #[test]
    fn more_than_memory_can_have() {
        assert_eq!(room::<u64>(usize::MAX).err(), Some(Error::NoMemory));
        assert!(room::<u64>(0).is_ok());
        let key = vec![0; 1 << 26];
        let spans = vec![Span::until(&key, &key); 1 << 20];
        let told = Flat::of(&spans, |span| *span, |_, _| ());
        assert_eq!(told.err(), Some(Error::NoMemory));
    }
}
