//! Replays of recorded traces, and checks of logs, from bytes to bytes.
use crate::{ffi, flat};
use std::fmt;

/// Why there is no log, or no verdict.
#[derive(Clone, Debug, PartialEq, Eq, Hash)]
pub enum TextError {
    /// The bytes are no trace, or no log: why, as the program tells it on standard error.
    Refused(String),
    /// Memory was refused.
    NoMemory,
    /// A code of the library that no call of this crate brings about.
    Other(u32),
}

impl fmt::Display for TextError {
    fn fmt(&self, f: &mut fmt::Formatter<'_>) -> fmt::Result {
        match self {
            TextError::Refused(why) => f.write_str(why),
            TextError::NoMemory => f.write_str("out of memory"),
            TextError::Other(code) => write!(f, "code {code} of the library"),
        }
    }
}

impl std::error::Error for TextError {}

/// Replays a trace on one thread, and gives the text of its log. A trace has 16,777,216 bytes at
/// the most. A log of more than 4,096 bytes is made twice: at first to learn its length.
///
/// ```
/// let trace = br#"{"page_first":132,"page_max":132,"min_pages":2,"retention":10,"low_water":[5,0],
///     "threads":[[{"op":"get","span":{"start":"61"}}]]}"#;
/// let log = tscache::replay(trace)?;
/// assert_eq!(log, b"0 0 get 0 5.0 none\n");
/// assert_eq!(tscache::check(trace, &log)?, b"right\n");
/// let why = tscache::replay(b"[").unwrap_err();
/// assert_eq!(why, tscache::TextError::Refused("trace refused: fault 1".into()));
/// # Ok::<(), tscache::TextError>(())
/// ```
#[must_use = "the log is all that it makes"]
pub fn replay(trace: &[u8]) -> Result<Vec<u8>, TextError> {
    // SAFETY: each pointer comes from a slice or a reference that lives through the call, and what
    // is written to is the vector's own, of which no one else has a reference, and a local
    told(|out, len| unsafe {
        ffi::tsc_replay(trace.as_ptr(), trace.len(), out.as_mut_ptr(), out.len(), len)
    })
}

/// Checks a log against its trace, and gives the line of the verdict. A log has 16,777,216 bytes
/// at the most, as a trace has.
///
/// ```
/// let trace = br#"{"page_first":132,"page_max":132,"min_pages":2,"retention":10,"low_water":[5,0],
///     "threads":[[{"op":"get","span":{"start":"61"}}]]}"#;
/// assert_eq!(tscache::check(trace, b"0 0 get 0 5.0 none\n")?, b"right\n");
/// assert_eq!(tscache::check(trace, b"0 0 get 0 4.0 none\n")?, b"wrong answer 1\n");
/// # Ok::<(), tscache::TextError>(())
/// ```
#[must_use = "the verdict is all that it makes"]
pub fn check(trace: &[u8], log: &[u8]) -> Result<Vec<u8>, TextError> {
    // SAFETY: as of `replay`
    told(|out, len| unsafe {
        ffi::tsc_check(
            trace.as_ptr(),
            trace.len(),
            log.as_ptr(),
            log.len(),
            out.as_mut_ptr(),
            out.len(),
            len,
        )
    })
}

/// What a call says that writes bytes, or the text of why it was refused.
fn told(ask: impl FnMut(&mut [u8], &mut usize) -> u32) -> Result<Vec<u8>, TextError> {
    let (code, text) = with_room(ask).ok_or(TextError::NoMemory)?;
    match code {
        0 => Ok(text),
        11 => Err(TextError::NoMemory),
        16 => Err(TextError::Refused(
            String::from_utf8(text)
                .unwrap_or_else(|why| String::from_utf8_lossy(why.as_bytes()).into_owned()),
        )),
        other => Err(TextError::Other(other)),
    }
}

/// What a call answers that writes bytes, and these. It is asked with room for a few, and where
/// that is too little once more, with as much as it takes. Nothing is told where memory for the
/// room was refused.
pub(crate) fn with_room(
    mut ask: impl FnMut(&mut [u8], &mut usize) -> u32,
) -> Option<(u32, Vec<u8>)> {
    let mut room = 4096;
    loop {
        let mut bytes = flat::room(room).ok()?;
        bytes.resize(room, 0);
        let mut len = 0;
        let code = ask(&mut bytes, &mut len);
        if code != ffi::SHORT {
            bytes.truncate(len);
            return Some((code, bytes));
        }
        room = len;
    }
}

#[cfg(test)]
mod tests {
    use super::*;
    use std::cell::RefCell;

    /// A trace of so many lookups, and its log.
    fn lookups(count: usize) -> (String, String) {
        let calls = vec![r#"{"op":"get","span":{"start":"61"}}"#; count].join(",");
        let trace = format!(
            r#"{{"page_first":132,"page_max":132,"min_pages":2,"retention":10,"low_water":[5,0],"threads":[[{calls}]]}}"#
        );
        let log = (0..count).map(|i| format!("0 {i} get 0 5.0 none\n")).collect();
        (trace, log)
    }

    #[test]
    fn logs_of_many_lengths() {
        for count in [1, 2, 190, 200, 210, 5000] {
            let (trace, log) = lookups(count);
            assert_eq!(replay(trace.as_bytes()), Ok(log.clone().into_bytes()));
            assert_eq!(check(trace.as_bytes(), log.as_bytes()), Ok(b"right\n".to_vec()));
            let last = log.len() - 1;
            let other = log[..last].replace("5.0", "6.0") + "\n";
            assert_eq!(check(trace.as_bytes(), other.as_bytes()), Ok(b"wrong answer 1\n".to_vec()));
        }
    }

    /// A text that is longer than the first room is asked for once more, with as much room as it
    /// was told to take.
    #[test]
    fn room_for_texts() {
        let rows: [(usize, &[usize]); 4] =
            [(0, &[4096]), (4096, &[4096]), (4097, &[4096, 4097]), (70_001, &[4096, 70_001])];
        for (length, wanted) in rows {
            let rooms = RefCell::new(Vec::new());
            let text = told(|out, len| {
                rooms.borrow_mut().push(out.len());
                *len = length;
                if out.len() < length {
                    17
                } else {
                    0
                }
            });
            assert_eq!(text.map(|text| text.len()), Ok(length));
            assert_eq!(rooms.into_inner(), wanted);
        }
        assert_eq!(told(|_, _| 11), Err(TextError::NoMemory));
    }

    #[test]
    fn refused_bytes() {
        let (trace, log) = lookups(1);
        let refused = |why: &str| Err(TextError::Refused(why.into()));
        assert_eq!(replay(b""), refused("trace refused: fault 1"));
        assert_eq!(check(b"", b""), refused("trace refused: fault 1"));
        assert_eq!(check(log.as_bytes(), trace.as_bytes()), refused("trace refused: fault 1"));
        assert_eq!(check(trace.as_bytes(), b"0 0 get"), refused("log refused: fault 1 at line 1"));
        assert_eq!(
            TextError::Refused("trace refused: fault 1".into()).to_string(),
            "trace refused: fault 1"
        );
    }
}
