//! Where memory is refused, a call is refused too: it adds nothing, and the program goes on. It is
//! a program of its own, with one test, since its allocator refuses what it is told to.
use std::alloc::{GlobalAlloc, Layout, System};
use std::fmt::Debug;
use std::ptr::null_mut;
use std::sync::atomic::{AtomicIsize, Ordering};
use tscache::{check, replay, Cache, Config, Error, Mark, Shared, Span, TextError, Time, Value};

/// How many more requests are granted before each one is refused.
static GRANTED: AtomicIsize = AtomicIsize::new(isize::MAX);

struct Refusing;

impl Refusing {
    fn grants() -> bool {
        GRANTED.fetch_sub(1, Ordering::Relaxed) > 0
    }
}

// SAFETY: what is granted comes from the system's allocator, and a null pointer says that nothing
// is.
unsafe impl GlobalAlloc for Refusing {
    unsafe fn alloc(&self, layout: Layout) -> *mut u8 {
        if Refusing::grants() {
            System.alloc(layout)
        } else {
            null_mut()
        }
    }

    unsafe fn dealloc(&self, block: *mut u8, layout: Layout) {
        System.dealloc(block, layout)
    }

    unsafe fn realloc(&self, block: *mut u8, layout: Layout, size: usize) -> *mut u8 {
        if Refusing::grants() {
            System.realloc(block, layout, size)
        } else {
            null_mut()
        }
    }
}

#[global_allocator]
static ALLOCATOR: Refusing = Refusing;

/// What a call answers where so many requests are granted.
fn granted<T>(count: isize, call: impl FnOnce() -> T) -> T {
    GRANTED.store(count, Ordering::Relaxed);
    let told = call();
    GRANTED.store(isize::MAX, Ordering::Relaxed);
    told
}

/// Grants a call no request, one, two and so on, until it is not refused. Then it answers what it
/// should, and before it said that there is no memory. It makes so many requests.
fn requests<T: Debug + PartialEq, E: Debug + PartialEq>(
    no_memory: E,
    wanted: T,
    mut call: impl FnMut() -> Result<T, E>,
) -> isize {
    for count in 0..100 {
        match granted(count, &mut call) {
            Err(why) => assert_eq!(why, no_memory, "{count} are granted"),
            told => {
                assert_eq!(told, Ok(wanted));
                return count;
            }
        }
    }
    panic!("it is refused for ever");
}

const AT: Time = Time::new(20, 0);
const LATER: Time = Time::new(20, 1);
const ONE: [u8; 16] = [0x11; 16];
const TWO: [u8; 16] = [0x22; 16];

#[test]
fn refused_memory_is_told() {
    let value = Value { time: AT, owner: Some(ONE) };
    let spans = [Span::until(b"a", b"c"), Span::Point(b"x")];
    let marks = spans.map(|span| Mark { span, value });
    let mut cache = Cache::open(&Config::default()).unwrap();
    let (_shared, mut seats) = Shared::open(&Config::default(), 1, u64::MAX).unwrap();
    let seat = &mut seats[0];

    let untouched = cache.figures();
    for count in 0..2 {
        let no_memory = Some(Error::NoMemory);
        assert_eq!(granted(count, || cache.add_all(&marks, AT)).err(), no_memory);
        assert_eq!(granted(count, || seat.add_all(&marks, AT, 64)).err(), no_memory);
        assert_eq!(cache.figures().nodes, untouched.nodes);
        assert_eq!(seat.low_water().1, 0, "Adds");
    }
    assert!(granted(2, || cache.add_all(&marks, AT)).is_ok());
    assert!(granted(2, || seat.add_all(&marks, AT, 64)).is_ok());
    assert_eq!((cache.get_max(&spans[0]), seat.get_max(&spans[1])), (value, (value, 1)));

    let no_memory = Error::NoMemory;
    for (spans, count) in [(&spans[..], 2), (&spans[..1], 2), (&spans[1..], 0)] {
        let told = [
            requests(no_memory, LATER, || cache.earliest_write(spans, AT, TWO)),
            requests(no_memory, LATER, || seat.earliest_write(spans, AT, TWO)),
            requests(no_memory, false, || cache.may_write_all(spans, AT, TWO)),
            requests(no_memory, false, || seat.may_write_all(spans, AT, TWO)),
            requests(no_memory, true, || cache.may_write(&spans[0], AT, ONE)),
            requests(no_memory, true, || seat.may_write(&spans[0], AT, ONE)),
        ];
        assert_eq!(told, [count; 6], "{spans:?}");
    }

    // what is one span alone takes none
    assert!(granted(0, || cache.add(&spans[0], value, AT)).is_ok());
    assert!(granted(0, || seat.add(&spans[0], value, AT, 64)).is_ok());
    assert_eq!(granted(0, || cache.get_max(&spans[0])), value);
    assert_eq!(granted(0, || seat.get_max(&spans[0])), (value, 2));

    assert_eq!(requests(no_memory, (), || Cache::open(&Config::default()).map(drop)), 0);
    assert_eq!(requests(no_memory, (), || Shared::open(&Config::default(), 64, 9).map(drop)), 1);
    let bytes = cache.summary(&spans[0], 9).unwrap();
    assert_eq!(requests(no_memory, bytes, || cache.summary(&spans[0], 9)), 1);

    let bytes = seat.summary(&spans[0], 9).unwrap();
    assert_eq!(requests(no_memory, bytes, || seat.summary(&spans[0], 9)), 1);

    let trace =
        br#"{"page_first":132,"page_max":132,"min_pages":2,"retention":10,"low_water":[5,0],
        "threads":[[{"op":"get","span":{"start":"61"}}]]}"#;
    let log = replay(trace).unwrap();
    let no_memory = || TextError::NoMemory;
    assert_eq!(requests(no_memory(), log.clone(), || replay(trace)), 1);
    assert_eq!(requests(no_memory(), b"right\n".to_vec(), || check(trace, &log)), 1);
    let why = TextError::Refused("trace refused: fault 1".into());
    assert_eq!(granted(0, || replay(b"[")), Err(TextError::NoMemory));
    assert_eq!(granted(1, || replay(b"[")), Err(why));
}
