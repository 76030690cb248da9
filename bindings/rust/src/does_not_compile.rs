//! What the compiler has to refuse, for `cargo test --doc` alone. Nightly's `rustdoc`, and any with
//! `RUSTC_BOOTSTRAP=1`, also looks at the codes of the errors.

/// Each line is refused for this error.
macro_rules! refused {
    ($($name:ident $code:ident $line:literal)*) => { $(
        #[doc = concat!("```compile_fail,", stringify!($code), "\n", $line, "\n```")]
        pub mod $name {}
    )* };
}

refused! {
    a_cache_that_threads_use_at_once E0277 "fn at_once<T: Sync>() {} at_once::<tscache::Cache>();"
    a_seat_that_threads_use_at_once E0277 "fn at_once<T: Sync>() {} at_once::<tscache::Seat>();"
    a_copied_cache E0277 "fn copied<T: Clone>() {} copied::<tscache::Cache>();"
    a_copied_seat E0277 "fn copied<T: Clone>() {} copied::<tscache::Seat>();"
    a_copied_shared_cache E0277 "fn copied<T: Clone>() {} copied::<tscache::Shared>();"
    a_cache_that_is_bytes E0277 "fn is_bytes<T: Copy>() {} is_bytes::<tscache::Cache>();"
    a_seat_that_is_bytes E0277 "fn is_bytes<T: Copy>() {} is_bytes::<tscache::Seat>();"
    a_seat_in_two_threads E0499 "
        fn two(mut seat: tscache::Seat) {
            std::thread::scope(|threads| {
                threads.spawn(|| seat.low_water());
                threads.spawn(|| seat.low_water());
            });
        }"
    lookups_behind_a_lock_for_readers E0277 "
        fn readers(cache: std::sync::RwLock<tscache::Cache>) {
            std::thread::scope(|threads| {
                threads.spawn(|| drop(cache.read()));
            });
        }"
    a_shared_cache_that_was_closed E0382 "
        fn closed(shared: tscache::Shared) {
            let told = shared.close();
            let again = shared.close();
        }"
    a_cache_that_was_dropped E0382 "
        fn dropped(mut cache: tscache::Cache) {
            drop(cache);
            let floor = cache.low_water();
        }"
    a_seat_that_was_dropped E0382 "
        fn dropped(mut seat: tscache::Seat) {
            drop(seat);
            let floor = seat.low_water();
        }"
    a_span_whose_key_is_gone E0515 "
        fn gone() -> tscache::Span<'static> {
            let key = vec![1];
            tscache::Span::Point(&key)
        }"
    a_cache_of_no_store E0451 "
        fn made() -> tscache::Cache { tscache::Cache { store: todo!(), handle: 0 } }"
}

/// What may go to another thread does compile, so a missing bound is no reason above.
///
/// ```
/// fn moved<T: Send>() {}
/// moved::<tscache::Cache>();
/// moved::<tscache::Seat>();
/// moved::<tscache::Shared>();
/// ```
pub mod what_moves {}

/// A cache, a seat, and what calls take.
macro_rules! scene {
    () => {
        "use tscache::*;
        fn scene(mut cache: Cache, mut seat: Seat, shared: Shared, config: &Config) {
            let (at, by) = (Time::new(20, 0), [0x22; 16]);
            let (span, value) = (Span::Point(b\"a\"), Value { time: at, owner: Some(by) });
            let marks = [Mark { span, value }];
        "
    };
}

/// A call whose answer is dropped is refused, and the same call compiles where it is not.
macro_rules! dropped {
    ($($name:ident $call:literal)*) => {
        $(
            #[doc = concat!(
                "```compile_fail\n#![deny(unused_must_use)]\n", scene!(), $call, ";\n}\n```"
            )]
            pub mod $name {}
        )*

        #[doc = concat!(
            "```\n#![deny(unused_must_use)]\n", scene!(), $("let told = ", $call, ";\n",)* "}\n```"
        )]
        pub mod answers_that_are_kept {}
    };
}

dropped! {
    a_time "Time::new(20, 0)"
    the_next_time "at.next()"
    a_span "Span::until(b\"a\", b\"b\")"
    a_cache "Cache::open(config)"
    an_add "cache.add(&span, value, at)"
    adds "cache.add_all(&marks, at)"
    a_lookup "cache.get_max(&span)"
    a_floor "cache.low_water()"
    figures "cache.figures()"
    leave_to_write "cache.may_write(&span, at, by)"
    leave_to_write_all "cache.may_write_all(&[span], at, by)"
    the_time_of_a_write "cache.earliest_write(&[span], at, by)"
    a_summary "cache.summary(&span, 9)"
    what_apply_tells "cache.apply(&[], at)"
    a_summary_at_a_seat "seat.summary(&span, 9)"
    a_shared_cache "Shared::open(config, 2, 9)"
    an_add_of_a_seat "seat.add(&span, value, at, 64)"
    adds_of_a_seat "seat.add_all(&marks, at, 64)"
    a_lookup_at_a_seat "seat.get_max(&span)"
    a_floor_at_a_seat "seat.low_water()"
    figures_at_a_seat "seat.figures()"
    leave_to_write_at_a_seat "seat.may_write(&span, at, by)"
    leave_to_write_all_at_a_seat "seat.may_write_all(&[span], at, by)"
    the_time_of_a_write_at_a_seat "seat.earliest_write(&[span], at, by)"
    what_replay_tells "replay(&[])"
    what_check_tells "check(&[], &[])"
    what_close_tells "shared.close()"
    what_is_linked "built()"
}
