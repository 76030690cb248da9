//! A program that is linked with the library: it tells the time of the latest read.
use tscache::{Cache, Config, Error, Span, Time, Value};

fn main() -> Result<(), Error> {
    let mut cache = Cache::open(&Config::default())?;
    let at = Time::new(20, 0);
    cache.add(&Span::Point(b"b"), Value { time: at, owner: None }, at)?;
    println!("{}", cache.get_max(&Span::Point(b"b")).time.wall);
    Ok(())
}
