//! Plays the rows of `bindings/rows.txt`, whose head says what they are, on a cache, by one seat
//! of a shared cache, and by three seats in turn. Then each case goes through Rattle's own reader
//! of traces, cache and writer of logs, by `replay`: so Rattle plays the same rows.
use std::collections::BTreeMap;
use tscache::{
    replay, Added, Cache, Config, Error, Figures, Mark, Seat, Shared, Span, TextError, Time, Value,
};

const ROWS: &str = include_str!("../../rows.txt");

/// A line: its number, what is called, and what that answers.
type Line = (usize, &'static str, &'static str);

const OPENED_FIRST: &str = "a case is opened first";

/// Each case: its name and its lines.
fn cases() -> Vec<(&'static str, Vec<Line>)> {
    let mut all: Vec<(&str, Vec<_>)> = Vec::new();
    for (number, line) in (1..).zip(ROWS.lines()) {
        if line.is_empty() || line.starts_with('#') {
            continue;
        }
        match line.split_once(" =") {
            Some((call, answer)) => {
                let (_, lines) = all.last_mut().expect("a case is named before its lines");
                lines.push((number, call, answer.trim_start()));
            }
            None => all.push((line, Vec::new())),
        }
    }
    all
}

/// A span with keys of its own.
#[derive(Debug)]
struct Keys {
    from: Vec<u8>,
    to: Vec<u8>,
    ends: (char, char),
}

fn key(text: &str) -> Vec<u8> {
    let (mut bytes, mut rest) = (Vec::new(), text.as_bytes());
    while let [first, tail @ ..] = rest {
        let mut byte = *first;
        rest = tail;
        if byte == b'%' {
            byte = u8::from_str_radix(std::str::from_utf8(&rest[..2]).unwrap(), 16).unwrap();
            rest = &rest[2..];
        }
        let mut times = 1;
        if let [b'*', tail @ ..] = rest {
            let digits = tail.iter().take_while(|digit| digit.is_ascii_digit()).count();
            times = std::str::from_utf8(&tail[..digits]).unwrap().parse().unwrap();
            rest = &tail[digits..];
        }
        bytes.resize(bytes.len() + times, byte);
    }
    bytes
}

fn keys(text: &str) -> Keys {
    let inner = &text[1..text.len() - 1];
    let first = text.chars().next().unwrap();
    let last = text.chars().last().unwrap();
    if let Some(from) = inner.strip_suffix("..") {
        Keys { from: key(from), to: Vec::new(), ends: (first, '.') }
    } else if let Some((from, to)) = inner.split_once(',') {
        Keys { from: key(from), to: key(to), ends: (first, last) }
    } else {
        Keys { from: key(inner), to: Vec::new(), ends: ('=', '=') }
    }
}

impl Keys {
    fn span(&self) -> Span<'_> {
        let (from, to, exclude_from) = (&self.from[..], &self.to[..], self.ends.0 == '(');
        match self.ends.1 {
            '=' => Span::Point(from),
            '.' => Span::Onward { from, exclude_from },
            last => Span::Range { from, to, exclude_from, exclude_to: last == ')' },
        }
    }

    /// As a trace has it.
    fn json(&self) -> String {
        let hex = |bytes: &[u8]| bytes.iter().map(|byte| format!("{byte:02x}")).collect::<String>();
        let (from, to) = (hex(&self.from), hex(&self.to));
        match self.ends {
            ('=', _) => format!(r#"{{"start":"{from}"}}"#),
            (first, '.') => format!(r#"{{"start":"{from}","onward":"{first}"}}"#),
            (first, last) => format!(r#"{{"start":"{from}","end":"{to}","ends":"{first}{last}"}}"#),
        }
    }
}

fn time(text: &str) -> Time {
    let (wall, logical) = text.split_once('.').unwrap();
    Time::new(wall.parse().unwrap(), logical.parse().unwrap())
}

fn owner(text: &str) -> Option<[u8; 16]> {
    Some([text.as_bytes()[0]; 16]).filter(|_| text != "-")
}

fn value(at: &str, by: &str) -> Value {
    Value { time: time(at), owner: owner(by) }
}

fn told_time(time: Time) -> String {
    format!("{}.{}", time.wall, time.logical)
}

fn told_owner(owner: Option<[u8; 16]>) -> char {
    let letter = owner.map_or(b'-', |id| id[0]);
    assert!(owner.map_or(true, |id| id == [letter; 16]));
    letter.into()
}

fn told_added(added: Result<Added, Error>) -> String {
    match added {
        Ok(Added { kept, rotated, evicted }) => {
            format!("{} {} {evicted}", u8::from(kept), u8::from(rotated))
        }
        Err(why) => told_error(why).into(),
    }
}

fn told_error(why: Error) -> &'static str {
    match why {
        Error::Time => "time",
        Error::KeyTooLong => "key_too_long",
        Error::Inverted => "inverted",
        Error::TooLarge => "too_large",
        Error::PageSize => "page_size",
        Error::MinPages => "min_pages",
        Error::Retention => "retention",
        Error::NoMemory => "no_memory",
        Error::Seats => "seats",
        Error::Busy => "busy",
        Error::Full => "full",
        Error::NoTime => "none",
        Error::SummaryVersion => "summary_version",
        Error::SummaryLength => "summary_length",
        Error::SummaryChecksum => "summary_checksum",
        Error::SummaryForm => "summary_form",
        Error::Tries => "tries",
        Error::Stripes => "stripes",
        Error::Bounds => "bounds",
        other => panic!("{other}"),
    }
}

fn config(words: &[&str]) -> Config {
    Config {
        page_first: words[0].parse().unwrap(),
        page_max: words[1].parse().unwrap(),
        min_pages: words[2].parse().unwrap(),
        retention: words[3].parse().unwrap(),
        low_water: time(words[4]),
    }
}

/// The marks of a batch: each has three words.
fn marks(words: &[&str]) -> Vec<(Keys, Value)> {
    words.chunks(3).map(|mark| (keys(mark[0]), value(mark[1], mark[2]))).collect()
}

/// How many Adds there were: of all seats, or in stripes of each.
struct Adds {
    counts: Vec<u64>,
}

impl Adds {
    fn of(&mut self, seat: usize) -> &mut u64 {
        let at = seat % self.counts.len();
        &mut self.counts[at]
    }
}

/// What a case is played on.
enum Table {
    Cache(Cache),
    Seats { seats: Vec<Seat>, turn: usize, tries: u32, adds: Adds, _opened: Shared },
}

impl Table {
    fn open(seats: u32, config: &Config, limit: u64) -> Result<Table, Error> {
        if seats == 0 {
            return Cache::open(config).map(Table::Cache);
        }
        let (opened, seats) = Shared::open(config, seats, limit)?;
        let adds = Adds { counts: vec![0] };
        Ok(Table::Seats { seats, turn: 0, tries: 64, adds, _opened: opened })
    }

    fn open_striped(seats: u32, config: &Config, bounds: &[&str]) -> Result<Table, Error> {
        let bounds: Vec<_> = bounds.iter().map(|bound| keys(bound).from).collect();
        let bounds: Vec<_> = bounds.iter().map(|bound| &bound[..]).collect();
        let (opened, seats) = Shared::open_striped(config, &bounds, seats)?;
        let adds = Adds { counts: vec![0; seats.len()] };
        Ok(Table::Seats { seats, turn: 0, tries: 64, adds, _opened: opened })
    }

    /// Asks the cache, or the seat whose turn it is, which has seen all Adds.
    fn ask<T>(
        &mut self,
        cache: impl FnOnce(&mut Cache) -> T,
        seat: impl FnOnce(&mut Seat) -> (T, u64),
    ) -> T {
        match self {
            Table::Cache(of) => cache(of),
            Table::Seats { seats, turn, adds, .. } => {
                *turn += 1;
                let number = *turn % seats.len();
                let (told, seen) = seat(&mut seats[number]);
                assert_eq!(seen, *adds.of(number), "what the seat has seen");
                told
            }
        }
    }

    /// Adds by the cache, or by the seat whose turn it is, at the next place.
    fn add(
        &mut self,
        cache: impl FnOnce(&mut Cache) -> Result<Added, Error>,
        seat: impl FnOnce(&mut Seat, u32) -> Result<(u64, Added), Error>,
    ) -> String {
        told_added(match self {
            Table::Cache(of) => cache(of),
            Table::Seats { seats, turn, tries, adds, .. } => {
                *turn += 1;
                let number = *turn % seats.len();
                seat(&mut seats[number], *tries).map(|(place, added)| {
                    assert_eq!(place, *adds.of(number), "the place of the Add");
                    *adds.of(number) += 1;
                    added
                })
            }
        })
    }

    fn call(&mut self, words: &[&str]) -> String {
        match words {
            ["seat", number, call @ ..] => {
                if let Table::Seats { seats, turn, .. } = self {
                    *turn = number.parse::<usize>().unwrap() + seats.len() - 1;
                }
                self.call(call)
            }
            ["add", span, at, by, now] => {
                let (span, value, now) = (keys(span), value(at, by), time(now));
                self.add(
                    |cache| cache.add(&span.span(), value, now),
                    |seat, tries| seat.add(&span.span(), value, now, tries),
                )
            }
            ["batch", now, rest @ ..] => {
                let (owned, now) = (marks(rest), time(now));
                let marks: Vec<_> = owned
                    .iter()
                    .map(|(keys, value)| Mark { span: keys.span(), value: *value })
                    .collect();
                self.add(
                    |cache| cache.add_all(&marks, now),
                    |seat, tries| seat.add_all(&marks, now, tries),
                )
            }
            ["get", span] => {
                let span = keys(span);
                let Value { time, owner } = self
                    .ask(|cache| cache.get_max(&span.span()), |seat| seat.get_max(&span.span()));
                format!("{} {}", told_time(time), told_owner(owner))
            }
            ["low"] => told_time(self.ask(Cache::low_water, Seat::low_water)),
            ["figures"] => {
                let Figures { pages, rotations, nodes, bytes, .. } =
                    self.ask(Cache::figures, Seat::figures);
                format!("{pages} {rotations} {nodes} {bytes}")
            }
            [call @ ("may" | "earliest"), at, by, spans @ ..] => {
                let (at, by) = (time(at), owner(by).unwrap());
                let owned: Vec<_> = spans.iter().map(|span| keys(span)).collect();
                let spans: Vec<_> = owned.iter().map(Keys::span).collect();
                let told = self.earliest_write(&spans, at, by);
                let may = self.may_write(&spans, at, by);
                let at_once = match told {
                    Ok(then) => Ok(then == at),
                    Err(Error::NoTime) => Ok(false),
                    Err(why) => Err(why),
                };
                assert_eq!(may, at_once, "{words:?}");
                if let Ok(then) = told {
                    assert_eq!(self.may_write(&spans, then, by), Ok(true), "{words:?}");
                }
                let answer =
                    if *call == "earliest" { told.map(told_time) } else { may.map(told_bool) };
                answer.unwrap_or_else(|why| told_error(why).into())
            }
            ["tries", count] => {
                if let Table::Seats { tries, .. } = self {
                    *tries = count.parse().unwrap();
                }
                "done".into()
            }
            _ => panic!("no such call: {words:?}"),
        }
    }

    fn earliest_write(
        &mut self,
        spans: &[Span<'_>],
        at: Time,
        by: [u8; 16],
    ) -> Result<Time, Error> {
        let adds = self.adds();
        self.ask(
            |cache| cache.earliest_write(spans, at, by),
            |seat| (seat.earliest_write(spans, at, by), adds),
        )
    }

    /// One span is asked for by itself, and several by the call for those.
    fn may_write(&mut self, spans: &[Span<'_>], at: Time, by: [u8; 16]) -> Result<bool, Error> {
        let adds = self.adds();
        if let [span] = spans {
            return self.ask(
                |cache| cache.may_write(span, at, by),
                |seat| (seat.may_write(span, at, by), adds),
            );
        }
        self.ask(
            |cache| cache.may_write_all(spans, at, by),
            |seat| (seat.may_write_all(spans, at, by), adds),
        )
    }

    /// A call for the summaries of a case, of a cache alone.
    fn lease(&mut self, summaries: &mut Summaries, words: &[&str]) -> String {
        let Table::Cache(cache) = self else { panic!("a seat has no summary") };
        match words {
            ["summary", name, span, most] => {
                let most = most.parse().unwrap_or(usize::MAX);
                match cache.summary(&keys(span).span(), most) {
                    Ok(bytes) => {
                        let length = bytes.len();
                        summaries.insert(name.to_string(), bytes);
                        length.to_string()
                    }
                    Err(why) => told_error(why).into(),
                }
            }
            ["apply", name, now] => told_added(cache.apply(&summaries[*name], time(now))),
            ["cuts", name, now] => {
                let mut bytes = summaries[*name].clone();
                bytes.push(0);
                let whole = bytes.len() - 1;
                let lengths = (0..=whole + 1).filter(|length| *length != whole);
                let told = lengths.map(|length| cache.apply(&bytes[..length], time(now)));
                alike(told.collect())
            }
            ["changes", name, first, last, now] => {
                let bytes = &summaries[*name];
                let last = last.parse().unwrap_or(bytes.len() - 1);
                let places = first.parse().unwrap()..=last;
                let told = places.flat_map(|place| [1, 0x10, 0x80, 0xFF].map(|with| (place, with)));
                let told = told.map(|(place, with)| {
                    let mut changed = bytes.clone();
                    changed[place] ^= with;
                    cache.apply(&changed, time(now))
                });
                alike(told.collect())
            }
            _ => panic!("no such call: {words:?}"),
        }
    }

    /// What the seat is to have seen that comes next, of which a question for a write tells nothing.
    fn adds(&mut self) -> u64 {
        match self {
            Table::Cache(_) => 0,
            Table::Seats { seats, turn, adds, .. } => *adds.of((*turn + 1) % seats.len()),
        }
    }
}

/// Summaries by their names.
type Summaries = BTreeMap<String, Vec<u8>>;

fn told_bool(is_so: bool) -> String {
    if is_so {
        "yes".into()
    } else {
        "no".into()
    }
}

/// Several answers that are one.
fn alike(answers: Vec<Result<Added, Error>>) -> String {
    assert!(answers.iter().all(|answer| *answer == answers[0]), "{answers:?}");
    told_added(answers[0])
}

fn from_hex(text: &str) -> Vec<u8> {
    let digits: Vec<_> = text.chars().map(|digit| digit.to_digit(16).unwrap() as u8).collect();
    digits.chunks(2).map(|two| two[0] * 16 + two[1]).collect()
}

/// Goes on with what was opened, and tells of it.
fn opened(table: &mut Option<Table>, by: Result<Table, Error>) -> String {
    match by {
        Ok(opened) => {
            *table = Some(opened);
            "done".into()
        }
        Err(why) => told_error(why).into(),
    }
}

/// Plays a row of a case, and gives what it answers.
fn played(
    table: &mut Option<Table>,
    summaries: &mut Summaries,
    seats: u32,
    words: &[&str],
) -> String {
    match words {
        ["open", settings @ .., limit] => {
            opened(table, Table::open(seats, &config(settings), limit.parse().unwrap()))
        }
        ["stripes", first, max, pages, retention, low, bounds @ ..] => {
            let config = config(&[first, max, pages, retention, low]);
            opened(table, Table::open_striped(seats, &config, bounds))
        }
        ["seats", count] => match Shared::open(&Config::default(), count.parse().unwrap(), 9) {
            Ok((opened, all)) => {
                assert_eq!(all.len().to_string(), *count);
                drop(all);
                assert_eq!(opened.close().unwrap(), 0);
                "done".into()
            }
            Err(why) => told_error(why).into(),
        },
        ["take", name, hex] => {
            summaries.insert(name.to_string(), from_hex(hex));
            "done".into()
        }
        ["same", one, other] => told_bool(summaries[*one] == summaries[*other]),
        ["summary" | "apply" | "cuts" | "changes", ..] => {
            table.as_mut().expect(OPENED_FIRST).lease(summaries, words)
        }
        _ => table.as_mut().expect(OPENED_FIRST).call(words),
    }
}

/// Plays all cases, and gives how many rows there were.
fn play(seats: u32) -> usize {
    let mut rows = 0;
    for (name, lines) in cases() {
        if name.starts_with(if seats == 0 { "seats" } else { "cache" }) {
            continue;
        }
        let (mut table, mut summaries) = (None, Summaries::new());
        for (number, call, wanted) in lines {
            let words: Vec<_> = call.split(' ').collect();
            let told = played(&mut table, &mut summaries, seats, &words);
            assert_eq!(told, wanted, "rows.txt:{number}, {seats} seats, {name}: {call}");
            rows += 1;
        }
    }
    rows
}

#[test]
fn a_cache_plays_the_rows() {
    assert!(play(0) > 400);
}

#[test]
fn a_seat_plays_the_rows() {
    assert!(play(1) > 400);
}

#[test]
fn three_seats_play_the_rows_in_turn() {
    assert!(play(3) > 400);
}

/// A number that a summary begins with, of so many bytes.
fn read_number(rest: &mut &[u8], bytes: usize) -> u64 {
    let (number, behind) = rest.split_at(bytes);
    *rest = behind;
    number.iter().fold(0, |sum, byte| sum << 8 | u64::from(*byte))
}

/// A place between keys: whether it lies behind its key, and the key; above all keys there is none.
fn read_place(rest: &mut &[u8]) -> Option<(bool, Vec<u8>)> {
    let side = read_number(rest, 1);
    (side < 2).then(|| {
        let length = read_number(rest, 4) as usize;
        let (key, behind) = rest.split_at(length);
        *rest = behind;
        (side == 1, key.to_vec())
    })
}

/// A span as a trace has it. The empty one is `(,)`.
fn read_span(rest: &mut &[u8]) -> Keys {
    if read_number(rest, 1) == 0 {
        return keys("(,)");
    }
    let (is_behind, from) = read_place(rest).expect("a span begins before the end of all keys");
    let first = if is_behind { '(' } else { '[' };
    match read_place(rest) {
        Some((is_behind, to)) => {
            Keys { from, to, ends: (first, if is_behind { ']' } else { ')' }) }
        }
        None => Keys { from, to: Vec::new(), ends: (first, '.') },
    }
}

/// The marks that a summary is applied as, by its form in docs/FORMATS.md: all of its span at its
/// floor, and then those that it has.
fn applied(summary: &[u8]) -> Vec<(Keys, Value)> {
    let mut rest = &summary[9..];
    let (rest, mut marks) = (&mut rest, Vec::new());
    let (span, wall, logical) = (read_span(rest), read_number(rest, 8), read_number(rest, 4));
    marks.push((span, Value { time: Time::new(wall, logical as u32), owner: None }));
    for _ in 0..read_number(rest, 8) {
        let (span, wall, logical) = (read_span(rest), read_number(rest, 8), read_number(rest, 4));
        let owner = [(); 16].map(|()| read_number(rest, 1) as u8);
        let owner = Some(owner).filter(|owner| *owner != [0; 16]);
        marks.push((span, Value { time: Time::new(wall, logical as u32), owner }));
    }
    assert_eq!(rest.len(), 32, "the digest");
    marks
}

/// The calls of one cache as a list of a trace, and the log that the rows tell.
struct Trace {
    head: String,
    calls: Vec<String>,
    log: String,
    adds: usize,
}

fn pair(at: &str) -> String {
    format!("[{}]", at.replace('.', ","))
}

fn uuid(by: Option<[u8; 16]>) -> String {
    match by {
        Some(id) => format!(r#""{}""#, id.map(|byte| format!("{byte:02x}")).concat()),
        None => "null".into(),
    }
}

/// A transaction as a log has it.
fn shown(by: &str) -> String {
    match owner(by) {
        Some([b, ..]) => {
            let two = format!("{b:02x}{b:02x}");
            format!("{two}{two}-{two}-{two}-{two}-{two}{two}{two}")
        }
        None => "none".into(),
    }
}

impl Trace {
    fn new(words: &[&str]) -> Trace {
        let [_, first, max, pages, retention, low, _] = words else { panic!("{words:?}") };
        let head = format!(
            r#"{{"page_first":{first},"page_max":{max},"min_pages":{pages},"retention":{retention},"low_water":{},"#,
            pair(low)
        );
        Trace { head, calls: Vec::new(), log: String::new(), adds: 0 }
    }

    fn call(&mut self, call: String, answer: &str) {
        self.log += &format!("0 {} {answer}\n", self.calls.len());
        self.calls.push(call);
    }

    fn mark(span: &Keys, value: &Value) -> String {
        format!(
            r#""span":{},"time":{},"owner":{}"#,
            span.json(),
            pair(&told_time(value.time)),
            uuid(value.owner)
        )
    }

    fn batch(&mut self, marks: &[(Keys, Value)], now: &str, wanted: &str) {
        let marks: Vec<_> =
            marks.iter().map(|(span, value)| format!("{{{}}}", Trace::mark(span, value))).collect();
        let marks = marks.join(",");
        let call = format!(r#"{{"op":"batch","marks":[{marks}],"now":{}}}"#, pair(now));
        self.call(call, &format!("batch {} {wanted}", self.adds));
        self.adds += 1;
    }

    /// A row, if a trace has a call for it. A refused Add changes nothing.
    fn note(&mut self, summaries: &Summaries, words: &[&str], wanted: &str) {
        match words {
            ["add", span, at, by, now] if wanted.contains(' ') => {
                let mark = Trace::mark(&keys(span), &value(at, by));
                let call = format!(r#"{{"op":"add",{mark},"now":{}}}"#, pair(now));
                self.call(call, &format!("add {} {wanted}", self.adds));
                self.adds += 1;
            }
            ["batch", now, rest @ ..] if wanted.contains(' ') => {
                self.batch(&marks(rest), now, wanted);
            }
            ["apply", name, now] if wanted.contains(' ') => {
                self.batch(&applied(&summaries[*name]), now, wanted);
            }
            ["get", span] if keys(span).from.len().max(keys(span).to.len()) <= 4096 => {
                let (at, by) = wanted.split_once(' ').unwrap();
                let call = format!(r#"{{"op":"get","span":{}}}"#, keys(span).json());
                self.call(call, &format!("get {} {at} {}", self.adds, shown(by)));
            }
            ["low"] => {
                self.call(r#"{"op":"low"}"#.into(), &format!("low {} {wanted}", self.adds));
            }
            _ => {}
        }
    }
}

/// Each cache of a case is a trace. What is applied is a batch there, of what the summary has.
#[test]
fn rattle_plays_the_rows() -> Result<(), TextError> {
    let (mut played_lines, mut batches) = (0, 0);
    for (name, lines) in cases() {
        let (mut traces, mut table, mut summaries) = (Vec::new(), None, Summaries::new());
        for (_, call, wanted) in lines {
            let words: Vec<_> = call.split(' ').collect();
            if name.starts_with("cache") {
                played(&mut table, &mut summaries, 0, &words);
            }
            match (words[0], traces.last_mut()) {
                ("open", _) if wanted == "done" => traces.push(Trace::new(&words)),
                (_, Some(trace)) => trace.note(&summaries, &words, wanted),
                _ => {}
            }
            batches += usize::from(words[0] == "apply" && wanted.contains(' '));
        }
        for Trace { head, calls, log, .. } in traces {
            let trace = format!(r#"{head}"threads":[[{}]]}}"#, calls.join(","));
            let told = String::from_utf8(replay(trace.as_bytes())?).unwrap();
            assert_eq!(told, log, "{name}: {trace}");
            played_lines += told.lines().count();
        }
    }
    assert!(played_lines > 350 && batches > 20, "{played_lines} lines, {batches} summaries");
    Ok(())
}
