//! What the calls answer, and what they leave.
use std::thread;
use vosdrieng::{Act, Cache, Denial, Error, Event, LineError, Limits, Load, Request};

const LIMITS: Limits = Limits { max_entry: 1 << 24, max_total: 1 << 28 };
const TARGET: &[u8] = b"http://a.test/film";

fn start(consumer: u64, target: &[u8]) -> Event<'_> {
    Event::Start { consumer, request: Request { method: b"GET", load: Load::Normal, target, fields: b"" } }
}

/// A cache with a body of five bytes, which a consumer has had.
fn filled() -> Cache {
    let mut cache = Cache::new(LIMITS).expect("a cache");
    let fields = b"cache-control: max-age=60\ncontent-length: 5\n";
    let poll = Event::Poll { consumer: 1, want: 65536 };
    let came = [
        start(1, TARGET),
        poll,
        Event::Head { exchange: 1, status: 200, fields },
        poll,
        poll,
        Event::Piece { exchange: 1, bytes: b"hello" },
        poll,
        poll,
    ];
    for event in &came {
        assert!(
            !cache.step(1000, event).expect("it is answered").any(|act| matches!(act, Act::Denied { .. }))
        );
    }
    cache
}

fn given(cache: &mut Cache, consumer: u64) -> Vec<u8> {
    cache.step(1001, &start(consumer, TARGET)).expect("it is answered");
    let mut body = Vec::new();
    for _ in 0..3 {
        for act in cache.step(1001, &Event::Poll { consumer, want: 65536 }).expect("it is answered") {
            if let Act::Data { bytes, .. } = act {
                body.extend_from_slice(bytes);
            }
        }
    }
    body
}

#[test]
fn what_is_stored_is_given_again() {
    let mut cache = filled();
    assert_eq!(given(&mut cache, 2), b"hello");
    assert_eq!((cache.moment(), cache.live(), cache.faults()), (1001, 0, 0));
}

#[test]
fn a_cache_goes_on_from_an_image() {
    let image = filled().image().expect("nobody is live");
    let mut cache = Cache::open(LIMITS, &image).expect("it is an image");
    assert_eq!(given(&mut cache, 2), b"hello");
    assert_eq!(Cache::open(LIMITS, &image[1..]).unwrap_err(), Error::BadImage);
    assert_eq!(Cache::open(Limits { max_total: 1, ..LIMITS }, &image).unwrap_err(), Error::Full);
}

#[test]
fn a_refused_call_changes_nothing() {
    let mut cache = Cache::new(LIMITS).expect("a cache");
    cache.step(1000, &start(1, TARGET)).expect("it is answered");
    let refused = [
        (999, Event::Cancel { consumer: 1 }, Error::BadMoment),
        (1000, Event::Cancel { consumer: 1 << 62 }, Error::Limit),
        (1000, Event::Doom { target: b"film" }, Error::BadTarget),
        (1000, Event::Head { exchange: 1, status: 200, fields: b"x" }, Error::BadFields),
    ];
    for (now, event, why) in refused {
        assert_eq!(cache.step(now, &event).err(), Some(why));
    }
    assert_eq!(cache.image().unwrap_err(), Error::Live);
    assert_eq!((cache.moment(), cache.live()), (1000, 1));
}

#[test]
fn a_denied_event_is_an_act() {
    let mut cache = Cache::new(LIMITS).expect("a cache");
    let acts: Vec<Act<'_>> = cache.step(1, &Event::End { exchange: 7 }).expect("it is answered").collect();
    assert_eq!(acts, [Act::Denied { why: Denial::NoExchange }]);
}

#[test]
fn a_cache_goes_to_another_thread() {
    let mut cache = filled();
    assert_eq!(thread::spawn(move || given(&mut cache, 2)).join().expect("it ends"), b"hello");
}

#[test]
fn a_text_is_answered_by_its_report_however_it_is_cut() {
    let top = concat!(env!("CARGO_MANIFEST_DIR"), "/../../examples/first");
    let schedule = std::fs::read(format!("{top}.schedule")).expect("the schedule");
    let due = std::fs::read(format!("{top}.report")).expect("the report");
    for most in [1, 7, schedule.len()] {
        let mut cache = Cache::new(LIMITS).expect("a cache");
        let mut report = Vec::new();
        for piece in schedule.chunks(most) {
            report.extend_from_slice(cache.schedule(piece).expect("it is read"));
        }
        cache.schedule_end().expect("it is whole");
        assert!(report == due, "in pieces of {most}");
    }
}

#[test]
fn a_refused_line_is_told_and_stays_so() {
    let mut cache = Cache::new(LIMITS).expect("a cache");
    let refused = Err(Error::BadText { line: 3, why: LineError::Bad });
    assert_eq!(cache.schedule(b"at 5\ncancel 1\nfilm\n").map(<[u8]>::len), refused.map(|()| 0));
    assert!(cache.report().expect("it is told").starts_with(b"> 1\n"));
    assert_eq!(cache.schedule(b"cancel 1\n").map(<[u8]>::len), refused.map(|()| 0));
    assert_eq!(cache.report().expect("it is told"), b"");
    assert_eq!(cache.schedule_end(), refused);
    assert_eq!(cache.moment(), 5);
}

#[test]
fn a_text_begins_before_any_other_event() {
    let mut cache = Cache::new(LIMITS).expect("a cache");
    cache.step(1, &Event::End { exchange: 7 }).expect("it is answered");
    assert_eq!(cache.schedule(b"at 5\n").err(), Some(Error::Late));
    let mut cache = Cache::new(LIMITS).expect("a cache");
    cache.schedule(b"at 5\nend").expect("it is read");
    assert_eq!(cache.schedule_end().err(), Some(Error::BadText { line: 2, why: LineError::CutShort }));
}
