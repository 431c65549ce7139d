//! One consumer, one download: the program plays the network.
use vosdrieng::{Act, Cache, Error, Event, Limits, Load, Request};

fn show(act: Act<'_>) {
    match act {
        Act::Open { target, .. } => println!("ask for {}", target.escape_ascii()),
        Act::Data { consumer, bytes, .. } => {
            println!("consumer {consumer} is given {}", bytes.escape_ascii())
        }
        other => println!("{other:?}"),
    }
}

fn main() -> Result<(), Error> {
    let (target, poll) = (b"http://a.test/film", Event::Poll { consumer: 1, want: 65536 });
    let mut cache = Cache::new(Limits { max_entry: 1 << 24, max_total: 1 << 28 })?;
    let request = Request { method: b"GET", load: Load::Normal, target, fields: b"" };
    cache.step(1000, &Event::Start { consumer: 1, request })?;
    cache.step(1000, &poll)?.for_each(show);
    let fields = b"content-length: 5\ncache-control: max-age=60\n";
    cache.step(1000, &Event::Head { exchange: 1, status: 200, fields })?;
    cache.step(1000, &poll)?.for_each(show);
    cache.step(1000, &poll)?.for_each(show);
    cache.step(1000, &Event::Piece { exchange: 1, bytes: b"hello" })?;
    cache.step(1000, &poll)?.for_each(show);
    Ok(())
}
