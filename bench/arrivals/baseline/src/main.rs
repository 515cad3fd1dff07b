//! The work of `arrivals_bench` by what others would use. Words: `alone`, `locked`, `channels` or `actors`, and then PRODUCERS KEYS ITEMS
//! WORKERS [ROOM].

mod actors;
mod alone;
mod channels;
mod items;
mod locked;
mod shards;

use items::{Asked, tell};

const USAGE: &str = "words: alone|locked|channels|actors PRODUCERS KEYS ITEMS WORKERS [ROOM]";

fn asked(words: &[String]) -> Option<Asked> {
    let numbers: Vec<u32> = words
        .iter()
        .map(|w| w.parse().ok())
        .collect::<Option<_>>()?;
    let (producers, keys, items, workers, room) = match numbers[..] {
        [producers, keys, items, workers] => (producers, keys, items, workers, 1_024),
        [producers, keys, items, workers, room] => (producers, keys, items, workers, room),
        _ => return None,
    };
    Some(Asked {
        producers,
        keys,
        items,
        workers,
        room: room as usize,
    })
}

fn main() {
    let words: Vec<String> = std::env::args().skip(1).collect();
    let run = match words.first().map(String::as_str) {
        Some("alone") => alone::run,
        Some("locked") => locked::run,
        Some("channels") => channels::run,
        Some("actors") => actors::run,
        _ => panic!("{USAGE}"),
    };
    let asked = asked(&words[1..]).expect(USAGE);
    let (keys, total) = run(asked);
    tell(asked, keys, total);
}
