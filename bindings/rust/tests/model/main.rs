//! The library against an independent model: lists of calls at random from a seed, with copies that overlap changes.
//!
//! The model has the store and the copy as records, written from the paper's rules ([`store`], [`copier`]). After every call
//! the answers are compared, the store's bytes with those of a second store without a copy, and desk and image with what the
//! records say of them ([`laid`]); every few calls what the store holds; at a finish what demand 3 says ([`history`]) and every
//! entry and byte of the copy.
//!
//! `HONECERISE_CALLS` and `HONECERISE_SEED` say how many calls and from which seed:
//! `HONECERISE_CALLS=10000000 HONECERISE_SEED=7 cargo test --offline --test model -- --nocapture`. A list that fails is made
//! shorter and printed as commands of `replay`, the shortest first.
mod call;
mod copier;
mod generate;
mod history;
mod laid;
mod random;
mod replaced;
mod seen;
mod session;
mod shrink;
mod store;

use call::List;
use random::Random;
use session::{Session, Tally};

const CALLS: u64 = 2_000_000;
const SEED: u64 = 1;
/// So many failing lists are looked for before the shortest is said.
const FAILURES: usize = 4;

fn wish(name: &str, default: u64) -> u64 {
    std::env::var(name).map_or(default, |text| text.parse().unwrap_or_else(|_| panic!("{name} is not a number: {text}")))
}

/// A list made as it is run, since the calls are aimed by what the ones before left. `Err` has a list that fails.
fn list(random: &mut Random) -> Result<Tally, List> {
    let (sizes, aim) = generate::sizes(random);
    let mut session = Session::new(sizes);
    let mut calls = vec![];
    let mut first = generate::prelude(random, &aim).into_iter();
    for _ in 0..random.between(40, 300) {
        let call = first.next().unwrap_or_else(|| generate::next(random, &aim, &session));
        let result = session.call(&call);
        calls.push(call);
        if result.is_err() {
            return Err(List { sizes, calls });
        }
    }
    if session.contents().is_err() {
        return Err(List { sizes, calls });
    }
    Ok(session.tally())
}

fn report(mut failing: Vec<List>, seed: u64) -> ! {
    failing = failing.into_iter().map(shrink::shrink).collect();
    failing.sort_by_key(|list| list.calls.len());
    for list in &failing {
        let (k, why) = shrink::failure(list).expect("it fails");
        println!("{list}# call {} of {}: {why}\n", k + 1, list.calls.len());
    }
    panic!("{} lists from seed {seed} fail, the shortest with {} calls", failing.len(), failing[0].calls.len());
}

#[test]
fn calls_at_random() {
    let (calls, seed) = (wish("HONECERISE_CALLS", CALLS), wish("HONECERISE_SEED", SEED));
    let mut random = Random::new(seed);
    let (mut tally, mut lists, mut failing) = (Tally::default(), 0, vec![]);
    while (tally.calls as u64) < calls && failing.len() < FAILURES {
        lists += 1;
        match list(&mut random) {
            Ok(more) => tally.add(&more),
            Err(list) => {
                tally.calls += list.calls.len();
                failing.push(list);
            }
        }
    }
    if !failing.is_empty() {
        report(failing, seed);
    }
    println!("{lists} lists from seed {seed}: {tally:?}");
    // the lists reach what they aim at
    if calls >= CALLS {
        assert!((4..=18).all(|number| tally.refused[number] > 0), "a refusal never came: {:?}", tally.refused);
        assert_eq!(tally.refused[1..4], [0; 3], "1 to 3 never come on buffers that only the library writes");
        let aims = [
            tally.finishes,
            tally.claimed,
            tally.reused,
            tally.reused_as_directory,
            tally.zeroed,
            tally.dropped,
            tally.displaced,
            tally.address_blocks,
            tally.crossed_copied,
            tally.crossed_uncopied,
            tally.crossed_idle,
            tally.burst_steps,
            tally.burst_finishes,
            tally.burst_stops,
        ];
        let aims = aims.into_iter().chain(tally.replaced.all());
        assert!(aims.into_iter().all(|count| count > 100), "the lists miss their aim: {tally:?}");
    }
}
