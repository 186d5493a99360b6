// SPDX-License-Identifier: MPL-2.0
//! boundary test [ROUNDS]     what ./test runs: a fixed seed, each count on a line
//! boundary replay FOLDER     what libFuzzer kept, again
//! boundary slice             a small part of it, for valgrind
//! boundary fuzz SECONDS SEED rounds from this seed on, for so long
//! boundary round SEED ROUND  one round again, to look at a difference
//! boundary sweeps            the boundary cases of CASES.md alone
//! boundary seeds FOLDER      writes what libFuzzer starts from
//! boundary touch             reads one byte after a buffer: that must end it

use std::io::Write;
use std::panic::{AssertUnwindSafe, catch_unwind};
use std::process::exit;
use std::time::{Duration, Instant};

use boundary::gateways::any_gateway;
use boundary::guard::Room;
use boundary::hub_h::{self, Hub};
use boundary::payloads::{any_payload, any_presence};
use boundary::samples::{self, samples};
use boundary::sizes::{any_place, any_state, any_tag, every_wrong_size, long_message};
use boundary::sizes::{wide_fields, wide_numbers};
use boundary::state::{decode, decode_gateway, encode, encode_gateway};
use boundary::sweeps;
use boundary::wrapper::Wrapper;
use second::compare::{Comparison, Difference, Implementation, Tally};
use second::connection::State;
use second::generate::{case, client_case, write_case};
use second::prng::Prng;
use second::writer::message_length;

/// The seed of `./test`: "HUB.H".
const SEED: u64 = 0x48_55_42_2E_48;

/// A round's own generator.
fn prng(seed: u64, round: u64) -> Prng {
    Prng::new(Prng::new(seed.wrapping_add(round)).word())
}

/// Ends the run unless a part of it agrees; `name` says how to do that part again.
fn agree<T>(name: &str, part: impl FnOnce() -> Result<T, Difference>) -> T {
    match catch_unwind(AssertUnwindSafe(part)) {
        Ok(Ok(done)) => done,
        Ok(Err(Difference(text))) => {
            eprintln!("boundary: FAILED: {name}: the two differ\n{text}");
            exit(1);
        }
        Err(_) => {
            eprintln!("boundary: FAILED: {name}: see above");
            exit(1);
        }
    }
}

fn round<I: Implementation>(comparison: &mut Comparison<I>, seed: u64, round: u64) {
    let name = format!("boundary round {seed} {round}");
    agree(&name, || comparison.round(&mut prng(seed, round)));
}

/// What a round of the comparison does not reach: four calls of each.
fn beside(hub: &mut Hub, seed: u64, round: u64) {
    agree(&format!("boundary round {seed} {round}"), || {
        let mut prng = prng(!seed, round);
        for _ in 0..4 {
            any_state(hub, &mut prng);
            wide_fields(hub, &mut prng);
            any_place(hub, &mut prng);
            any_tag(hub, &mut prng);
            wide_numbers(hub, &mut prng);
            any_payload(hub, &mut prng);
            any_presence(hub, &mut prng);
            any_gateway(hub, &mut prng.aside());
        }
        Ok(())
    });
}

/// The header's constants are what the library, document 01 and MS-CDP (2.2.2.2, 2.2.2.3) go by.
fn constants(hub: &Hub) {
    agree("constants", || {
        assert_eq!(hub.version(), hub_h::version_here());
        let numbers: Vec<u32> = (0..=25).chain([255]).collect();
        assert_eq!(hub_h::refusals()[..], numbers);
        assert_eq!(hub_h::sizes(), [151, 11, 8, 3, 3, 3, 1, 32, 64, 64, 13, 8, 32, 9, 4, 4, 17, 1]);
        let bounds = [42, 18_530, 65_535, 65_456, 64, 16_384, 2_048, 512, 2_567, 2_650, 64];
        assert_eq!(hub_h::bounds(), bounds);
        let (chain, payload) = (8 * 257 + 2, 7 + 2_048 + 512);
        assert_eq!(message_length(true, chain, 16_384), bounds[1]);
        assert_eq!([payload, message_length(true, 2, payload)], bounds[8..10]);
        assert_eq!(hub_h::no_entries(), [0, 0]);
        assert_eq!(hub_h::kinds(), [0, 1, 2, 3, 4, 5, 6, 7, 8, 9]);
        assert_eq!(hub_h::sealed(), [0, 1, 2]);
        assert_eq!(hub_h::types(), [1, 2, 4]);
        assert_eq!(hub_h::flags(), [1, 2, 4, 6, 8]);
        assert_eq!(hub_h::connects(), [0, 1, 2, 3, 6, 7, 8]);
        assert_eq!(hub_h::modes(), [0, 1, 2]);
        assert_eq!(hub_h::codes(), [0, 1, 2, 3, 4]);
        assert_eq!(hub_h::discoveries(), [0, 1]);
        assert_eq!(hub_h::devices(), [1, 6, 7, 8, 9, 11, 12, 13, 14, 15, 16]);
        assert_eq!(hub_h::states(), State::ALL.map(|state| state as u64));
        assert_eq!(hub_h::gateway_states(), [0, 1, 2, 3, 4]);
        assert_eq!(hub_h::gateway_places(), [0, 8, 9, 17]);
        assert_eq!(hub_h::nothing_due(), 256);
        assert_eq!(hub_h::connect_words(), std::array::from_fn(|place| place));
        assert_eq!(hub_h::discovery_words(), std::array::from_fn(|place| place));
        Ok(())
    });
}

/// Encoding and decoding here undo each other, so that comparing one compares the other.
fn states(prng: &mut Prng) {
    agree("states", || {
        for _ in 0..1_000 {
            let connection = case(prng).connection;
            assert_eq!(decode(&encode(&connection)), connection);
            let client = client_case(prng).client;
            assert_eq!(decode_gateway(&encode_gateway(&client)), client);
        }
        Ok(())
    });
}

fn wrong_sizes(hub: &mut Hub, times: u64) -> u64 {
    let mut prng = Prng::new(SEED);
    (0..times)
        .map(|_| {
            let (case, write) = (case(&mut prng), write_case(&mut prng));
            agree("wrong sizes", || Ok(every_wrong_size(hub, &mut prng, &case, &write)))
        })
        .sum()
}

fn say(tally: &Tally) -> String {
    let Tally {
        steps,
        conversations,
        gateway_steps,
        meetings,
        reads,
        writes,
        payloads,
        cuts,
        digests,
    } = tally;
    format!(
        "{steps} steps in {conversations} conversations and single, {gateway_steps} of gateways in \
         {meetings} conversations of both sides and single, {reads} messages read, {writes} written, \
         {payloads} payloads by themselves, {cuts} cut, {digests} digests with their tags"
    )
}

/// Each of these came; says how often the rarest of them did.
fn rarest(counts: impl Iterator<Item = (u64, String)>) -> String {
    let (times, rarest) = counts.min().expect("some");
    agree(&rarest, || {
        assert!(times > 0, "{rarest} never came");
        Ok(())
    });
    format!("the rarest {times} times ({rarest})")
}

/// Every refusal of document 01, every kind of answer and a short report buffer came in the steps;
/// says which was rarest.
fn all_came(hub: &Hub) -> String {
    let refusals = (1..=25).map(|number| (hub.numbers[number], format!("refusal {number}")));
    let kinds = (1..=6).map(|kind| (hub.kinds[kind], format!("kind {kind}")));
    let short = hub.numbers[hub_h::WRONG_BUFFER as usize];
    let all = refusals.chain(kinds).chain([(short, "short report buffer".into())]);
    let rarest = rarest(all);
    format!(
        "all 25 refusals and 6 kinds of answers came, {rarest}, and {short} times a report buffer was \
         short"
    )
}

/// The same for the steps of gateways, which have fewer refusals and kinds.
fn all_came_to_gateways(hub: &Hub) -> String {
    let numbers = (1..=16).chain([24, 25]);
    let refusals = numbers.map(|number| (hub.gateway_numbers[number], format!("refusal {number}")));
    let kinds = [2, 7, 8, 9].map(|kind| (hub.gateway_kinds[kind], format!("kind {kind}")));
    let rarest = rarest(refusals.chain(kinds));
    format!("all 18 refusals and 4 kinds of answers came, {rarest}")
}

/// The boundary cases of CASES.md, a line for each sweep.
fn every_sweep() {
    let mut comparison = Comparison::new(Hub::default());
    let (mut sweeps, mut cases) = (0, 0);
    for sweep in sweeps::all().into_iter().chain(sweeps::of_header()) {
        agree(sweep.name, || sweep.run(&mut comparison));
        println!("boundary: {}: {} cases alike", sweep.name, sweep.cases);
        (sweeps, cases) = (sweeps + 1, cases + sweep.cases);
    }
    println!("boundary: all {cases} cases of {sweeps} sweeps alike");
}

/// The whole test: so many rounds, a fault at every place, the sweeps, wrong sizes, the wrapper.
fn test(rounds: u64) {
    let mut comparison = Comparison::new(Hub::default());
    constants(&comparison.other);
    states(&mut Prng::new(SEED));
    for number in 0..rounds {
        round(&mut comparison, SEED, number);
        beside(&mut comparison.other, SEED, number);
    }
    for number in 0..rounds / 20 {
        let name = format!("long message {number}");
        agree(&name, || long_message(&mut comparison, &mut prng(SEED, number)));
    }
    println!("boundary: alike: {}", say(&comparison.tally));
    println!("boundary: in these steps {}", all_came(&comparison.other));
    println!("boundary: in those of gateways {}", all_came_to_gateways(&comparison.other));
    println!(
        "boundary: alike: {} each of steps on states of any bytes, writes with wide words, places by \
         any words, tags compared, numbers of 64 bits, payloads of any words, Presence Responses of \
         any words, gateways of any bytes",
        4 * rounds
    );
    let mut faults = Comparison::new(Hub::default());
    let messages = agree("a fault at every place", || samples::every_fault(&mut faults));
    println!(
        "boundary: a fault at every place of {messages} sample messages: {} steps, {} of gateways and {} \
         writes alike",
        faults.tally.steps, faults.tally.gateway_steps, faults.tally.writes
    );
    every_sweep();
    let calls = wrong_sizes(&mut comparison.other, 1 + rounds / 1_000);
    println!("boundary: {calls} calls with a buffer of wrong size change nothing");
    let mut wrapper = Comparison::new(Wrapper);
    for number in 0..rounds / 20 {
        round(&mut wrapper, !SEED, number);
    }
    agree("the wrapper's samples", || samples::every_fault(&mut wrapper));
    println!("boundary: the Rust wrapper alike: {}", say(&wrapper.tally));
}

/// The inputs in a folder, each as libFuzzer would give it.
fn replay(folder: &str) {
    let entries = std::fs::read_dir(folder).expect("the folder is there");
    let mut paths: Vec<_> = entries.map(|entry| entry.expect("an entry").path()).collect();
    paths.sort();
    let mut comparison = Comparison::new(Hub::default());
    for path in &paths {
        let data = std::fs::read(path).expect("an input");
        agree(&path.display().to_string(), || boundary::fuzz::one(&mut comparison, &data));
    }
    println!("boundary: alike: {} inputs of {folder}: {}", paths.len(), say(&comparison.tally));
}

/// Part of the test, for valgrind.
fn slice() {
    let mut comparison = Comparison::new(Hub::default());
    for number in 0..10 {
        round(&mut comparison, SEED, number);
        beside(&mut comparison.other, SEED, number);
    }
    let (keys, messages) = samples();
    for (name, message) in messages.iter().filter(|(_, message)| message.len() < 100) {
        let (case, write) = samples::cases(&keys, message);
        agree(name, || comparison.read(&case));
        agree(name, || comparison.step(&case));
        agree(name, || comparison.every_output(&write));
    }
    let calls = wrong_sizes(&mut comparison.other, 1);
    println!("{} and {calls} calls with a buffer of wrong size", say(&comparison.tally));
}

/// Rounds for so long; says now and then how far it has come.
fn fuzz(seconds: u64, seed: u64) {
    let (start, mut said) = (Instant::now(), Instant::now());
    let mut comparison = Comparison::new(Hub::default());
    let mut number = 0;
    while start.elapsed() < Duration::from_secs(seconds) {
        round(&mut comparison, seed, number);
        beside(&mut comparison.other, seed, number);
        number += 1;
        if said.elapsed() > Duration::from_secs(60) {
            said = Instant::now();
            println!("fuzz: {number} rounds from seed {seed}");
            std::io::stdout().flush().ok();
        }
    }
    println!("fuzz: {number} rounds from seed {seed} alike: {}", say(&comparison.tally));
}

fn main() {
    let words: Vec<String> = std::env::args().skip(1).collect();
    let number = |at: usize| words.get(at).and_then(|word| word.parse::<u64>().ok());
    match (words.first().map(String::as_str), number(1), number(2)) {
        (Some("test"), rounds, None) => test(rounds.unwrap_or(10_000)),
        (Some("replay"), None, None) if words.len() == 2 => replay(&words[1]),
        (Some("slice"), None, None) => slice(),
        (Some("seeds"), None, None) if words.len() == 2 => {
            for (number, seed) in boundary::fuzz::seeds().iter().enumerate() {
                let path = std::path::Path::new(&words[1]).join(format!("seed-{number}"));
                std::fs::write(path, seed).expect("the folder is there");
            }
        }
        (Some("touch"), None, None) => {
            let mut room = Room::new(10);
            room.lend(b"ten bytes.");
            println!("{}", room.touch());
        }
        (Some("sweeps"), None, None) => every_sweep(),
        (Some("fuzz"), Some(seconds), Some(seed)) => fuzz(seconds, seed),
        (Some("round"), Some(seed), Some(number)) => {
            let mut comparison = Comparison::new(Hub::default());
            round(&mut comparison, seed, number);
            beside(&mut comparison.other, seed, number);
            println!("boundary: round {number} of seed {seed} agrees: {}", say(&comparison.tally));
        }
        _ => {
            eprintln!(
                "usage: boundary test [ROUNDS] | sweeps | replay FOLDER | slice | touch | seeds FOLDER \
                 | fuzz SECONDS SEED | round SEED ROUND"
            );
            exit(2);
        }
    }
}
