//! The stream of order files with late claims behind them, and what must be printed for each. The map and its areas
//! are the Rust's: a late claim is one more registration, after all sources.
use crate::cases::{FREE, NULL};
use crate::choices::Maker;
use crate::frames::HandOn;
use crate::late_edges::edges;
use crate::order_file::{ENTRY, OrderFile, end, entry};
use crate::orders::{Built, area_lines, built, refusal};
use crate::page_sets::Sheet;
use crate::rust::{self, Claim, DONE, MAP_FULL, UNKNOWN_KIND};
use crate::startup::original::{held, kind_of};
use crate::tally::Tally;
use crate::whole::{self, SLOTS};
use std::io;

const NOT_LATE: u64 = 13;

const ENDED: [&str; 6] = [
    "ended: no claim",
    "ended: all claims done",
    "ended: the file refused",
    "ended: a claim refused with 1",
    "ended: a claim refused with 13",
    "ended: a claim refused with 2",
];

/// What came of the claims behind a file.
struct Run {
    /// How many were done.
    done: usize,
    /// Why the next one was not.
    refused: Option<u64>,
    areas: Vec<[u64; 2]>,
}

/// The answer to one late claim on the map that the Rust holds: 1, 13, then 2.
///
/// 14 and 3 cannot come: the areas are those of this map, and there are never more of them than entries.
fn claimed(claim: Claim) -> u64 {
    let [_, size, kind] = claim;
    match kind_of(kind) {
        // The Rust's enum cannot hold another number, so the harness judges it.
        None => UNKNOWN_KIND,
        // The Rust would register it.
        Some(_) if kind == NULL || kind == FREE => NOT_LATE,
        Some(_) => {
            let before = held();
            let answer = rust::register(claim);
            assert!(size != 0 || answer == DONE && held() == before, "a claim of size 0 is not just done");
            answer
        }
    }
}

/// Makes the claims one after the other up to the first refusal, on the map that the Rust holds of a build.
fn run(built: &Built, claims: &[Claim]) -> Run {
    let stop = claims.iter().map(|claim| claimed(*claim)).enumerate().find(|(_, answer)| *answer != DONE);
    let done = stop.map_or(claims.len(), |(at, _)| at);
    let areas = areas_held(&built.order);
    let made = [&built.claims, &claims[..done]].concat();
    let (low, high) = (built.order.low, built.order.high);
    assert_eq!(areas, Sheet::new(&made, low, high).areas(), "the areas are not the usable pages");
    assert_afresh(built, &claims[..done], &areas);
    Run { done, refused: stop.map(|(_, answer)| answer), areas }
}

/// The Rust's own areas of the map that it holds.
fn areas_held(order: &OrderFile) -> Vec<[u64; 2]> {
    let build = rust::build(order.low, order.high, 2 * SLOTS);
    assert_eq!(build.answer, DONE, "more areas than slots");
    build.numbers.chunks_exact(2).take(build.count as usize).map(|pair| [pair[0], pair[1]]).collect()
}

/// A build afresh with the claims in its list has the same areas, unless it finds the map full on its way.
fn assert_afresh(built: &Built, claims: &[Claim], areas: &[[u64; 2]]) {
    let list = [&built.order.list, claims].concat();
    match whole::build(&OrderFile { list, ..built.order.clone() }, &built.tree) {
        Ok(afresh) => assert_eq!(areas, afresh, "a build afresh has other areas"),
        Err(answer) => assert_eq!(answer, MAP_FULL),
    }
}

/// The late claims in the bytes behind a file. Fewer bytes than an entry has are not read.
fn claims(rest: &[u8]) -> Vec<Claim> {
    rest.chunks_exact(ENTRY).map(entry).collect()
}

/// What must be printed for an input, and its answer. What came of it is noted.
fn text(input: &[u8], noted: &mut Vec<&'static str>) -> (String, u64) {
    let (file, rest) = input.split_at(end(input));
    let claims = claims(rest);
    let run = match built(file, noted) {
        Ok(built) => run(&built, &claims),
        Err(answer) => {
            noted.push(ENDED[2]);
            return (refusal(answer), answer);
        }
    };
    noted.push(match run.refused {
        None => ENDED[usize::from(run.done > 0)],
        Some(UNKNOWN_KIND) => ENDED[3],
        Some(NOT_LATE) => ENDED[4],
        Some(_) => ENDED[5],
    });
    let last = match run.refused {
        None => format!("late {}\n", run.done),
        Some(answer) => format!("refused {answer} at {}\n", run.done),
    };
    (area_lines(&run.areas) + &last, run.refused.unwrap_or(DONE))
}

/// Hands on the cases of a seed, each an input and its text: the named ones, and then random ones. How often each
/// choice was made goes to standard error.
pub fn stream(seed: u64, count: usize, hand_on: HandOn) -> io::Result<()> {
    let mut tally = Tally::default();
    let mut maker = Maker::new(seed);
    let mut named = edges().into_iter();
    for _ in 0..count {
        let input = named.next().map_or_else(|| maker.late_input(), |(_, input)| input);
        let mut names: Vec<&'static str> = maker.chosen.iter().copied().collect();
        let (text, answer) = text(&input, &mut names);
        tally.answer(answer);
        tally.choices(&names, answer == DONE);
        hand_on(input, text)?;
    }
    tally.offered(&maker.offered);
    tally.offered(&ENDED);
    tally.print_answers();
    tally.print_choices();
    Ok(())
}
