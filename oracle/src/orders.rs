//! The stream of order files with the report of each, and how often each choice came up in it.
use crate::choices::Maker;
use crate::frames::HandOn;
use crate::order_edges::edges;
use crate::order_ends as ends;
use crate::order_file::{BAD_ORDER, OrderFile};
use crate::page_sets::Sheet;
use crate::rust::{Claim, DONE, Heard, MAP_FULL, UNKNOWN_KIND, tree_claims};
use crate::startup::original::{held, kind_of};
use crate::tally::Tally;
use crate::whole::{build, refused, registrations};
use std::collections::BTreeMap;
use std::io;

/// A file that the Rust has built. The Rust holds its map.
pub struct Built {
    pub order: OrderFile,
    /// What the tree claims.
    pub tree: Vec<Heard>,
    /// All registrations, in their order.
    pub claims: Vec<Claim>,
    /// Base and size of each.
    pub areas: Vec<[u64; 2]>,
    sheet: Sheet,
}

/// The build of a file, or the number of its refusal. What came of it is noted.
///
/// The order of the checks is document 01's: 9, 1, the tree's own numbers, 2. Then comes 3, but with as many slots as
/// entries it never does, since there are never more areas than entries.
pub fn built(file: &[u8], noted: &mut Vec<&'static str>) -> Result<Built, u64> {
    let order = OrderFile::read(file).ok_or(BAD_ORDER)?;
    // The Rust's enum cannot hold another number, so the harness judges it.
    if !order.list.iter().all(is_known) {
        return Err(UNKNOWN_KIND);
    }
    let tree = tree_claims(&order.tree, order.arm)?;
    let claims = registrations(&order, &tree);
    let areas = build(&order, &tree);
    let map = held();
    let stop = refused(&claims);
    noted.extend(stop.map(|at| ends::full(at, order.list.len(), tree.len())));
    assert_eq!(areas.is_err(), stop.is_some(), "the whole build and its single registrations differ");
    let areas = areas?;
    assert_eq!(held(), map, "the whole build and its single registrations differ in the map");
    let sheet = Sheet::new(&claims, order.low, order.high);
    assert_eq!(areas, sheet.areas(), "the areas are not the usable pages");
    noted.extend([ends::held(map.len()), ends::areas(areas.len()), ends::share(&sheet)]);
    Ok(Built { order, tree, claims, areas, sheet })
}

fn is_known(claim: &Claim) -> bool {
    kind_of(claim[2]).is_some()
}

/// The lines for some areas: their count, and each.
pub fn area_lines(areas: &[[u64; 2]]) -> String {
    let mut text = format!("areas {}\n", areas.len());
    for [base, size] in areas {
        text += &format!("{base:016x} {size:016x}\n");
    }
    text
}

/// What must be printed for a file that is built.
fn report(Built { areas, sheet, .. }: &Built) -> String {
    area_lines(areas) + &format!("pages {} {} {}\n", sheet.free, sheet.usable, sheet.share())
}

/// What else a file could have been refused for than the number that it is: the tree's own, and a list without room.
fn also(file: &[u8], answer: u64) -> Vec<u64> {
    let Some(order) = OrderFile::read(file) else {
        return Vec::new();
    };
    let tree = tree_claims(&order.tree, order.arm).err().filter(|number| *number != answer);
    let known: Vec<Claim> = order.list.into_iter().filter(is_known).collect();
    tree.into_iter().chain(refused(&known).map(|_| MAP_FULL)).collect()
}

/// What must be printed for a file that is refused.
pub fn refusal(answer: u64) -> String {
    format!("refused {answer}\n")
}

/// Counts what a stream has.
#[derive(Default)]
struct Counts {
    tally: Tally,
    /// Of the refused: their number, and another that they could have been refused for.
    both: BTreeMap<(u64, u64), u64>,
}

impl Counts {
    fn add(&mut self, file: &[u8], answer: u64, names: &[&'static str]) {
        self.tally.answer(answer);
        self.tally.choices(names, answer == DONE);
        if answer != DONE && answer != MAP_FULL {
            for other in also(file, answer) {
                *self.both.entry((answer, other)).or_default() += 1;
            }
        }
    }

    fn print(&self) {
        let both: Vec<String> =
            self.both.iter().map(|((answer, other), times)| format!("{answer} before {other} {times}")).collect();
        self.tally.print_answers();
        eprintln!("at fault twice: {}", both.join(", "));
        self.tally.print_choices();
    }
}

/// Hands on the cases of a seed, each a file and its text: the named ones, and then random ones. How often each
/// choice was made goes to standard error.
pub fn stream(seed: u64, count: usize, hand_on: HandOn) -> io::Result<()> {
    let mut counts = Counts::default();
    let mut maker = Maker::new(seed);
    let mut named = edges().into_iter();
    for _ in 0..count {
        let file = named.next().map_or_else(|| maker.order_file(), |(_, file)| file);
        let mut names: Vec<&'static str> = maker.chosen.iter().copied().collect();
        let report = built(&file, &mut names).map(|built| report(&built));
        counts.add(&file, report.as_ref().err().copied().unwrap_or(DONE), &names);
        hand_on(file, report.unwrap_or_else(refusal))?;
    }
    counts.tally.offered(&maker.offered);
    counts.tally.offered(ends::all());
    counts.print();
    Ok(())
}
