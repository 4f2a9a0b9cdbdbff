//! Request 9: two editions of the review rule. Which cuts are reportable, and the report of a lent cut diagram.

use crate::big::Big;
use crate::hash::Map;
use crate::lent::Lent;
use crate::listing::{fill, names_beyond, refused, Listing, Walk};
use crate::sets::Set;
use crate::tree::D;

/// The edge of edition 2, in billionths.
pub const EDGE: u64 = 1_000;
/// The areas that a report works in.
pub const REPORT_AREAS: usize = 2;

/// A product of so many chances: a whole number of D^members.
#[derive(Clone, Debug, PartialEq, Eq)]
pub struct Product {
    pub number: Big,
    pub members: u32,
}

impl Product {
    /// Of no chance: 1.
    pub fn one() -> Product {
        Product { number: Big::from(1), members: 0 }
    }

    pub fn of(members: &[u32], chances: &[u32]) -> Product {
        Product::one().with(members, chances)
    }

    pub fn times(&self, chance: u32) -> Product {
        Product { number: self.number.times(chance), members: self.members + 1 }
    }

    /// Times the chances of more members.
    fn with(&self, members: &[u32], chances: &[u32]) -> Product {
        let factors: Vec<u32> = members.iter().map(|&event| chances[event as usize]).collect();
        Product { number: self.number.times_all(&factors), members: self.members + members.len() as u32 }
    }

    /// Whether it is at least the other: the one of fewer members is brought to the other's D^members.
    pub fn at_least(&self, other: &Product) -> bool {
        let own = self.number.times_power(D, other.members.saturating_sub(self.members));
        own >= other.number.times_power(D, self.members.saturating_sub(other.members))
    }

    /// At least 1,000 billionths: number / D^members ≥ 1,000 / D.
    pub fn reaches_the_edge(&self) -> bool {
        self.at_least(&Product { number: Big::from(EDGE), members: 1 })
    }
}

/// Under edition 1 a cut of at most two members; edition 2 adds any cut whose product of chances is at least 1,000 billionths.
pub fn reportable(edition: u32, cut: &Set, chances: &[u32]) -> bool {
    let members = cut.members();
    members.len() <= 2 || edition == 2 && Product::of(&members, chances).reaches_the_edge()
}

/// What a report call answers: a listing of reportable cuts, and its edition, which is 0 in a refusal.
#[derive(Clone, Debug, PartialEq, Eq)]
pub struct Report {
    pub edition: u32,
    pub listing: Listing,
}

/// 23, then 12, 9, 7, 13, 14; the place is 0. `areas_suffice` says whether the work areas have their smallest lengths.
pub fn report(
    edition: u32,
    diagram: &Lent,
    chances: &[u32],
    areas_suffice: bool,
    after: Option<Set>,
    room: usize,
) -> Report {
    let refusal = refusal(edition, diagram, chances, areas_suffice, after);
    let listing = match refusal {
        Some(number) => refused(number),
        None => fill(reportable_cuts(edition, diagram, chances, after), after, room),
    };
    Report { edition: if listing.number == 0 { edition } else { 0 }, listing }
}

/// All refusals but 14.
pub fn refusal(edition: u32, diagram: &Lent, chances: &[u32], areas_suffice: bool, after: Option<Set>) -> Option<u32> {
    if ![1, 2].contains(&edition) {
        return Some(23);
    }
    if !diagram.is_diagram() {
        return Some(12);
    }
    let events = diagram.event_count as usize;
    if chances.len() < events || !areas_suffice {
        return Some(9);
    }
    // Under either edition.
    if chances[..events].iter().any(|&chance| chance > D) {
        return Some(7);
    }
    names_beyond(diagram, after).then_some(13)
}

/// The reportable cuts after the start, in order.
pub fn reportable_cuts<'a>(
    edition: u32,
    diagram: &'a Lent,
    chances: &'a [u32],
    after: Option<Set>,
) -> impl Iterator<Item = Set> + 'a {
    reportable_cuts_by(edition, diagram, chances, after, &|sound, failed| sound.at_least(failed))
}

/// Which of the products below the sound and below the failed branch stands for the node's: the sound one?
pub type Prefers<'a> = &'a dyn Fn(&Product, &Product) -> bool;

/// A node is entered only if it leads to a reportable cut: by the smallest set below it, or by the likeliest. Wrong programs prefer another.
pub fn reportable_cuts_by<'a>(
    edition: u32,
    diagram: &'a Lent,
    chances: &'a [u32],
    after: Option<Set>,
    prefers: Prefers,
) -> impl Iterator<Item = Set> + 'a {
    let best = best_below(diagram, chances, edition == 2, prefers);
    let enter = move |node: u32, members: &Set| {
        let members = members.members();
        let best = &best[&node];
        members.len() + best.fewest <= 2
            || best.likeliest.as_ref().is_some_and(|likeliest| likeliest.with(&members, chances).reaches_the_edge())
    };
    Walk::where_worth(diagram, after, Box::new(enter)).filter(move |cut| reportable(edition, cut, chances))
}

/// Of the sets below a node, which is not 0: the smallest number of members, and the greatest product where products count.
struct Best {
    fewest: usize,
    likeliest: Option<Product>,
}

/// Of the leaf 1 and of every node that the root reaches.
fn best_below(diagram: &Lent, chances: &[u32], products: bool, prefers: Prefers) -> Map<u32, Best> {
    let mut best = Map::default();
    best.insert(1, Best { fewest: 0, likeliest: products.then(Product::one) });
    for node in diagram.reached() {
        let chance = chances[diagram.event(node) as usize];
        // The failed branch is not 0, the sound one may be.
        let failed: &Best = &best[&diagram.failed(node)];
        let mut own = Best {
            fewest: failed.fewest + 1,
            likeliest: failed.likeliest.as_ref().map(|product| product.times(chance)),
        };
        if let Some(sound) = best.get(&diagram.sound(node)) {
            own.fewest = own.fewest.min(sound.fewest);
            if let (Some(failed), Some(sound)) = (&own.likeliest, &sound.likeliest) {
                if prefers(sound, failed) {
                    own.likeliest = Some(sound.clone());
                }
            }
        }
        best.insert(node, own);
    }
    best
}
