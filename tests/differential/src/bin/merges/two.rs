//! Two pages in either order, from random states: of different satellites in one subframe, of two subframes, of one satellite.
use crate::feeding::{Feeding, ends};
use crate::probe::{Told, When};
use crate::recording::Recording;
use crate::sides::{Page, RIGHT, Sides};
use crate::source::{Subframe, before, first, page_at};
use crate::tally::{Orders, Tally};
use differential::inputs::Random;

/// What differs, and the pages.
pub type Difference = (Recording, String);

/// Pairs of pages of each kind from one state.
const PAIRS: usize = 4;

/// A state that pages have made, and what the next pages are taken from.
struct State {
    feeding: Feeding,
    before: Vec<Page>,
    satellites: [u8; 5],
    at: Subframe,
}

impl State {
    fn after(new: Sides, before: Vec<Page>, satellites: [u8; 5], at: Subframe) -> Result<State, Difference> {
        match Feeding::after(new, &before, RIGHT) {
            Ok(feeding) => Ok(State { feeding, before, satellites, at }),
            Err(text) => Err((Recording { before, ..Recording::default() }, text)),
        }
    }

    fn random(random: &mut Random, new: Sides) -> Result<State, Difference> {
        let at = first(random);
        let mut satellites = [0; 5].map(|_| 1 + random.below(36) as u8);
        // two of them are neighbours in the lent bytes
        satellites[1] = satellites[0] % 36 + 1;
        let before = before(random, at, &satellites);
        State::after(new, before, satellites, at)
    }

    /// A page of the word that the satellite lacks, mostly, or of any.
    fn page(&self, random: &mut Random, satellite: u8, at: Subframe) -> Page {
        let count = self.feeding.sides.record.counts[usize::from(satellite) - 1];
        let lacks = if at == self.at { u32::from(count) % 15 } else { 0 };
        let word = if random.below(4) > 0 { lacks } else { random.below(15) as u32 };
        let bytes = if random.below(2) == 0 { vec![0; 5] } else { random.bytes(5) };
        page_at(random, satellite, at, word, &bytes)
    }

    /// Two different satellites.
    fn two(&self, random: &mut Random) -> [u8; 2] {
        let one = random.pick(&self.satellites);
        let other = random.pick(&self.satellites);
        [one, if one == other { one % 36 + 1 } else { other }]
    }

    /// Feeds both orders, which may end differently.
    fn either(&self, p: &Page, q: &Page, orders: &mut Orders) -> Result<[Feeding; 2], Difference> {
        let pages = [[p, q], [q, p]].map(|order| order.map(Page::clone).to_vec());
        let ends =
            ends(&self.feeding, &pages, RIGHT, &mut Tally::default()).map_err(|text| self.differs(p, q, text))?;
        let ends = ends.try_into().ok().expect("two ends");
        orders.add(same(&ends, p, q), [p, q].iter().any(|page| ends[0].told(page.when.satellite).iter().any(given)));
        Ok(ends)
    }

    fn differs(&self, p: &Page, q: &Page, text: String) -> Difference {
        (Recording::of_two(&self.before, p, q), text)
    }
}

/// Whether a pair came out.
fn given(told: &Told) -> bool {
    told.kind == 1
}

/// What of record, bytes and the two pages' answers is the same.
fn same([one, other]: &[Feeding; 2], p: &Page, q: &Page) -> [bool; 3] {
    let [record, bytes, _] = one.same_parts(other);
    let told = |end: &Feeding, first: &Page, second: &Page| -> [Told; 2] {
        let [a, b] = [first, second].map(|page| end.told(page.when.satellite));
        [a[0], b[b.len() - 1]]
    };
    let [of_q, of_p] = told(other, q, p);
    [record, bytes, told(one, p, q) == [of_p, of_q]]
}

/// Some pairs of each kind from a random state.
pub fn pairs(random: &mut Random, new: Sides, tally: &mut Tally) -> Result<(), Difference> {
    let state = State::random(random, new)?;
    let (week, subframe) = state.at;
    for _ in 0..PAIRS {
        let [one, other] = state.two(random);
        let later = random.pick(&[(week, (subframe + 1) % 20_160), ((week + 1) % 4096, subframe)]);
        let at = random.pick(&[state.at, state.at, state.at, later]);

        let (p, q) = (state.page(random, one, at), state.page(random, other, at));
        let [end, other_end] = state.either(&p, &q, &mut tally.commuting)?;
        end.same(&other_end).map_err(|text| state.differs(&p, &q, text))?;

        let (p, q) = (state.page(random, one, state.at), state.page(random, other, later));
        state.either(&p, &q, &mut tally.two_subframes)?;

        let (p, mut q) = (state.page(random, one, at), state.page(random, one, at));
        if random.below(2) == 0 {
            // the word after
            q.when.time = 30 * at.1 + (p.when.time + 2) % 30;
        }
        state.either(&p, &q, &mut tally.one_satellite)?;
    }
    Ok(())
}

/// Satellite 1 lacks its last word of subframe 0; the other page is satellite 2's first of subframe 1. Record, bytes and an answer
/// depend on the order.
pub fn example(tally: &mut Tally) -> Result<(), Difference> {
    let page =
        |satellite, time, bytes: [u8; 5]| Page { bytes: bytes.to_vec(), when: When { satellite, week: 0, time } };
    let before: Vec<Page> = (0..14).map(|word| page(1, 2 * word, [0; 5])).collect();
    let state = State::after(Sides::new(0), before, [1; 5], (0, 0))?;
    let (p, q) = (page(1, 28, [1, 0, 0, 0, 0]), page(2, 30, [0; 5]));
    let ends = state.either(&p, &q, &mut tally.two_subframes)?;
    let shown = ends.map(|end| (end.told(1), end.sides.record.counts[..2].to_vec(), end.sides.hkroot[14]));
    let expected = [(vec![Told::given(0, 0, 0)], vec![0, 1], 1), (vec![Told::NOTHING], vec![0, 0], 0)];
    if shown == expected { Ok(()) } else { Err(state.differs(&p, &q, format!("the example ends as {shown:?}"))) }
}
