//! The search of one key: just in time, by Wing and Gong (1993) and Lowe (2017), with fewer places.

use super::{Act, Call, End, NEVER};
use std::collections::{HashMap, HashSet};

/// Requests under way, by slot: 128 times N.
#[derive(Clone, Copy, PartialEq, Eq, Hash)]
struct Set<const N: usize>([u128; N]);

impl<const N: usize> Set<N> {
    const EMPTY: Set<N> = Set([0; N]);

    fn has(&self, slot: usize) -> bool {
        self.0[slot / 128] & (1 << (slot % 128)) != 0
    }
    fn with(mut self, slot: usize) -> Set<N> {
        self.0[slot / 128] |= 1 << (slot % 128);
        self
    }
    fn without(mut self, slot: usize) -> Set<N> {
        self.0[slot / 128] &= !(1 << (slot % 128));
        self
    }
    fn and(mut self, other: &Set<N>) -> Set<N> {
        self.0.iter_mut().zip(other.0).for_each(|(one, other)| *one &= other);
        self
    }
    fn and_not(mut self, other: &Set<N>) -> Set<N> {
        self.0.iter_mut().zip(other.0).for_each(|(one, other)| *one &= !other);
        self
    }
    fn or(mut self, other: &Set<N>) -> Set<N> {
        self.0.iter_mut().zip(other.0).for_each(|(one, other)| *one |= other);
        self
    }
    fn is_in(&self, other: &Set<N>) -> bool {
        self.and_not(other) == Set::EMPTY
    }
}

/// A place of the search: the value, and which requests under way stand in the order already.
#[derive(Clone, Copy, PartialEq, Eq, Hash)]
struct Place<const N: usize> {
    value: Option<u32>,
    set: Set<N>,
}

/// Why there is no order: none fits, or too many places were needed; and the line at which that was seen.
#[derive(Clone, Copy, PartialEq, Eq, Debug)]
pub enum Miss {
    None(u32),
    TooMany(u32),
}

/// How a search is made.
#[derive(Clone, Copy)]
pub struct Way {
    /// The most places at the end of a request.
    pub most: usize,
    /// Whether places are left out that others make needless.
    pub fewer: bool,
}

/// A step of the order: the line at which the request was taken, and the request.
pub type Step = (u32, usize);

struct Search<'a, const N: usize> {
    calls: &'a [Call],
    way: Way,
    slots: Vec<Option<usize>>,
    slot_of: HashMap<usize, usize>,
    /// The requests under way that never end.
    lost: Set<N>,
    /// Each step that was made, behind the one before it.
    steps: Vec<(u32, Step)>,
    places: Vec<(Place<N>, u32)>,
}

impl<const N: usize> Search<'_, N> {
    fn begins(&mut self, i: usize) {
        let free = self.slots.iter().position(|slot| slot.is_none()).unwrap_or(self.slots.len());
        if free == self.slots.len() {
            self.slots.push(None);
        }
        self.slots[free] = Some(i);
        self.slot_of.insert(i, free);
        if self.calls[i].ended == NEVER {
            self.lost = self.lost.with(free);
        }
    }

    /// Returns the request under way that is taken at once: it will end, fits, and changes nothing by what it is told.
    fn at_once(&self, place: &Place<N>) -> Option<usize> {
        self.slots.iter().enumerate().find_map(|(slot, call)| {
            let call = &self.calls[(*call)?];
            let is_told = call.act == Act::Get || matches!(call.end, End::Told(_) | End::No);
            let stays = call.act.after(place.value) == place.value;
            let lives = !place.set.has(slot) && !self.lost.has(slot);
            (lives && is_told && stays && call.fits(place.value)).then_some(slot)
        })
    }

    /// Returns the place behind one more request, where it fits there and may matter.
    fn behind(&self, place: &Place<N>, slot: usize, i: usize) -> Option<Place<N>> {
        let call = &self.calls[i];
        if place.set.has(slot) || !call.fits(place.value) {
            return None;
        }
        let value = call.act.after(place.value);
        if self.way.fewer && self.lost.has(slot) && value == place.value {
            return None;
        }
        Some(Place { value, set: place.set.with(slot) })
    }

    fn ends(&mut self, i: usize, line: u32) -> Result<(), Miss> {
        let ending = self.slot_of[&i];
        let mut stack = std::mem::take(&mut self.places);
        let mut seen: HashSet<Place<N>> = stack.iter().map(|(place, _)| *place).collect();
        let mut done = Vec::new();
        while let Some((place, path)) = stack.pop() {
            if place.set.has(ending) {
                done.push((Place { set: place.set.without(ending), ..place }, path));
                continue;
            }
            let chosen = if self.way.fewer { self.at_once(&place) } else { None };
            for slot in 0..self.slots.len() {
                let (true, Some(i)) = (chosen.is_none_or(|one| one == slot), self.slots[slot]) else {
                    continue;
                };
                let Some(next) = self.behind(&place, slot, i) else { continue };
                if seen.insert(next) {
                    if seen.len() > self.way.most {
                        return Err(Miss::TooMany(line));
                    }
                    self.steps.push((path, (line, i)));
                    stack.push((next, (self.steps.len() - 1) as u32));
                }
            }
        }
        self.slots[ending] = None;
        self.places = if self.way.fewer { self.least(done) } else { once(done) };
        if self.places.is_empty() {
            Err(Miss::None(line))
        } else {
            Ok(())
        }
    }

    /// Of two places with the same value and the same requests that will end keeps one with fewer lost ones.
    fn least(&self, done: Vec<(Place<N>, u32)>) -> Vec<(Place<N>, u32)> {
        let mut kept: HashMap<Place<N>, Vec<(Set<N>, u32)>> = HashMap::new();
        for (place, path) in done {
            let mine = place.set.and(&self.lost);
            let all = kept.entry(Place { set: place.set.and_not(&self.lost), ..place }).or_default();
            if all.iter().any(|(other, _)| other.is_in(&mine)) {
                continue;
            }
            all.retain(|(other, _)| !mine.is_in(other));
            all.push((mine, path));
        }
        let whole = |(place, all): (Place<N>, Vec<(Set<N>, u32)>)| {
            all.into_iter().map(move |(lost, path)| (Place { set: place.set.or(&lost), ..place }, path))
        };
        kept.into_iter().flat_map(whole).collect()
    }

    fn order(&self) -> Vec<Step> {
        let (mut order, mut at) = (Vec::new(), self.places[0].1);
        while at != 0 {
            let (before, step) = self.steps[at as usize];
            order.push(step);
            at = before;
        }
        order.reverse();
        order
    }
}

fn once<const N: usize>(done: Vec<(Place<N>, u32)>) -> Vec<(Place<N>, u32)> {
    let mut kept = HashMap::new();
    for (place, path) in done {
        kept.entry(place).or_insert(path);
    }
    kept.into_iter().collect()
}

/// A beginning or an end of a request: the line, whether it ends, and the request.
type Event = (u32, bool, usize);

fn search<const N: usize>(calls: &[Call], events: &[Event], way: Way) -> Result<Vec<Step>, Miss> {
    let start = Place { value: None, set: Set::<N>::EMPTY };
    let mut search = Search {
        calls,
        way,
        slots: Vec::new(),
        slot_of: HashMap::new(),
        lost: Set::EMPTY,
        steps: vec![(0, (0, usize::MAX))],
        places: vec![(start, 0)],
    };
    for (line, is_end, i) in events {
        if *is_end {
            search.ends(*i, *line)?
        } else {
            search.begins(*i)
        }
    }
    Ok(search.order())
}

/// The most requests under way at one time.
fn most_under_way(events: &[Event]) -> usize {
    let (mut now, mut most) = (0, 0);
    for (_, is_end, _) in events {
        if *is_end {
            now -= 1
        } else {
            now += 1
        }
        most = most.max(now);
    }
    most
}

/// Finds an order of the requests of one key, each with the line at which it was taken; or where that fails.
pub fn one_key(calls: &[Call], mine: &[usize], way: Way) -> Result<Vec<Step>, Miss> {
    let mut events: Vec<Event> = Vec::new();
    for i in mine.iter().copied().filter(|i| calls[*i].end != End::Fail) {
        events.push((calls[i].begun, false, i));
        if calls[i].ended != NEVER {
            events.push((calls[i].ended, true, i));
        }
    }
    events.sort_unstable();
    match most_under_way(&events) {
        0..=128 => search::<1>(calls, &events, way),
        129..=2048 => search::<16>(calls, &events, way),
        // more than that are of no use to compare with
        _ => Err(Miss::TooMany(events[0].0)),
    }
}
