//! Settling a round by deferred acceptance.
//!
//! Why the cutoffs follow from the refusals. A settle presses a lane only while it has more askers than seats, and who asks
//! for a lane goes on asking until that lane's own cutoff shuts the teacher out. A press that shuts out somebody who is not
//! asking leaves the lane over-asked, so it is pressed again. Hence the last press of a lane shuts out an asker, and that is
//! the highest-ranked one whom the lane ever turns away. Whom a lane turns away does not depend on the order in which the
//! teachers ask. So a lane ends with a cutoff of one more than the highest rank that it turned away, or with 1 if it turned
//! away nobody.

use crate::sheets::{Lane, Round, Teacher};
use std::cmp::Reverse;
use std::collections::BinaryHeap;
use std::fmt::Display;
use std::vec::IntoIter;

/// Where a round ends: a cutoff for each lane, and for each teacher the index of a lane, if any.
pub struct Outcome {
    cutoffs: Vec<usize>,
    offers: Vec<Option<usize>>,
}

impl Outcome {
    pub fn sheet(&self) -> String {
        let raises: usize = self.cutoffs.iter().map(|cutoff| cutoff - 1).sum();
        let cuts = commas(self.cutoffs.iter());
        let seats = commas(self.offers.iter().map(|offer| offer.map_or(0, |lane| lane + 1)));
        format!("raises={raises}\ncut={cuts}\nseat={seats}\n")
    }
}

fn commas<T: Display>(items: impl Iterator<Item = T>) -> String {
    items.map(|item| item.to_string()).collect::<Vec<_>>().join(",")
}

pub fn settle(round: &Round) -> Outcome {
    let ranks: Vec<Vec<usize>> = round.lanes.iter().map(|lane| ranks(lane, &round.teachers)).collect();
    let mut picks = pick_lists(round);
    let mut cutoffs = vec![1; round.lanes.len()];
    // Whom each lane keeps for now, the lowest rank on top.
    let mut kept: Vec<BinaryHeap<Reverse<(usize, usize)>>> = vec![BinaryHeap::new(); round.lanes.len()];

    for newest in 0..round.teachers.len() {
        // One teacher at a time asks down the pick list; where somebody else is turned away for it, that one asks on.
        let mut asking = newest;
        while let Some(lane) = picks[asking].next() {
            kept[lane].push(Reverse((ranks[lane][asking], asking)));
            if kept[lane].len() <= round.lanes[lane].size.into() {
                break;
            }
            if let Some(Reverse((rank, turned_away))) = kept[lane].pop() {
                cutoffs[lane] = cutoffs[lane].max(rank + 1);
                asking = turned_away;
            }
        }
    }

    let mut offers = vec![None; round.teachers.len()];
    for (lane, kept) in kept.iter().enumerate() {
        for &Reverse((_, teacher)) in kept {
            offers[teacher] = Some(lane);
        }
    }
    Outcome { cutoffs, offers }
}

/// Each teacher's rank in the lane; 0 for those who have no licence for it.
fn ranks(lane: &Lane, teachers: &[Teacher]) -> Vec<usize> {
    let mut order: Vec<usize> =
        (0..teachers.len()).filter(|&number| licensed(&teachers[number], lane.subject)).collect();
    order.sort_unstable_by_key(|&number| {
        let teacher = &teachers[number];
        (band(teacher, lane), Reverse(teacher.points), number)
    });
    let mut ranks = vec![0; teachers.len()];
    for (before, &number) in order.iter().enumerate() {
        ranks[number] = order.len() - before;
    }
    ranks
}

fn licensed(teacher: &Teacher, subject: u16) -> bool {
    teacher.main == subject || teacher.also.contains(&subject)
}

fn band(teacher: &Teacher, lane: &Lane) -> u8 {
    match (teacher.home != 0, teacher.main == lane.subject) {
        (true, true) => 1,
        (true, false) => 2,
        (false, true) => 3,
        (false, false) => 4,
    }
}

/// Each teacher's pick list, the best lane first.
fn pick_lists(round: &Round) -> Vec<IntoIter<usize>> {
    // The lanes of each school, by rising number; there is no school 0.
    let mut lanes_of = vec![Vec::new(); usize::from(round.schools) + 1];
    for (number, lane) in round.lanes.iter().enumerate() {
        lanes_of[usize::from(lane.school)].push(number);
    }
    let pick_list = |teacher: &Teacher| {
        let mut picks = Vec::new();
        for school in completed_wishes(teacher, round.schools) {
            let lanes: &[usize] = &lanes_of[usize::from(school)];
            let subject_of = |lane: usize| round.lanes[lane].subject;
            picks.extend(lanes.iter().filter(|&&lane| subject_of(lane) == teacher.main));
            picks.extend(lanes.iter().filter(|&&lane| teacher.also.contains(&subject_of(lane))));
        }
        picks.into_iter()
    };
    round.teachers.iter().map(pick_list).collect()
}

/// The wishes, and for an incumbent all the other schools behind them.
fn completed_wishes(teacher: &Teacher, schools: u16) -> Vec<u16> {
    let mut list = teacher.wishes.clone();
    if teacher.home != 0 {
        list.extend((1..=schools).filter(|school| !teacher.wishes.contains(school)));
    }
    list
}
