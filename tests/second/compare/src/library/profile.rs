//! Which outcomes of runs 01 allows on a chart of a given size: what is present after so many
//! steps is fixed wherever all items up to some count are handled, and free in between.

use super::MOST_ITEMS;
use bobbinmarl::calls::Outcome;
use second::chart::{Answer, Chart};

pub struct Profile {
    /// Steps done and items present, after the start and after each count.
    marks: Vec<(usize, usize)>,
    /// The closure's size, if a chart can hold it.
    pub size: Option<usize>,
}

impl Profile {
    /// `chart` is newly started and holds as many items as a chart can; it is run to its end.
    pub fn of(chart: &mut Chart) -> Self {
        let mut marks = vec![(0, chart.items_present())];
        loop {
            let answer = chart.run_level();
            if answer == Answer::TooSmall {
                return Profile { marks, size: None };
            }
            marks.push((chart.steps_done(), chart.items_present()));
            if let Answer::Done(size) = answer {
                return Profile {
                    marks,
                    size: Some(size),
                };
            }
        }
    }

    pub fn leaves(&self) -> usize {
        self.marks[0].1
    }

    /// What a run may say once `given` steps have been given since the start.
    pub fn allowed(&self, capacity: usize, given: u64) -> Vec<Outcome> {
        if let Some(size) = self.size.filter(|&size| size <= capacity) {
            return vec![if given < size as u64 {
                Outcome::Unfinished(given)
            } else {
                Outcome::Done(size as u64)
            }];
        }
        // The start is before every number of steps.
        let before = self.marks.partition_point(|mark| mark.0 as u64 <= given);
        let (steps, least) = self.marks[before - 1];
        let most = match self.marks.get(before) {
            _ if steps as u64 == given => least,
            Some(mark) => mark.1,
            None => MOST_ITEMS + 1,
        };
        let mut allowed = Vec::new();
        if most > capacity {
            allowed.push(Outcome::TooSmall);
        }
        if least <= capacity && given < capacity as u64 {
            allowed.push(Outcome::Unfinished(given));
        }
        allowed
    }
}
