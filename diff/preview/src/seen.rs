//! What was met. A class that was never met is a failure, where there were previews enough.
use crate::order::{Reason, Reasons, ALL, REASONS};

/// Beside the reasons by themselves and in pairs
pub const CLASSES: [&str; 35] = [
    "an opening, accepted",
    "a reply to a question of both sizes, accepted",
    "a reply to a question of a width, accepted",
    "a reply to a question of a height, accepted",
    "a reply to a lay out question, accepted",
    "a lay out reply that surfaces records, accepted",
    "a finish",
    "a finish without a question",
    "an accepted opening that the live table would answer otherwise",
    "an accepted reply that the live table would answer otherwise",
    "a broken live record, replaced: an accepted opening",
    "a broken live record, replaced: an accepted reply",
    "a broken live record, replaced: a finish",
    "a broken replacement that no candidate names, refused 3",
    "a replacement without numbers, accepted",
    "the live record as its own replacement, accepted",
    "another replacement at a later call, accepted",
    "another replacement at a later call, accepted and otherwise than with the first",
    "another node at a later call, accepted",
    "another node at a later call, accepted and otherwise than with the first",
    "a table without items, refused 4",
    "node n",
    "a node above n",
    "node 2 ^ 32 - 1",
    "a replacement of no word",
    "a replacement of 78 words",
    "a replacement of 80 words",
    "a replacement of 158 words",
    "a forged state, accepted",
    "a forged state, refused",
    "a live run between the calls",
    "a live run that is refused between accepted calls",
    "a table of 1,024 items",
    "a bad node after the finish, refused 4",
    "a finished preview, asked with a broken live record",
];

/// Of a finished preview, by the entry and what it answers
pub const ASKED: [&str; 3] = ["oof_reach", "oof_drawing_order", "oof_touch"];

#[derive(Clone)]
pub struct Seen {
    /// Previews, and screens that they are of
    pub previews: u64,
    pub screens: u64,
    /// Calls that were compared: openings, and replies
    pub calls: [u64; 2],
    /// Steps of live runs between the calls
    pub live: u64,
    /// Of openings and of replies: by the first reason that holds, and by each of the others that hold beside it; in the place of the first
    /// itself all of these
    pub reasons: [[[u64; REASONS]; REASONS]; 2],
    pub classes: [u64; CLASSES.len()],
    /// By entry: accepted, and refused 2, 6, 4, 9
    pub asked: [[u64; 10]; 3],
}

impl Default for Seen {
    fn default() -> Seen {
        Seen {
            previews: 0,
            screens: 0,
            calls: [0; 2],
            live: 0,
            reasons: [[[0; REASONS]; REASONS]; 2],
            classes: [0; CLASSES.len()],
            asked: [[0; 10]; 3],
        }
    }
}

/// Reasons of which the second isn't looked at where the first holds: with a bad extent there are no records, and no word of a replacement
/// of another length is looked at
pub fn is_hidden(first: Reason, second: Reason) -> bool {
    use Reason::*;
    matches!((first, second), (Extents, NewStyle | OldStyle | Candidates | Room) | (Replacement, NewStyle))
}

impl Seen {
    pub fn note(&mut self, class: &str, met: bool) {
        if met {
            let at = CLASSES.iter().position(|&name| name == class).expect("a class");
            self.classes[at] += 1;
        }
    }
    pub fn of(&self, class: &str) -> u64 {
        self.classes[CLASSES.iter().position(|&name| name == class).expect("a class")]
    }
    pub fn refused(&mut self, opening: bool, reasons: Reasons) {
        let Some(first) = reasons.first() else { return };
        let row = &mut self.reasons[usize::from(!opening)][first as usize];
        row[first as usize] += 1;
        ALL.into_iter()
            .filter(|&other| other != first && reasons.has(other))
            .for_each(|other| row[other as usize] += 1);
    }
    /// How often a call was refused for a reason
    pub fn first(&self, opening: bool, reason: Reason) -> u64 {
        self.reasons[usize::from(!opening)][reason as usize][reason as usize]
    }
    /// What was never met
    pub fn never(&self) -> Vec<String> {
        let classes = CLASSES.iter().zip(self.classes).filter(|(_, met)| *met == 0).map(|(name, _)| name.to_string());
        let mut never: Vec<String> = classes.collect();
        for opening in [true, false] {
            let call = if opening { "an opening" } else { "a reply" };
            for first in Reason::of(opening) {
                let row = &self.reasons[usize::from(!opening)][first as usize];
                let behind = Reason::of(opening).filter(|&second| second as usize >= first as usize);
                for second in behind.filter(|&second| row[second as usize] == 0 && !is_hidden(first, second)) {
                    never.push(format!("{call} with {}, and {}", first.name(), second.name()));
                }
            }
        }
        for (entry, name) in ASKED.iter().enumerate() {
            let numbers: &[usize] = if entry == 1 { &[0, 2, 4, 6] } else { &[0, 2, 4, 6, 9] };
            let none = numbers.iter().filter(|&&number| self.asked[entry][number] == 0);
            never.extend(none.map(|number| format!("{name} with {number}")));
        }
        never
    }
    pub fn show(&self) {
        for (name, met) in CLASSES.iter().zip(self.classes) {
            println!("{met:>10}  {name}");
        }
        for opening in [true, false] {
            let call = if opening { "an opening" } else { "a reply" };
            for first in Reason::of(opening) {
                let row = &self.reasons[usize::from(!opening)][first as usize];
                println!("{:>10}  {call} refused {} for {}", row[first as usize], first.number(), first.name());
                for second in Reason::of(opening).filter(|&second| second as usize > first as usize) {
                    println!("{:>10}      of these with {}", row[second as usize], second.name());
                }
            }
        }
        for (name, of) in ASKED.iter().zip(self.asked) {
            println!("{:>10}  {name} accepted, refused 2, 6, 4, 9: {:?}", of[0], [2, 6, 4, 9].map(|number| of[number]));
        }
    }
}
