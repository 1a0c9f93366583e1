//! Commands with one head that is not the shortest for its number, and all
//! others shortest.

use crate::commands::shortest;
use crate::heads::{heads, Head, Place};
use crate::item::{put_head, shortest_info};
use crate::random::Random;
use crate::Case;

/// Which head is to be loose.
enum Wanted {
    /// One in this place.
    In(Place),
    /// One of the largest number that a shorter head holds.
    Edge,
}

impl Wanted {
    /// Whether this head, which is shortest, may be written by the info.
    fn fits(&self, head: &Head, info: u8) -> bool {
        let loose = head.info < info;
        match self {
            Wanted::In(place) => loose && head.place == *place,
            Wanted::Edge => loose && shortest_info(head.number + 1) == info,
        }
    }
}

/// A command that passes the check. In nine of ten each place and each width of
/// the loose head is as likely as any other.
pub fn one_loose(random: &mut Random) -> Case {
    let wanted = match random.below(10) {
        0 => Wanted::Edge,
        _ => Wanted::In(random.pick(&Place::ALL)),
    };
    let infos: &[u8] = match wanted {
        // With 25 the tag 258 is shortest.
        Wanted::In(Place::SetTag) => &[26, 27],
        _ => &[24, 25, 26, 27],
    };
    let info = random.pick(infos);
    loop {
        let mut case = shortest(random);
        let mut found = heads(&case.command);
        found.retain(|head| wanted.fits(head, info));
        if !found.is_empty() {
            widen(&mut case.command, random.pick(&found), info);
            return case;
        }
    }
}

/// Writes a head of the command by another info.
fn widen(command: &mut Vec<u8>, head: Head, info: u8) {
    let mut wide = Vec::new();
    put_head(&mut wide, head.major, info, head.number);
    command.splice(head.at..head.at + head.length, wide);
}
