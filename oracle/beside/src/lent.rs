//! The slices that a call lends: what their elements are called, how many there are, and what they start from.
use crate::case::{Function, Room};
use crate::expected_runs::ledger_numbers;
use crate::made::{Call, Entry};
use crate::outcome::{filled, filled_bytes, numbers};

type Lengths = Vec<(&'static str, usize)>;

/// In the order in which outcomes have the slices.
pub fn lengths(call: &Call) -> Lengths {
    let case = &call.case;
    match (call.entry, case.function) {
        (Entry::FileSteps, _) => vec![("step word", 4 * case.extra.ledger)],
        (Entry::FileWrite, _) => vec![("byte", case.room.offsets)],
        (Entry::Named, Function::Edges) => vec![("edge word", 2 * case.room.offsets)],
        (Entry::Named, Function::Operator(_) | Function::File) => mesh(case.room),
        (Entry::Named, Function::List(_)) => [mesh(case.room), work(case.extra.work)].concat(),
        (Entry::Named, Function::Recipe) => {
            let ledger = vec![("ledger number", ledger_numbers(case))];
            [mesh(case.room), work(case.extra.work), ledger].concat()
        }
        _ => Vec::new(),
    }
}

fn mesh(room: Room) -> Lengths {
    let Room { offsets, corners, coordinates } = room;
    vec![("offset", offsets), ("corner", corners), ("coordinate", coordinates)]
}

fn work(rooms: [Room; 2]) -> Lengths {
    let named = |Room { offsets, corners, coordinates }| {
        [("work offset", offsets), ("work corner", corners), ("work coordinate", coordinates)]
    };
    rooms.map(named).concat()
}

/// As they are before the call, floats as bits.
pub fn slices(call: &Call) -> Vec<Vec<u32>> {
    let fill = call.case.fill;
    let started = |length: usize| match call.entry {
        Entry::FileWrite => numbers(&filled_bytes(length, fill)),
        _ => filled(length, fill),
    };
    lengths(call).into_iter().map(|(_, length)| started(length)).collect()
}

#[cfg(test)]
mod tests {
    use super::*;
    use crate::{call, expected, rust_side};

    #[test]
    fn an_expected_outcome_has_these_lengths() {
        rust_side::with_threads(|| {
            for call in (0..280).map(|index| call(1, index)) {
                let lengths: Vec<usize> = lengths(&call).iter().map(|length| length.1).collect();
                let slices = expected::outcome(&call).slices;
                assert_eq!(slices.iter().map(Vec::len).collect::<Vec<_>>(), lengths, "{call:?}");
            }
        });
    }
}
