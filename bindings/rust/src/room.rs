//! Memory that is lent to the library, and more of it where it asks for more.

use crate::Refusal;

/// How much is lent of two kinds.
pub type Room = [usize; 2];

/// Calls with the first room, and again with more as long as `more` has any for the refusal.
pub fn lend<T>(
    first: Room,
    more: impl Fn(Refusal, Room) -> Option<Room>,
    mut call: impl FnMut(Room) -> Result<T, Refusal>,
) -> Result<T, Refusal> {
    let mut room = first;
    loop {
        let answer = call(room);
        match answer
            .as_ref()
            .err()
            .and_then(|&refusal| more(refusal, room))
        {
            Some(larger) => room = larger,
            None => return answer,
        }
    }
}

/// Twice as much of each, and no more than the most; none where that is lent already.
pub fn doubled(room: Room, most: Room) -> Option<Room> {
    let larger = [0, 1].map(|kind| {
        let twice = room[kind].saturating_mul(2).max(16);
        twice.min(most[kind]).max(room[kind])
    });
    (larger != room).then_some(larger)
}

#[cfg(test)]
mod tests {
    use super::*;

    fn refusal(number: u64) -> Refusal {
        Refusal::of(number).expect("a refusal")
    }

    #[test]
    fn room_grows_until_it_is_enough() {
        let mut lent = Vec::new();
        let answer = lend(
            [0, 3],
            |_, room| doubled(room, [1000, 20]),
            |room| {
                lent.push(room);
                if room[0] < 50 {
                    Err(refusal(20))
                } else {
                    Ok(room)
                }
            },
        );
        assert_eq!(answer, Ok([64, 20]));
        assert_eq!(lent, [[0, 3], [16, 16], [32, 20], [64, 20]]);
    }

    #[test]
    fn growing_ends_at_the_most() {
        let mut calls = 0;
        let answer: Result<(), _> = lend(
            [1, 1],
            |_, room| doubled(room, [100, 0]),
            |_| {
                calls += 1;
                Err(refusal(20))
            },
        );
        assert_eq!((answer, calls), (Err(refusal(20)), 5));
    }

    #[test]
    fn other_refusals_are_answers() {
        let mut calls = 0;
        let more =
            |refusal: Refusal, room| doubled(room, [9, 9]).filter(|_| refusal.number() == 20);
        let answer: Result<(), _> = lend([1, 1], more, |_| {
            calls += 1;
            Err(refusal(14))
        });
        assert_eq!((answer, calls), (Err(refusal(14)), 1));
    }
}
