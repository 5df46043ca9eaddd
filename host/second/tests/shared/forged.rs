//! What 12, 13 and 27 say of a state that is handed in, by any checker.

use super::driven::Driven;
use super::tariff::example;
use dillplatter_second::{Fed, Pulled, State};

/// The number, 12 or 13, that feeding and pulling both give of a state, with a window of some words and its sum; 0 if there is
/// none. With another sum it is the same number, and 27 in place of none.
#[track_caller]
pub fn number<C: Driven>(state: &State, words: usize) -> u8 {
    // Each word is 1.
    let right = words as u32;
    let with = |sum| {
        barred::<C>(
            &State {
                sum,
                ..state.clone()
            },
            words,
        )
    };
    let number = with(right);
    assert!([0, 12, 13].contains(&number), "{number}");
    for sum in [right + 1, right ^ 1 << 31] {
        assert_eq!(with(sum), if number == 0 { 27 } else { number });
    }
    number
}

/// The number, 12, 13 or 27, that feeding and pulling both give of a state, with a window of so many times 1, before they look
/// at their own arguments; 0 if there is none. Charging gets no window, so of these it has only 12. All hand the state on as it
/// was.
#[track_caller]
fn barred<C: Driven>(state: &State, words: usize) -> u8 {
    let mut checker = C::forged(state.clone(), vec![1; words]);
    let (fed, pulled) = (checker.feed(b""), checker.pull(&mut []));
    let number = match (fed, pulled) {
        (Fed::Refused(one), Pulled::Refused(other)) if one == other => {
            let barring = [12, 13, 27].contains(&one.number);
            assert!(barring && one.place == 0, "{one:?}");
            one.number
        }
        (Fed::Refused(one), Pulled::Refused(other)) => {
            assert_eq!((one.number, other.number), (15, 14));
            0
        }
        other => panic!("{other:?}"),
    };
    let charged = checker.charge(&example()).map(|_| ());
    let charged = charged.map_err(|refusal| (refusal.number, refusal.place));
    assert_eq!(charged, if number == 12 { Err((12, 0)) } else { Ok(()) });
    assert_eq!(checker.state(), state);
    assert!(checker.window().iter().all(|word| *word == 1));
    number
}
