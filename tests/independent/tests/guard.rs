//! Generated seasons of a frost guard: it answers as the rule told by history does, and reaches every refusal.

use independent::frost::{Guard, History};
use independent::gen::{guard_call, season, Rng};

#[test]
fn a_season_answers_as_its_history_says() {
    let (mut rng, mut reached, mut fired, mut across) = (Rng(1), [0; 53], 0, 0);
    for _ in 0..40_000 {
        let (set, messages) = season(&mut rng);
        let (mut guard, mut history) = (Guard::new(set), History { set, ..History::default() });
        for message in messages {
            let (told, before) = (history.report(&message), guard);
            match guard.report(&message) {
                Ok((fires, after)) => {
                    assert_eq!(told, Ok(fires));
                    fired += usize::from(fires);
                    let crosses = |guard: Guard| guard.tick.is_some_and(|tick| tick >= 1 << 32);
                    across += usize::from(fires && guard.start.is_some() && !crosses(before) && crosses(after));
                    guard = after;
                }
                Err(refusal) => {
                    assert_eq!(told, Err(refusal));
                    assert_ne!(refusal.0, 52);
                    reached[refusal.0 as usize] += 1;
                }
            }
        }
    }
    println!("fired {fired} times, {across} with the first report at 2^32 or later; refused: {reached:?}");
    assert!(fired > 10_000 && across > 100);
    assert!([26, 40, 41, 42].iter().all(|&number| reached[number] > 100), "{reached:?}");
}

#[test]
fn states_of_any_make() {
    let (mut rng, mut reached) = (Rng(2), [0; 53]);
    for _ in 0..40_000 {
        reached[guard_call(&mut rng).answer().refusal() as usize] += 1;
    }
    println!("{reached:?}");
    assert!([0, 22, 40, 41, 42, 52].iter().all(|&number| reached[number] > 100), "{reached:?}");
}
