//! Generated burst plans: the check answers as document 02's sentence does, at every rule, and what is planned passes.

use independent::bursts::{check_plan, flat, plan, PlanCall};
use independent::calls::Call;
use independent::gen::{plan_calls, Rng};

/// The rules that the entry of a 46 breaks: unknown message, message twice, burst number, bytes, order; messages missing.
fn broken(messages: &[u64], entries: &[u64], place: u64) -> [bool; 6] {
    let (messages, entries) = (messages.as_chunks::<2>().0, entries.as_chunks::<2>().0);
    let at = place as usize;
    if at == entries.len() {
        return [false, false, false, false, false, true];
    }
    let ([message, burst], before) = (entries[at], &entries[..at]);
    let Some(&[length, cabin]) = messages.get(message as usize) else {
        return [true, false, false, false, false, false];
    };
    let bytes = before.iter().filter(|entry| entry[1] == burst).map(|entry| messages[entry[0] as usize][0]);
    let due = before.last().map_or([0, 0], |entry| [entry[1], entry[1] + 1]);
    [
        false,
        before.iter().any(|entry| entry[0] == message),
        !due.contains(&burst),
        bytes.map(u128::from).sum::<u128>() + u128::from(length) > 340,
        before.iter().any(|entry| entry[0] > message && messages[entry[0] as usize][1] == cabin),
        false,
    ]
}

#[test]
fn checked_as_the_sentence_says() {
    let (mut rng, mut accepted, mut only) = (Rng(1), [0; 2], [0; 6]);
    for _ in 0..100_000 {
        let [Call::Plan(PlanCall::Check { messages, entries }), _] = plan_calls(&mut rng) else { panic!() };
        let answer = check_plan(&messages, &entries);
        assert_eq!(answer, flat(&messages, &entries), "{messages:?} {entries:?}");
        match answer {
            Ok(()) => {
                let rises = entries.as_chunks::<2>().0.windows(2).all(|two| two[0][0] < two[1][0]);
                accepted[usize::from(rises)] += 1;
            }
            Err(place) => {
                let broken = broken(&messages, &entries, place);
                assert!(broken.contains(&true), "{messages:?} {entries:?}");
                if broken.iter().filter(|&&broken| broken).count() == 1 {
                    only.iter_mut().zip(broken).for_each(|(calls, broken)| *calls += usize::from(broken));
                }
            }
        }
    }
    println!("accepted, not rising and rising: {accepted:?}; by the only rule broken: {only:?}");
    assert!(accepted.iter().chain(&only).all(|&calls| calls >= 100), "{accepted:?} {only:?}");
}

#[test]
fn what_is_planned_passes() {
    let (mut rng, mut planned) = (Rng(2), 0);
    for _ in 0..20_000 {
        let [_, Call::Plan(PlanCall::Plan { messages, room })] = plan_calls(&mut rng) else { panic!() };
        let mut entries = vec![7; room];
        if let Ok(count) = plan(&messages, &mut entries) {
            planned += 1;
            let given = 2 * count as usize;
            assert_eq!(flat(&messages, &entries[..given]), Ok(()));
            assert!(entries[given..].iter().all(|&number| number == 7));
            // A new burst only where the next message does not fit.
            for (i, two) in entries[..given].as_chunks::<2>().0.windows(2).enumerate() {
                let has: u64 = (0..=i).filter(|&j| entries[2 * j + 1] == two[0][1]).map(|j| messages[2 * j]).sum();
                assert_eq!(two[1][1] > two[0][1], has + messages[2 * i + 2] > 340);
            }
        }
    }
    assert!(planned > 10_000);
}
