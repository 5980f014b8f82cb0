//! Burst plans: what the check accepts and refuses, and what the planner makes.

use icehub::{check_plan, plan, PlanRefusal, Reason, BURST_BYTES};

/// Cabins 7 and 8; the first three messages fill a burst to its last byte.
const MESSAGES: [[u64; 2]; 4] = [[100, 7], [140, 8], [100, 7], [1, 8]];

fn broken(entries: &[[u64; 2]]) -> (Option<Reason>, u64) {
    let refusal = check_plan(&MESSAGES, entries).unwrap_err();
    (refusal.reason(), refusal.place)
}

#[test]
fn planned() {
    let mut entries = [[9; 2]; 5];
    assert_eq!(plan(&MESSAGES, &mut entries), Ok(&[[0, 0], [1, 0], [2, 0], [3, 1]][..]));
    assert_eq!(entries[4], [9; 2]);
    assert_eq!(check_plan(&MESSAGES, &entries[..4]), Ok(()));
    assert_eq!(plan(&[], &mut []), Ok(&[][..]));
}

#[test]
fn not_planned() {
    let mut entries = [[9; 2]; 3];
    assert_eq!(plan(&MESSAGES, &mut entries), Err(PlanRefusal { number: 19, place: 4 }));
    assert_eq!(entries, [[9; 2]; 3]);
    let long = [[BURST_BYTES, 1], [BURST_BYTES + 1, 1]];
    assert_eq!(plan(&long, &mut entries), Err(PlanRefusal { number: 45, place: 1 }));
    // 45 comes before 19.
    assert_eq!(plan(&long, &mut []).unwrap_err().reason(), Some(Reason::MessageTooLong));
}

#[test]
fn checked() {
    let bad = |place| (Some(Reason::BadPlan), place);
    // Another cabin may go first; the order of a cabin counts across bursts.
    assert_eq!(check_plan(&MESSAGES, &[[1, 0], [0, 0], [2, 0], [3, 1]]), Ok(()));
    assert_eq!(broken(&[[1, 0], [2, 0], [0, 1], [3, 1]]), bad(2));
    // A message twice, one that does not wait, a burst of 341 bytes, one message missing.
    assert_eq!(broken(&[[0, 0], [0, 0]]), bad(1));
    assert_eq!(broken(&[[0, 0], [4, 0]]), bad(1));
    assert_eq!(broken(&[[0, 0], [1, 0], [2, 0], [3, 0]]), bad(3));
    assert_eq!(broken(&[[0, 0], [1, 0], [2, 0]]), bad(3));
    // Burst numbers.
    assert_eq!(broken(&[[0, 1]]), bad(0));
    assert_eq!(broken(&[[0, 0], [1, 2]]), bad(1));
    assert_eq!(broken(&[[0, 0], [1, 1], [2, 0]]), bad(2));
    // A sum that would wrap.
    let great = [[BURST_BYTES, 1], [u64::MAX, 2]];
    assert_eq!(check_plan(&great, &[[0, 0], [1, 0]]), Err(PlanRefusal { number: 46, place: 1 }));
}

#[test]
fn shown() {
    let refusal = check_plan(&MESSAGES, &[]).unwrap_err();
    assert_eq!(
        refusal.to_string(),
        "refusal 46 at 0 (the entry's number; the number of entries where only messages are missing): an entry of a plan \
         breaks a rule with the entries before it, or messages are missing"
    );
    assert_eq!(PlanRefusal { number: 99, place: 5 }.to_string(), "refusal 99 at 5");
}
