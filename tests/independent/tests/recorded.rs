//! What M-104 changed: the calls that the gate recorded before it answer as they did then, number by number, but for
//! messages of version 1.0 under a top that is no class, which were refused by 6, and the writer's calls with format 2,
//! which were refused by 23. A landing that means to change answers puts the calls recorded before it here.

use independent::calls::Call;
use independent::replay::{self, Recorded};

const CALLS: &[u8] = include_bytes!("../recorded/M-111.calls");
const ANSWERS: &str = include_str!("../recorded/M-111.answers");

/// The message that a call is given, if it is given one.
fn message(call: &Call) -> Option<&[u8]> {
    match call {
        Call::Read { message, .. }
        | Call::View { message, .. }
        | Call::Convert { message, .. }
        | Call::Set { message, .. }
        | Call::Remove { message, .. } => Some(message),
        _ => None,
    }
}

#[test]
fn all_but_encoding_1_0_answers_as_before() {
    let calls = replay::calls(CALLS).unwrap();
    assert_eq!(calls.len(), ANSWERS.lines().count());
    let (mut as_before, mut read, mut written) = (0, 0, 0);
    for (recorded, line) in calls.iter().zip(ANSWERS.lines()) {
        let Recorded { call, .. } = recorded;
        let answer = call.answer();
        let now = recorded.line(&answer);
        if now == line {
            as_before += 1;
        } else if let Call::Write { format, .. } = call {
            assert_eq!((*format, line), (2, "23 0 0 "), "{}", call.json(&answer));
            written += 1;
        } else {
            let is_old = message(call).is_some_and(|message| message[4..6] == [1, 0]);
            assert!(is_old && line.starts_with("6 4 "), "{line}: {}", call.json(&answer));
            read += 1;
        }
        #[cfg(feature = "library")]
        if let Some(given) = independent::ffi::answer(call) {
            assert_eq!(given, answer, "{}", call.json(&answer));
        }
    }
    assert_eq!((as_before, read, written), (6_772, 26, 23));
}
