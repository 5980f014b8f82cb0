//! fuzz [CALLS [SEED]]: makes calls (1,000,000 by default) of the reader, the writer and the table check, and a member
//! view, a conversion, a night and a season sheet of each message read, and with each an endpoint opened, one written and
//! one found in a proxy, a burst plan checked and one made, two tables compared, an optional set or removed, mostly under an
//! older table of a newer message, and the result read under both, and with every tenth a season of reports to a frost
//! guard. It compares the proved library with this implementation in every number and every lent byte. A difference is
//! printed as a line like those of the recorded calls, the library's answer after it as `got`; with any, or with a change
//! that passes on not all of the rest, the exit status is 1.

use independent::bursts::{flat, PlanCall};
use independent::calls::{Answer, Call};
use independent::ffi;
use independent::frost::{Guard, GuardCall, History, STATE};
use independent::gen::{
    compare_call, endpoint_calls, guard_call, night, plan_calls, season, sheet, Calls, Changes, Rng, Text,
};
use std::time::{Instant, SystemTime, UNIX_EPOCH};
use std::{env, process};

/// More differences than these are counted only.
const SHOWN: usize = 1_000;

fn main() {
    let mut numbers = env::args().skip(1).map(|argument| {
        argument.parse::<u64>().unwrap_or_else(|_| {
            eprintln!("fuzz [CALLS [SEED]]");
            process::exit(2)
        })
    });
    let calls = numbers.next().unwrap_or(1_000_000);
    let now = || SystemTime::now().duration_since(UNIX_EPOCH).map_or(0, |now| now.as_nanos() as u64);
    let seed = numbers.next().unwrap_or_else(now);
    println!("{calls} calls from seed {seed}");

    let start = Instant::now();
    let mut differences = 0;
    let (mut refusals, mut conversions, mut changes) = ([[0; 52]; 2], [0; 52], [0; 52]);
    let mut not_passed_on = 0;
    let mut compare = |call: &Call, expected: &Answer| {
        let Some(got) = ffi::answer(call) else { return };
        if got != *expected {
            differences += 1;
            if differences <= SHOWN {
                let line = call.json(expected);
                println!("{},\"got\":{}}}", &line[..line.len() - 1], got.json());
            }
        }
    };
    let mut strings = Text::ALL.map(|what| (what, 0));
    let (mut made, mut changed) = (Calls::new(seed), Changes::new(seed));
    let (mut nights, mut other, mut walked, mut stops) = (Rng(seed), vec![], 0, [0; 40]);
    let (mut sheets, mut sheet_refusals) = (Rng(seed), [0; 54]);
    let (mut endpoints, mut endpoint_refusals) = (Rng(!seed), [[0; 40]; 3]);
    let (mut plans, mut plan_refusals) = (Rng(!seed), [[0; 47]; 2]);
    let (mut seasons, mut reports, mut fired) = (Rng(!seed), [0; 53], 0);
    let (mut tables, mut table_refusals, mut yes) = (Rng(!seed), [0; 40], 0);
    for index in 0..calls {
        let Some(change) = changed.next() else { break };
        let answer = change.call.answer();
        compare(&change.call, &answer);
        changes[answer.refusal() as usize] += 1;
        if let Answer::Write { refusal: (0, _), out } = &answer {
            for reading in change.readings(out) {
                compare(&reading, &reading.answer());
            }
            if !change.is_passed_on(out, |call| ffi::answer(call).unwrap_or(Answer::Astray)) {
                not_passed_on += 1;
                println!("not passed on: {}", change.call.json(&answer));
            }
        }
        let Some(call) = made.next() else { break };
        let expected = call.answer();
        refusals[usize::from(call.is_of_version_2())][expected.refusal() as usize] += 1;
        if let Answer::Read { refusal: (24, place), .. } = expected {
            let what = made.string_at(place);
            strings.iter_mut().filter(|string| Some(string.0) == what).for_each(|string| string.1 += 1);
        }
        compare(&call, &expected);
        if let Some(view) = call.view(index as u32 % 8) {
            compare(&view, &view.answer());
        }
        if let Some(conversion) = call.conversion(65_536) {
            let answer = conversion.answer();
            compare(&conversion, &answer);
            conversions[answer.refusal() as usize] += 1;
            // Once more without room, or with just enough.
            if let Answer::Write { refusal: (0, _), out } = answer {
                let room = out.len() - index as usize % 2 * (1 + index as usize % out.len());
                if let Some(tight) = call.conversion(room) {
                    compare(&tight, &tight.answer());
                    conversions[tight.answer().refusal() as usize] += 1;
                }
            }
        }
        if let Some(night) = night(&mut nights, &call, &other) {
            let expected = night.answer();
            compare(&night, &expected);
            if let (Call::Night(night), Answer::Night(walked_over)) = (&night, &expected) {
                walked += 1;
                if let Some(last) =
                    walked_over.answers.last_chunk::<28>().filter(|_| walked_over.place < night.buffer.len())
                {
                    stops[usize::from(last[0])] += 1;
                }
            }
        }
        if let Some(sheet) = sheet(&mut sheets, &call, &other) {
            let expected = sheet.answer();
            sheet_refusals[expected.refusal() as usize] += 1;
            compare(&sheet, &expected);
        }
        if let Call::Read { message, .. } = call {
            other = message;
        }
        for (which, call) in endpoint_calls(&mut endpoints).into_iter().enumerate() {
            let expected = call.answer();
            endpoint_refusals[which][expected.refusal() as usize] += 1;
            compare(&call, &expected);
        }
        let call = compare_call(&mut tables);
        let expected = call.answer();
        table_refusals[expected.refusal() as usize] += 1;
        yes += u32::from(matches!(&expected, Answer::Compare(compared) if compared.extends));
        compare(&call, &expected);
        for (which, call) in plan_calls(&mut plans).into_iter().enumerate() {
            let expected = call.answer();
            plan_refusals[which][expected.refusal() as usize] += 1;
            compare(&call, &expected);
            if let (Call::Plan(PlanCall::Check { messages, entries }), Answer::Plan(plan)) = (&call, &expected) {
                let refusal = flat(messages, entries).err().map_or((0, 0), |place| (46, place));
                assert_eq!(plan.refusal, refusal, "by document 02's sentence: {}", call.json(&expected));
            }
        }
    }
    // Seasons of a frost guard, report by report: the library's state, the guard here, and the rule told by history.
    for _ in 0..calls / 10 {
        let (set, messages) = season(&mut seasons);
        let mut state = vec![0; STATE];
        assert_eq!(ffi::guard_start(set, &mut state), 0);
        assert_eq!(state, Guard::new(set).bytes());
        let mut history = History { set, ..History::default() };
        for message in messages {
            let call = GuardCall { state: state.clone(), message: message.clone(), room: STATE };
            let expected = call.answer();
            compare(&Call::Guard(call), &expected);
            let Answer::Guard(answer) = expected else { continue };
            let told = history.report(&message);
            assert_eq!(told.err().unwrap_or_default(), answer.refusal);
            assert_eq!(told.unwrap_or_default(), answer.fires);
            reports[answer.refusal.0 as usize] += 1;
            fired += usize::from(answer.fires);
            if answer.refusal.0 == 0 {
                state = answer.state;
            }
        }
        // And a report on a state that need not be one of a guard.
        let call = guard_call(&mut seasons);
        let expected = call.answer();
        reports[expected.refusal() as usize] += 1;
        compare(&Call::Guard(call), &expected);
    }
    for (version, refusals) in (1..).zip(refusals) {
        let met = refusals.iter().enumerate().filter(|(number, _)| !matches!(number, 1 | 27..=30 | 40..));
        let reached: Vec<_> = met.map(|(number, calls)| format!("{number}: {calls}")).collect();
        println!("answers by refusal number, tables of version {version}: {}", reached.join(", "));
    }
    let met = conversions.iter().enumerate().filter(|(_, calls)| **calls != 0);
    let reached: Vec<_> = met.map(|(number, calls)| format!("{number}: {calls}")).collect();
    println!("conversions by refusal number: {}", reached.join(", "));
    let met = changes.iter().enumerate().filter(|(_, calls)| **calls != 0);
    let reached: Vec<_> = met.map(|(number, calls)| format!("{number}: {calls}")).collect();
    println!("changes by refusal number: {}; {not_passed_on} not passed on", reached.join(", "));
    let met = reports.iter().enumerate().filter(|(_, calls)| **calls != 0);
    let reached: Vec<_> = met.map(|(number, calls)| format!("{number}: {calls}")).collect();
    println!("reports to a frost guard by refusal number: {}; the timer fired {fired} times", reached.join(", "));
    let strings: Vec<_> = strings.iter().map(|(what, calls)| format!("{what:?} {calls}")).collect();
    let stops: Vec<_> = stops
        .iter()
        .enumerate()
        .filter(|stop| *stop.1 > 0)
        .map(|(number, calls)| format!("{number}: {calls}"))
        .collect();
    println!("{walked} nights; those that end before their buffer, by the last answer: {}", stops.join(", "));
    let met = sheet_refusals.iter().enumerate().filter(|(_, &calls)| calls > 0);
    let reached: Vec<_> = met.map(|(number, calls)| format!("{number}: {calls}")).collect();
    println!("answers by refusal number, season sheets: {}", reached.join(", "));
    println!("refused by 24, by the string: {}", strings.join(", "));
    for (what, refusals) in ["opened", "written", "found in a proxy"].into_iter().zip(endpoint_refusals) {
        let met = refusals.iter().enumerate().filter(|(_, &calls)| calls > 0);
        let reached: Vec<_> = met.map(|(number, calls)| format!("{number}: {calls}")).collect();
        println!("answers by refusal number, endpoints {what}: {}", reached.join(", "));
    }
    for (what, refusals) in ["checks of a burst plan", "calls of the planner"].into_iter().zip(plan_refusals) {
        let met = refusals.iter().enumerate().filter(|(_, &calls)| calls > 0);
        let reached: Vec<_> = met.map(|(number, calls)| format!("{number}: {calls}")).collect();
        println!("answers by refusal number, {what}: {}", reached.join(", "));
    }
    let met = table_refusals.iter().enumerate().filter(|(_, &calls)| calls > 0);
    let reached: Vec<_> = met.map(|(number, calls)| format!("{number}: {calls}")).collect();
    println!("answers by refusal number, two tables compared: {}; {yes} extend", reached.join(", "));
    println!("{differences} differences in {calls} calls from seed {seed}, {:.1} s", start.elapsed().as_secs_f64());
    process::exit(i32::from(differences != 0 || not_passed_on != 0));
}
