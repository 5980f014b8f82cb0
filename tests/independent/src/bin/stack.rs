//! stack [PATH...]: the deepest stack of each call of the library, in bytes, with its return address and the arguments
//! on the stack. It makes recorded calls, generated calls, and calls under tables of 256 types, each type nested in the
//! next. A PATH has recorded calls: crates/replay, another directory with *.jsonl in it, or a file of that kind. Each
//! call runs on a painted stack of its own: where the paint ends is how deep it went. x86-64 only.

use independent::calls::{Answer, Call};
use independent::ffi;
use independent::gen::{Calls, Changes};
use independent::replay;
use independent::spec::Spec;
use std::arch::asm;
use std::collections::BTreeMap;
use std::path::Path;
use std::{env, fs, process};

const GENERATED: usize = 20_000;
const SEED: u64 = 2026;
const PAINT: u64 = 0xA5C3_5AC3_96E7_1B2D;

/// A stack to run a call on, painted.
struct Stack {
    words: Vec<u64>,
}

impl Stack {
    fn new() -> Stack {
        Stack { words: vec![PAINT; 1 << 17] }
    }

    /// How many bytes of it a call takes.
    fn depth(&mut self, call: &mut dyn FnMut()) -> usize {
        let mut call = call;
        // SAFETY: the stack is aligned to 16, 1 MB long, and lent to this call alone; `run` comes back to it.
        unsafe {
            let top = self.words.as_mut_ptr().add(self.words.len());
            let top = top.sub(top as usize / 8 % 2);
            asm!(
                "mov r12, rsp",
                "mov rsp, {top}",
                "call {run}",
                "mov rsp, r12",
                top = in(reg) top,
                run = sym run,
                in("rdi") &raw mut call,
                out("r12") _,
                clobber_abi("C"),
            );
        }
        let untouched = self.words.iter().take_while(|&&word| word == PAINT).count();
        assert_ne!(untouched, 0, "the stack is too short");
        self.words[untouched..].fill(PAINT);
        8 * (self.words.len() - untouched)
    }
}

extern "C" fn run(call: &mut &mut dyn FnMut()) {
    call();
}

/// The recorded calls of a path, or what is wrong with it.
fn recorded(path: &str) -> Result<Vec<Call>, String> {
    let read = |file: &Path| fs::read(file).map_err(|error| format!("{}: {error}", file.display()));
    let path = Path::new(path);
    if path.ends_with("replay") {
        let calls = replay::calls(&read(&path.join("stdin"))?);
        let calls = calls.map(|calls| calls.into_iter().map(|recorded| recorded.call).collect());
        return calls.ok_or(format!("{}: no recorded calls", path.display()));
    }
    let mut files = vec![path.to_path_buf()];
    if path.is_dir() {
        let entries = fs::read_dir(path).map_err(|error| format!("{}: {error}", path.display()))?;
        files = entries.flatten().map(|entry| entry.path()).collect();
        files.retain(|file| file.extension().is_some_and(|extension| extension == "jsonl"));
    }
    let mut calls = vec![];
    for file in files {
        let text = String::from_utf8_lossy(&read(&file)?).into_owned();
        calls.extend(text.lines().filter_map(Call::parse).map(|(call, _)| call));
    }
    if calls.is_empty() {
        return Err(format!("{}: no recorded calls", path.display()));
    }
    Ok(calls)
}

/// A reading, a writing, a setting and a removal under a table of 256 types: a list of the deepest, in which each holds one
/// of the next, and an optional of the same type.
fn nested(leaf: (u8, &[u8]), kind: u8, before: &[u8]) -> [Call; 4] {
    let mut spec = Spec::default();
    let mut part = spec.basic(leaf.0);
    let mut value = leaf.1.to_vec();
    let key = spec.basic(1);
    while spec.rows.len() < 255 {
        part = match kind {
            9 => spec.owner(9, &[(part, None)]),
            10 => spec.row(10, [part, 0, 0, 0, 0]),
            _ => spec.row(11, [key, part, 0, 0, 0]),
        };
        value.splice(0..0, before.iter().copied());
    }
    let top = spec.owner(15, &[(part, None), (part, Some(1))]).into();
    let table = spec.bytes();
    let length = value.len() as u32;
    let message = [&(6 + length).to_le_bytes()[..], &[1, 1], &value].concat();
    let member = spec.members.len() as u32 - 1;
    let rows = [member - 1, 0, length].iter().flat_map(|number| number.to_le_bytes()).collect();
    let reading = Call::Read { table: table.clone(), top, message: message.clone(), room: 12 };
    let setting = Call::Set { table: table.clone(), top, message, member, bytes: value.clone(), room: 65_536 };
    let with = match setting.answer() {
        Answer::Write { out, .. } => out,
        _ => vec![],
    };
    let removal = Call::Remove { table: table.clone(), top, message: with, member, room: 65_536 };
    let writing = Call::Write { table, of: top, format: 1, count: 1, rows, buffer: value, room: 65_536 };
    [reading, writing, setting, removal]
}

fn main() {
    let recorded = env::args().skip(1).map(|path| recorded(&path)).collect::<Result<Vec<_>, _>>();
    let recorded = recorded.map(|calls| calls.concat()).unwrap_or_else(|error| {
        eprintln!("{error}");
        process::exit(2)
    });
    // A proxy is the leaf that calls deepest; structs, sequences and dictionaries nest.
    let proxy = [&[1, b'n', 0, 0, 0, 0, 1, 0, 1, 1, 0][..], &[0]].concat();
    let nested = [(9, &[][..]), (10, &[1]), (11, &[1, 7])]
        .iter()
        .flat_map(|&(kind, before)| nested((12, &proxy), kind, before))
        .collect::<Vec<_>>();
    for call in &nested {
        let answer = ffi::answer(call).map(|answer| answer.refusal());
        assert_eq!(answer, Some(0), "a nested call is refused");
    }

    let mut stack = Stack::new();
    let own = stack.depth(&mut || {});
    let mut deepest = BTreeMap::new();
    let changes = Changes::new(SEED).take(GENERATED).map(|change| change.call);
    let generated: Vec<_> = Calls::new(SEED).take(GENERATED).chain(changes).collect();
    println!("{} recorded, {} generated and {} nested calls", recorded.len(), generated.len(), nested.len());
    for (column, calls) in [recorded, generated, nested].iter().enumerate() {
        for call in calls {
            ffi::each(call, |name, made| {
                let depth = stack.depth(made) - own;
                let most: &mut [usize; 3] = deepest.entry(name).or_default();
                most[column] = most[column].max(depth);
            });
        }
    }
    println!("{:<32} {:>10} {:>10} {:>10}", "bytes of stack", "recorded", "generated", "nested");
    // A call that no column has is shown as none, not as 0 bytes.
    let shown = |depth: usize| if depth == 0 { "none".to_string() } else { depth.to_string() };
    for (name, depths) in deepest {
        let [recorded, generated, nested] = depths.map(shown);
        println!("{name:<32} {recorded:>10} {generated:>10} {nested:>10}");
    }
}
