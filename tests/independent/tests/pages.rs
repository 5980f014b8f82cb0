//! The repository's pages: every link leads to a file, and a link whose text is a name leads to a file that has it.

use std::fs;
use std::path::{Path, PathBuf};

const PAGES: &[&str] = &[
    "README.md",
    "docs/DECISIONS.md",
    "docs/PROVING.md",
    "docs/RULES.md",
    "docs/SPEED.md",
    "docs/USERS.md",
    "docs/changes/M-100.md",
    "docs/changes/M-101.md",
    "docs/changes/M-102.md",
    "docs/changes/M-103.md",
    "docs/changes/M-111.md",
    "docs/changes/M-104.md",
    "docs/changes/M-107.md",
    "docs/changes/M-106.md",
    "docs/changes/M-110.md",
    "docs/changes/M-112.md",
    "docs/changes/M-108.md",
    "samples/README.md",
    "bindings/rust/README.md",
    "tests/independent/README.md",
];

fn root() -> PathBuf {
    Path::new(env!("CARGO_MANIFEST_DIR")).join("../..")
}

/// The links of a page outside its code blocks: text and target.
fn links(page: &str) -> Vec<(&str, &str)> {
    let mut found = vec![];
    for line in page.lines().filter(|line| !line.starts_with("    ")) {
        let mut rest = line;
        while let Some((before, after)) = rest.split_once("](") {
            let text = before.rsplit_once('[').map_or("", |(_, text)| text);
            let (target, left) = after.split_once(')').expect(line);
            found.push((text, target));
            rest = left;
        }
    }
    found
}

/// The anchor of a heading: lower case, without punctuation, with hyphens for spaces.
fn anchor(heading: &str) -> String {
    let kept = heading.chars().filter(|c| c.is_alphanumeric() || matches!(c, ' ' | '-'));
    kept.collect::<String>().to_lowercase().replace(' ', "-")
}

/// What is wrong with a link, if anything.
fn fault(page: &Path, text: &str, target: &str) -> Option<String> {
    let (file, place) = target.split_once('#').unwrap_or((target, ""));
    let path = if file.is_empty() { page.to_path_buf() } else { page.parent()?.join(file) };
    if !path.exists() {
        return Some(format!("no file {target}"));
    }
    if path.is_dir() {
        return None;
    }
    let content = fs::read_to_string(&path).unwrap_or_default();
    let mut headings =
        content.lines().filter(|line| line.starts_with('#')).map(|line| line.trim_start_matches('#').trim());
    if !place.is_empty() && !headings.any(|heading| anchor(heading) == place) {
        return Some(format!("no heading for {target}"));
    }
    let name = text.strip_prefix('`')?.strip_suffix('`')?;
    (!has_name(&content, name) && !has_name(target, name)).then(|| format!("no {name} in {target}"))
}

/// Whether a name is in a text, and not only as a part of a longer name.
fn has_name(text: &str, name: &str) -> bool {
    let ends = |c: Option<char>| c.is_none_or(|c| !c.is_alphanumeric() && !matches!(c, '_' | '-'));
    text.match_indices(name)
        .any(|(at, _)| ends(text[..at].chars().next_back()) && ends(text[at + name.len()..].chars().next()))
}

#[test]
fn links_lead_somewhere() {
    let mut faults = vec![];
    for name in PAGES {
        let page = root().join(name);
        let content = fs::read_to_string(&page).expect(name);
        for (text, target) in links(&content).into_iter().filter(|(_, target)| !target.contains("://")) {
            faults.extend(fault(&page, text, target).map(|fault| format!("{name}: {fault}")));
        }
    }
    assert!(faults.is_empty(), "{}", faults.join("\n"));
}

/// The page of rules and the README name every promise.
#[test]
fn every_promise_is_named() {
    let read = |name: &str| fs::read_to_string(root().join(name)).expect(name);
    let pages = [read("README.md"), read("docs/RULES.md")];
    let files = ["laws/specs/Promises", "edit/specs/ChangePromises", "bursts/specs/BurstPromises"];
    let promises = files.map(|file| read(&format!("crates/{file}.antt"))).concat();
    let fields = promises.lines().filter_map(|line| line.strip_prefix("  pub ")?.split_once(" : "));
    let named = |promise: &str| pages.iter().all(|page| page.contains(&format!("`{promise}`")));
    let missing: Vec<_> = fields.map(|(_, promise)| promise).filter(|promise| !named(promise)).collect();
    assert!(missing.is_empty(), "README.md or docs/RULES.md lacks {}", missing.join(", "));
}
