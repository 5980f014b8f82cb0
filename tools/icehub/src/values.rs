//! Values for a person: a line for a plain value, and an indented line for each part of any other.

use crate::endpoints;
use crate::words;
use icehub::{Elements, Kind, Proxy, Value};
use std::io::{self, Write};

/// How far a part is indented under what holds it.
const STEP: usize = 2;
/// Plain elements of a sequence are put on lines of about this length.
const WIDTH: usize = 80;

/// The rest of the line that a value begins on, and the lines of its parts.
pub fn write(out: &mut dyn Write, value: &Value, indent: usize) -> io::Result<()> {
    writeln!(out, "{}", head(value))?;
    match value {
        Value::Struct(fields) => {
            for (member, field) in fields.of().members().zip(fields.clone()) {
                labelled(out, &format!("member {member}"), &field, indent)?;
            }
        }
        Value::Sequence(elements) if is_plain(elements.of().kind()) => plain_lines(out, elements.clone(), indent)?,
        Value::Sequence(elements) => {
            for (number, element) in elements.clone().enumerate() {
                labelled(out, &number.to_string(), &element, indent)?;
            }
        }
        Value::Dictionary(entries) => {
            let is_short = is_plain(entries.key().kind()) || entries.key().kind() == Kind::String;
            for (number, (key, value)) in entries.clone().enumerate() {
                if is_short {
                    labelled(out, &head(&key), &value, indent)?;
                } else {
                    labelled(out, &format!("key {number}"), &key, indent)?;
                    labelled(out, &format!("value {number}"), &value, indent)?;
                }
            }
        }
        Value::Proxy(Some(proxy)) => proxy_lines(out, proxy, indent)?,
        _ => {}
    }
    Ok(())
}

/// A plain value, or what kind of parts follow.
pub fn head(value: &Value) -> String {
    match value {
        Value::Bool(truth) => truth.to_string(),
        Value::Byte(number) => number.to_string(),
        Value::Short(number) => number.to_string(),
        Value::Int(number) => number.to_string(),
        Value::Long(number) => number.to_string(),
        Value::Float(number) => words::float(*number),
        Value::Double(number) => words::double(*number),
        Value::String(text) => words::quoted(text),
        Value::Enum(number) => number.to_string(),
        Value::Struct(fields) => words::count(fields.len(), "member", "members"),
        Value::Sequence(elements) => {
            let count = words::count(elements.len(), "element", "elements");
            format!("{count}, {}", words::type_words(elements.of()))
        }
        Value::Dictionary(entries) => {
            let count = words::count(entries.len(), "entry", "entries");
            format!("{count}, {} to {}", words::type_words(entries.key()), words::type_words(entries.value()))
        }
        Value::Proxy(None) => "nil".to_string(),
        Value::Proxy(Some(proxy)) if proxy.category.is_empty() => words::quoted(proxy.name),
        Value::Proxy(Some(proxy)) => {
            format!("{}, category {}", words::quoted(proxy.name), words::quoted(proxy.category))
        }
    }
}

fn labelled(out: &mut dyn Write, label: &str, value: &Value, indent: usize) -> io::Result<()> {
    write!(out, "{:indent$}{label}: ", "")?;
    write(out, value, indent + STEP)
}

fn is_plain(kind: Kind) -> bool {
    matches!(
        kind,
        Kind::Bool | Kind::Byte | Kind::Short | Kind::Int | Kind::Long | Kind::Float | Kind::Double | Kind::Enum
    )
}

/// Many plain elements to a line; bytes in hex.
fn plain_lines(out: &mut dyn Write, elements: Elements, indent: usize) -> io::Result<()> {
    if let Some(bytes) = Value::Sequence(elements.clone()).as_bytes() {
        for line in bytes.chunks(32) {
            writeln!(out, "{:indent$}{}", "", words::hex(line))?;
        }
        return Ok(());
    }
    let mut line = String::new();
    let last = elements.len().saturating_sub(1);
    for (number, element) in elements.enumerate() {
        line.push_str(&head(&element));
        if number == last || line.len() >= WIDTH {
            writeln!(out, "{:indent$}{line}{}", "", if number == last { "" } else { "," })?;
            line.clear();
        } else {
            line.push_str(", ");
        }
    }
    Ok(())
}

/// What a proxy's mode is called.
pub fn mode(mode: u8) -> &'static str {
    match mode {
        0 => "twoway",
        1 => "oneway",
        2 => "batch oneway",
        3 => "datagram",
        4 => "batch datagram",
        _ => "unknown",
    }
}

/// What an endpoint's type is called.
pub fn endpoint_type(of: i16) -> String {
    match of {
        1 => "TCP".to_string(),
        2 => "SSL".to_string(),
        3 => "UDP".to_string(),
        _ => format!("type {of}"),
    }
}

/// What follows the identity.
fn proxy_lines(out: &mut dyn Write, proxy: &Proxy, indent: usize) -> io::Result<()> {
    if let Some(facet) = proxy.facet {
        writeln!(out, "{:indent$}facet {}", "", words::quoted(facet))?;
    }
    let secure = if proxy.secure { "secure" } else { "not secure" };
    write!(out, "{:indent$}{}, {secure}", "", mode(proxy.mode))?;
    for (what, version) in [("protocol", proxy.protocol), ("encoding", proxy.encoding)] {
        if let Some((major, minor)) = version {
            write!(out, ", {what} {major}.{minor}")?;
        }
    }
    writeln!(out)?;
    for (number, endpoint) in proxy.endpoints.clone().enumerate() {
        writeln!(out, "{:indent$}endpoint {number}: {}", "", endpoints::shown(&endpoint))?;
    }
    if let Some(adapter) = proxy.adapter {
        writeln!(out, "{:indent$}adapter {}", "", words::quoted(adapter))?;
    }
    Ok(())
}
