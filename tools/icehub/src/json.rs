//! A message as a line of JSON.

use crate::accepted;
use crate::endpoints;
use crate::locate::{locate, Held, Slice};
use crate::text;
use crate::values::{endpoint_type, mode};
use crate::words::{double, float, quoted, type_words};
use icehub::{Member, MemberRow, Proxy, Reading, Reason, Refusal, Table, TypeRow, Value};
use std::fmt::Write;

/// The line of an accepted message.
pub fn accepted(file: &str, reading: &Reading) -> String {
    let of = reading.table().type_row(reading.first_type);
    let members: Vec<_> = reading.members().map(member).collect();
    format!(
        r#"{{"file":{file},"accepted":true,"type":{},"kind":{},"name":{},"encoding":{},"format":{},"optionals_skipped":{},"slices_skipped":{},"members":[{}]}}"#,
        reading.first_type,
        or_null(of.map(|of| quoted(of.kind().name()))),
        or_null(of.and_then(TypeRow::name).map(quoted)),
        quoted(accepted::encoding(reading)),
        quoted(accepted::format(reading, of)),
        reading.optionals_skipped,
        reading.slices_skipped,
        members.join(",")
    )
}

/// The line of a refused message.
pub fn refused(file: &str, bytes: &[u8], top: u32, message: &[u8], refusal: Refusal) -> String {
    let mut line = format!(
        r#"{{"file":{file},"accepted":false,"refusal":{},"name":{},"text":{},"place":{}"#,
        refusal.number,
        or_null(refusal.reason().map(|reason| quoted(reason.name()))),
        quoted(refusal.text()),
        refusal.place
    );
    let in_message = !matches!(refusal.reason(), Some(Reason::BadType | Reason::InputTooLong));
    if let (true, Ok(table)) = (in_message, Table::new(bytes)) {
        let place = refusal.place as usize;
        let location = locate(table, top, message, place);
        let path: Vec<_> = location.path.iter().map(|step| quoted(&step.to_string())).collect();
        let (start, end) = (place.saturating_sub(16).min(message.len()), message.len().min(place + 16));
        let _ = write!(
            line,
            r#","slice":{},"member":{},"path":[{}],"item":{},"around":{{"place":{start},"bytes":{}}}"#,
            or_null(location.slice.map(slice)),
            or_null(location.member.map(held)),
            path.join(","),
            or_null(location.item.map(quoted)),
            hex(&message[start..end])
        );
        if refusal.reason() == Some(Reason::BadText) {
            let _ = write!(line, r#","string":{}"#, or_null(no_text(message, place)));
        }
    }
    line.push('}');
    line
}

/// A string that is no text: where its bytes are, the place of the first bad one, and what is wrong there.
fn no_text(message: &[u8], place: usize) -> Option<String> {
    let (start, bytes) = text::at(message, place)?;
    let text::Fault { place: bad, wrong, .. } = text::fault(bytes, start)?;
    let (length, wrong) = (bytes.len(), quoted(&wrong));
    Some(format!(r#"{{"place":{start},"length":{length},"bad":{bad},"wrong":{wrong}}}"#))
}

/// The line of a message that could not be read.
pub fn unread(file: &str, wrong: &str) -> String {
    format!(r#"{{"file":{file},"error":{}}}"#, quoted(wrong))
}

fn or_null(json: Option<String>) -> String {
    json.unwrap_or_else(|| "null".to_string())
}

/// A type ID, or an object with its bytes if it is not UTF-8.
fn type_id(bytes: &[u8]) -> String {
    match std::str::from_utf8(bytes) {
        Ok(text) => quoted(text),
        Err(_) => format!(r#"{{"bytes":{}}}"#, hex(bytes)),
    }
}

fn hex(bytes: &[u8]) -> String {
    let mut digits = String::with_capacity(2 * bytes.len() + 2);
    digits.push('"');
    for byte in bytes {
        let _ = write!(digits, "{byte:02X}");
    }
    digits.push('"');
    digits
}

fn member(member: Member) -> String {
    let mut line = String::from("{");
    if let Some(declared) = member.declared() {
        line.push_str(&declaration(declared));
    }
    let _ = write!(line, r#","place":{},"length":{},"value":"#, member.row.place, member.row.length);
    match member.value() {
        Some(member) => value(&mut line, &member),
        None => line.push_str("null"),
    }
    line.push('}');
    line
}

/// What a table says of a member.
fn declaration(declared: MemberRow) -> String {
    let tag = or_null(declared.tag().map(|tag| tag.to_string()));
    format!(r#""member":{},"tag":{tag},"type":{}"#, declared.number(), quoted(&type_words(declared.of())))
}

fn slice(slice: Slice) -> String {
    format!(
        r#"{{"number":{},"place":{},"id":{},"type":{}}}"#,
        slice.number,
        slice.place,
        or_null(slice.id.map(type_id)),
        or_null(slice.of.map(|of| of.number().to_string()))
    )
}

fn held(held: Held) -> String {
    let declared = match held.declared {
        Some(declared) => declaration(declared),
        None => format!(r#""member":null,"tag":{},"type":null"#, or_null(held.tag.map(|tag| tag.to_string()))),
    };
    format!(r#"{{{declared},"place":{}}}"#, held.place)
}

/// A float or double: JSON has no number for those that are not finite.
fn real(line: &mut String, is_finite: bool, shown: &str) {
    line.push_str(&if is_finite { shown.to_string() } else { quoted(shown) });
}

/// Puts items in brackets, a comma between two.
fn list<T>(line: &mut String, items: impl Iterator<Item = T>, put: impl Fn(&mut String, T)) {
    line.push('[');
    for (number, item) in items.enumerate() {
        if number > 0 {
            line.push(',');
        }
        put(line, item);
    }
    line.push(']');
}

fn value(line: &mut String, of: &Value) {
    match of {
        Value::Bool(truth) => line.push_str(if *truth { "true" } else { "false" }),
        Value::Byte(number) => line.push_str(&number.to_string()),
        Value::Short(number) => line.push_str(&number.to_string()),
        Value::Int(number) => line.push_str(&number.to_string()),
        Value::Long(number) => line.push_str(&number.to_string()),
        Value::Float(number) => real(line, number.is_finite(), &float(*number)),
        Value::Double(number) => real(line, number.is_finite(), &double(*number)),
        Value::String(text) => line.push_str(&quoted(text)),
        Value::Enum(number) => line.push_str(&number.to_string()),
        Value::Struct(fields) => list(line, fields.clone(), |line, field| value(line, &field)),
        Value::Sequence(elements) => list(line, elements.clone(), |line, element| value(line, &element)),
        Value::Dictionary(entries) => list(line, entries.clone(), |line, (key, of)| {
            line.push_str(r#"{"key":"#);
            value(line, &key);
            line.push_str(r#","value":"#);
            value(line, &of);
            line.push('}');
        }),
        Value::Proxy(None) => line.push_str("null"),
        Value::Proxy(Some(of)) => proxy(line, of),
    }
}

fn proxy(line: &mut String, proxy: &Proxy) {
    let version = |(major, minor): (u8, u8)| quoted(&format!("{major}.{minor}"));
    let _ = write!(
        line,
        r#"{{"name":{},"category":{},"facet":{},"mode":{},"secure":{},"protocol":{},"encoding":{},"endpoints":"#,
        quoted(proxy.name),
        quoted(proxy.category),
        or_null(proxy.facet.map(quoted)),
        quoted(mode(proxy.mode)),
        proxy.secure,
        or_null(proxy.protocol.map(version)),
        or_null(proxy.encoding.map(version))
    );
    list(line, proxy.endpoints.clone(), |line, endpoint| {
        let of = quoted(&endpoint_type(endpoint.of));
        let inside = hex(endpoint.bytes.get(8..).unwrap_or_default());
        let address = endpoints::json(&endpoint);
        let _ = write!(line, r#"{{"type":{of},"encoding":{},"bytes":{inside}{address}}}"#, version(endpoint.encoding));
    });
    let _ = write!(line, r#","adapter":{}}}"#, or_null(proxy.adapter.map(quoted)));
}
