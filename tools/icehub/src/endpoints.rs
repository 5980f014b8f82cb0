//! Endpoints of proxies, opened: which address a hub dials.

use crate::values::endpoint_type;
use crate::words::{self, quoted};
use icehub::{Endpoint, Opened};

/// For a person: as Ice users write it, `tcp -h host -p 4061 -t 60000`. One that is not opened is shown by its bytes, and
/// why it is refused if it is of TCP, SSL or UDP.
pub fn shown(endpoint: &Endpoint) -> String {
    let (major, minor) = endpoint.encoding;
    let of = endpoint_type(endpoint.of);
    let bytes = match endpoint.bytes.get(8..).unwrap_or_default() {
        [] => "empty".to_string(),
        inside => format!("bytes {}", words::hex(inside)),
    };
    match endpoint.open() {
        Ok(Opened::Address(address)) => address.to_string(),
        Ok(Opened::Unopened(_)) => format!("{of}, encoding {major}.{minor}, {bytes}"),
        Err(refusal) => format!("{of}, encoding {major}.{minor}, {bytes}; not opened: {refusal}"),
    }
}

/// The fields of its JSON object after those that every endpoint has: host, port, timeout and compress of an address, or
/// the refusal.
pub fn json(endpoint: &Endpoint) -> String {
    match endpoint.open() {
        Ok(Opened::Address(address)) => {
            let timeout = if address.of == 3 { "null".to_string() } else { address.timeout.to_string() };
            format!(
                r#","host":{},"port":{},"timeout":{timeout},"compress":{}"#,
                quoted(address.host),
                address.port,
                address.compress
            )
        }
        Ok(Opened::Unopened(_)) => String::new(),
        Err(refusal) => format!(r#","refusal":{},"place":{}"#, refusal.number, refusal.place),
    }
}
