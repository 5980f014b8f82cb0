//! One endpoint of a proxy: opened, written, and found in its proxy.

use crate::{ffi, Endpoint, Refusal};
use core::fmt;
use core::ops::Range;

/// The address that an endpoint of TCP, SSL or UDP holds.
#[derive(Clone, Copy, Debug, PartialEq, Eq, Hash)]
pub struct Address<'a> {
    /// The type: 1 TCP, 2 SSL, 3 UDP.
    pub of: u32,
    /// The host: a name or an IP address.
    pub host: &'a str,
    /// The port, never 0.
    pub port: u16,
    /// The timeout in milliseconds, any int; 0 in UDP, which has none.
    pub timeout: i32,
    /// Whether messages may be compressed.
    pub compress: bool,
}

/// An endpoint that was opened, or the type of one that is not.
#[derive(Clone, Copy, Debug, PartialEq, Eq, Hash)]
pub enum Opened<'a> {
    /// TCP, SSL or UDP.
    Address(Address<'a>),
    /// Another type, as its bytes have it, without a sign.
    Unopened(u32),
}

/// Where an endpoint is in its proxy: how many endpoints there are, and the wanted one's bytes, if there is one.
///
/// The proxy is of encoding 1.1 and begins and ends with these bytes, as the row of a member of that type has them.
pub fn endpoint_at(proxy: &[u8], n: u32) -> Result<(u32, Option<Range<usize>>), Refusal> {
    let [count, place, length] = ffi::proxy_endpoint(proxy, n).map_err(|(number, place)| Refusal { number, place })?;
    let place = place as usize;
    Ok((count, (n < count).then_some(place..place + length as usize)))
}

/// Opens an endpoint: all of its bytes, and nothing else.
pub fn open_endpoint(bytes: &[u8]) -> Result<Opened<'_>, Refusal> {
    let [opened, of, place, length, port, timeout, compress] =
        ffi::endpoint(bytes).map_err(|(number, place)| Refusal { number, place })?;
    if opened == 0 {
        return Ok(Opened::Unopened(of));
    }
    let host = bytes.get(place as usize..).and_then(|rest| rest.get(..length as usize));
    let host = host.and_then(|host| core::str::from_utf8(host).ok()).unwrap_or("");
    let (port, timeout, compress) = (port as u16, timeout as i32, compress != 0);
    Ok(Opened::Address(Address { of, host, port, timeout, compress }))
}

/// Writes an address as an endpoint to the start of `out`, and gives its length. A timeout of UDP is not written.
pub fn write_endpoint(address: Address, out: &mut [u8]) -> Result<usize, Refusal> {
    let Address { of, host, port, timeout, compress } = address;
    ffi::endpoint_write((of, host.as_bytes(), port.into(), timeout as u32, compress), out)
        .map(|length| length as usize)
        .map_err(|(number, place)| Refusal { number, place })
}

impl<'a> Endpoint<'a> {
    /// Opens it.
    pub fn open(&self) -> Result<Opened<'a>, Refusal> {
        open_endpoint(self.bytes)
    }
}

/// As Ice users write it: `tcp -h host -p 4061 -t 60000`, and `-z` if messages may be compressed. A host with a character
/// that is not a letter, a digit or one of `.-:_` is quoted.
impl fmt::Display for Address<'_> {
    fn fmt(&self, f: &mut fmt::Formatter) -> fmt::Result {
        let of = match self.of {
            1 => "tcp",
            2 => "ssl",
            _ => "udp",
        };
        let is_plain = |c: char| c.is_ascii_alphanumeric() || ".-:_".contains(c);
        if !self.host.is_empty() && self.host.chars().all(is_plain) {
            write!(f, "{of} -h {} -p {}", self.host, self.port)?;
        } else {
            write!(f, "{of} -h {:?} -p {}", self.host, self.port)?;
        }
        if self.of != 3 {
            write!(f, " -t {}", self.timeout)?;
        }
        f.write_str(if self.compress { " -z" } else { "" })
    }
}
