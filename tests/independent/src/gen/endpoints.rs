//! Calls on endpoints: right and damaged ones of all types, proxies that hold them, and arguments of the writer.

use super::{damage, Rng};
use crate::calls::{Answer, Call};
use crate::endpoint::{write_endpoint, EndpointCall, Given, LOCATED, OPENED};

impl Rng {
    /// A host: mostly text, at times with a long size or no text.
    fn host(&mut self) -> Vec<u8> {
        let length = self.pick(&[0, 1, 3, 9, 9, 20, 254, 255, 256]);
        let mut host = self.text(length);
        if self.one_in(8) && !host.is_empty() {
            self.spoil(&mut host);
        }
        host
    }

    fn port(&mut self) -> u32 {
        let any = self.next() as u32;
        self.pick(&[1, 80, 4_061, 4_061, 10_000, 65_534, 65_535, 0, 65_536, 0x8000_0000, u32::MAX, any])
    }

    fn given(&mut self) -> Given {
        let any = self.next() as u32;
        Given {
            kind: self.pick(&[1, 1, 2, 2, 3, 3, 3, 0, 4, 257, 65_537]),
            host: self.host(),
            port: self.port(),
            timeout: self.pick(&[0, 60_000, 0x7FFF_FFFF, 0x8000_0000, u32::MAX, any]),
            compress: self.one_in(2),
        }
    }

    /// An endpoint, right if it is of TCP, SSL or UDP, else of any content.
    fn endpoint(&mut self) -> Vec<u8> {
        if self.one_in(6) {
            let content: Vec<u8> = (0..2 + self.below(12)).map(|_| self.byte()).collect();
            let kind = self.pick(&[0u16, 4, 4, 256, 769, 65_535]);
            return [&kind.to_le_bytes()[..], &(4 + content.len() as u32).to_le_bytes(), &content].concat();
        }
        loop {
            let mut out = [0; 512];
            if let Ok(length) = write_endpoint(&self.given(), &mut out) {
                return out[..length as usize].to_vec();
            }
        }
    }

    /// The bytes of an endpoint with one field changed, so that one refusal is due and often another after it.
    fn changed_endpoint(&mut self) -> Vec<u8> {
        let mut bytes = self.endpoint();
        if self.one_in(3) {
            bytes.extend((0..self.below(3)).map(|_| 0xA5)); // 18
        }
        let length = bytes.len();
        match self.below(8) {
            0 => bytes[6..8].fill(self.pick(&[0, 2, 255])),
            1 => bytes[2] = bytes[2].wrapping_add(self.pick(&[1, 255, 4, 252])),
            2 => bytes[5] = 0x80,
            3 => bytes[8.min(length - 1)] = self.byte(),
            4 => *bytes.last_mut().unwrap_or(&mut 0) = self.byte(),
            5 => {
                let at = length.saturating_sub(self.pick(&[5, 9]));
                bytes[at..(at + 4).min(length)].fill(0);
            }
            6 => bytes.truncate(self.below(length + 1)),
            _ => damage(self, &mut bytes, 0),
        }
        bytes
    }
}

/// A call of each kind: opening, writing, finding in a proxy.
pub fn endpoint_calls(rng: &mut Rng) -> [Call; 3] {
    let bytes = if rng.one_in(3) { rng.endpoint() } else { rng.changed_endpoint() };
    let room = rng.pick(&[OPENED, OPENED, OPENED, OPENED + 3, OPENED - 1, 0]);
    let open = EndpointCall::Open { bytes, room };

    let given = rng.given();
    let needed = match (EndpointCall::Write { given: given.clone(), room: 0 }).answer() {
        Answer::Endpoint(endpoint) if endpoint.refusal().0 == 22 => endpoint.refusal().1 as usize,
        _ => 64,
    };
    let room = rng.pick(&[needed, needed, needed + 5, needed - 1, 0]);
    let write = EndpointCall::Write { given, room };

    let mut proxy = [&[4][..], b"node", &[0]].concat();
    proxy.extend(rng.pick(&[&[0u8][..], &[0], &[1, 1, b'f'], &[1, 0]]));
    proxy.extend([rng.below(5) as u8, rng.below(2) as u8, 1, 0, 1, 1]);
    let count = rng.pick(&[0usize, 1, 1, 2, 3, 3, 7]);
    proxy.push(count as u8);
    for _ in 0..count {
        let endpoint = rng.endpoint();
        proxy.extend(endpoint);
    }
    if count == 0 {
        proxy.extend([3, b'h', b'u', b'b']);
    }
    if rng.one_in(12) {
        proxy = vec![0, 0];
    }
    if rng.one_in(3) {
        damage(rng, &mut proxy, 0);
    }
    let wanted = rng.pick(&[0, 0, 1, 2, count as u32, (count as u32).wrapping_sub(1), 0x7FFF_FFFF]);
    let room = rng.pick(&[LOCATED, LOCATED, LOCATED, LOCATED + 3, LOCATED - 1, 0]);
    let locate = EndpointCall::Locate { proxy, wanted, room };
    [open, write, locate].map(Call::Endpoint)
}
