//! The library's calls on one endpoint.

use super::numbers_of;
use crate::calls::{Answer, LENT};
use crate::endpoint::{EndpointAnswer, EndpointCall, Given, Opened, LOCATED, OPENED};
use std::hint::black_box;

extern "C" {
    fn icehub_endpoint(bytes: *const u8, length: usize, numbers: *mut u8, numbers_length: usize) -> u32;
    fn icehub_endpoint_place(bytes: *const u8, length: usize, numbers_length: usize) -> u32;
    fn icehub_proxy_endpoint(proxy: *const u8, length: usize, n: u32, numbers: *mut u8, numbers_length: usize) -> u32;
    fn icehub_proxy_endpoint_place(proxy: *const u8, length: usize, n: u32, numbers_length: usize) -> u32;
    fn icehub_endpoint_write(
        of: u32,
        host: *const u8,
        host_length: usize,
        port: u32,
        timeout: u32,
        compress: bool,
        out: *mut u8,
        out_length: usize,
    ) -> u32;
    fn icehub_endpoint_write_place(
        of: u32,
        host: *const u8,
        host_length: usize,
        port: u32,
        timeout: u32,
        compress: bool,
        out_length: usize,
    ) -> u32;
    fn icehub_endpoint_write_length(
        of: u32,
        host: *const u8,
        host_length: usize,
        port: u32,
        timeout: u32,
        compress: bool,
        out_length: usize,
    ) -> u32;
}

/// Opens an endpoint: 0 or the refusal number.
pub fn open(bytes: &[u8], numbers: &mut [u8]) -> u32 {
    // SAFETY: each pointer comes with the length of its slice; only `numbers` is written.
    unsafe { icehub_endpoint(bytes.as_ptr(), bytes.len(), numbers.as_mut_ptr(), numbers.len()) }
}

fn open_place(bytes: &[u8], room: usize) -> u32 {
    // SAFETY: as above; nothing is written.
    unsafe { icehub_endpoint_place(bytes.as_ptr(), bytes.len(), room) }
}

/// Finds an endpoint of a proxy: 0 or the refusal number.
pub fn locate(proxy: &[u8], wanted: u32, numbers: &mut [u8]) -> u32 {
    // SAFETY: as above; only `numbers` is written.
    unsafe { icehub_proxy_endpoint(proxy.as_ptr(), proxy.len(), wanted, numbers.as_mut_ptr(), numbers.len()) }
}

fn locate_place(proxy: &[u8], wanted: u32, room: usize) -> u32 {
    // SAFETY: as above; nothing is written.
    unsafe { icehub_proxy_endpoint_place(proxy.as_ptr(), proxy.len(), wanted, room) }
}

/// Writes an endpoint: 0 or the refusal number.
pub fn write(given: &Given, out: &mut [u8]) -> u32 {
    let Given { kind, host, port, timeout, compress } = given;
    // SAFETY: as above; only `out` is written.
    unsafe {
        icehub_endpoint_write(*kind, host.as_ptr(), host.len(), *port, *timeout, *compress, out.as_mut_ptr(), out.len())
    }
}

type WriteNumber = unsafe extern "C" fn(u32, *const u8, usize, u32, u32, bool, usize) -> u32;

fn write_number(number: WriteNumber, given: &Given, room: usize) -> u32 {
    let Given { kind, host, port, timeout, compress } = given;
    // SAFETY: as above; nothing is written.
    unsafe { number(*kind, host.as_ptr(), host.len(), *port, *timeout, *compress, room) }
}

/// The numbers of an answer, if every other lent byte was left as it was.
fn numbers<const N: usize>(refusal: u32, lent: &[u8]) -> Option<[u32; N]> {
    let given = if refusal == 0 { 4 * N } else { 0 };
    let (given, beyond) = lent.split_at_checked(given)?;
    let mut numbers = numbers_of(given);
    numbers.resize(N, 0);
    beyond.iter().all(|&byte| byte == LENT).then_some(())?;
    numbers.try_into().ok()
}

/// The library's answer.
pub fn answer(call: &EndpointCall) -> Answer {
    match call {
        EndpointCall::Open { bytes, room } => {
            let mut lent = vec![LENT; *room];
            let refusal = open(bytes, &mut lent);
            let Some(numbers) = numbers::<7>(refusal, &lent) else { return Answer::Astray };
            let refusal = (refusal, open_place(bytes, *room));
            Answer::Endpoint(EndpointAnswer::Open { refusal, opened: Opened::of_numbers(numbers) })
        }
        EndpointCall::Write { given, room } => {
            let mut out = vec![LENT; *room];
            let refusal = (write(given, &mut out), write_number(icehub_endpoint_write_place, given, *room));
            EndpointAnswer::of_write(refusal, write_number(icehub_endpoint_write_length, given, *room), &out)
        }
        EndpointCall::Locate { proxy, wanted, room } => {
            let mut lent = vec![LENT; *room];
            let refusal = locate(proxy, *wanted, &mut lent);
            let Some(numbers) = numbers::<3>(refusal, &lent) else { return Answer::Astray };
            let refusal = (refusal, locate_place(proxy, *wanted, *room));
            Answer::Endpoint(EndpointAnswer::Locate { refusal, numbers })
        }
    }
}

/// Keeps a result from being optimized away.
fn used(number: u32) {
    black_box(number);
}

/// Hands `run` each call of the library on this input, with its name, to be made once.
pub fn each(call: &EndpointCall, mut run: impl FnMut(&'static str, &mut dyn FnMut())) {
    match call {
        EndpointCall::Open { bytes, .. } => {
            let mut numbers = [LENT; OPENED];
            run("icehub_endpoint", &mut || used(open(bytes, &mut numbers)));
            run("icehub_endpoint_place", &mut || used(open_place(bytes, OPENED)));
        }
        EndpointCall::Write { given, room } => {
            let mut out = vec![LENT; *room];
            run("icehub_endpoint_write", &mut || used(write(given, &mut out)));
            for (name, number) in [
                ("icehub_endpoint_write_place", icehub_endpoint_write_place as WriteNumber),
                ("icehub_endpoint_write_length", icehub_endpoint_write_length),
            ] {
                run(name, &mut || used(write_number(number, given, *room)));
            }
        }
        EndpointCall::Locate { proxy, wanted, .. } => {
            let mut numbers = [LENT; LOCATED];
            run("icehub_proxy_endpoint", &mut || used(locate(proxy, *wanted, &mut numbers)));
            run("icehub_proxy_endpoint_place", &mut || used(locate_place(proxy, *wanted, LOCATED)));
        }
    }
}
