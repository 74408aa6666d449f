//! How inputs are changed: half by libFuzzer, half by changes that know what a sheet or a request is.

use crate::requests::{give_shape, within_limits};
use agreement::{draws, files, sheets};
use reference::elements::{Elements, Station};
use reference::random::Random;
use reference::request::Request;
use reference::sample::{self, Manner};
use reference::shadow::Phase;

extern "C" {
    fn LLVMFuzzerMutate(data: *mut u8, size: usize, most: usize) -> usize;
}

/// Changes an input of which `head` bytes come before the sheet or request. Its new length, at most `most`.
///
/// # Safety
/// `data` can hold `most` bytes and holds `size`.
pub unsafe fn mutate(
    data: *mut u8,
    size: usize,
    most: usize,
    seed: u32,
    head: usize,
    change: fn(&mut Random, &mut Vec<u8>),
) -> usize {
    let mut random = Random::new(seed.into());
    if size <= head || random.once_in(2) {
        return LLVMFuzzerMutate(data, size, most);
    }
    let input = std::slice::from_raw_parts_mut(data, most);
    // The buffer too, and often just enough or one less: two bytes of many would seldom be met.
    if random.once_in(4) {
        input[0] = [0, 1, 0xFF, random.below(256) as u8][random.below(4) as usize];
        input[1] = if random.once_in(2) { 0 } else { random.below(8) as u8 };
    }
    let mut changed = input[head..size].to_vec();
    change(&mut random, &mut changed);
    changed.truncate(most - head);
    input[head..head + changed.len()].copy_from_slice(&changed);
    head + changed.len()
}

pub use crate::networks::change as change_network;
pub use crate::stars::change as change_star;
pub use crate::tables::change as change_tables;
pub use files::change as change_file;
pub use sheets::damage as change_sheet;

/// Entries are damaged as numbers.
pub fn change_entries(random: &mut Random, bytes: &mut Vec<u8>) {
    let mut entries: Vec<u32> =
        bytes.chunks_exact(4).map(|b| u32::from_be_bytes([b[0], b[1], b[2], b[3]])).collect();
    if entries.len() < 10 {
        entries = sheets::entries(random);
    }
    sheets::damage_entries(random, &mut entries);
    *bytes = entries.iter().flat_map(|number| number.to_be_bytes()).collect();
}

/// One number of a request at or next to its limits, or anywhere within them.
fn put_at_limit(random: &mut Random, request: &mut Request) {
    let manner = if random.once_in(4) { Manner::Anywhere } else { Manner::AtLimits };
    let drawn = sample::draw(random, manner);
    match random.below(30) as usize {
        field @ 0..22 => {
            let mut fields = request.elements.fields();
            fields[field] = drawn.elements.fields()[field];
            request.elements = Elements::from_fields(fields);
        }
        field @ 22..27 => {
            let mut fields = request.station.fields();
            fields[field - 22] = drawn.station.fields()[field - 22];
            request.station = Station::from_fields(fields);
        }
        27 => request.window.first = drawn.window.first,
        28 => request.window.last = drawn.window.last,
        _ => request.guard = drawn.guard,
    }
}

/// A number at a limit or past it, or the axis near the cone's edge or slow at a second of the window; what is no
/// request becomes one, and its numbers come within their limits.
pub fn change_request(random: &mut Random, bytes: &mut Vec<u8>) {
    let Ok(mut request) = Request::from_bytes(bytes) else { return give_shape(bytes) };
    let within = request.check().is_ok();
    match random.below(8) {
        0 => draws::outside(random, &mut request),
        1..=3 if !within => request = within_limits(&request),
        1..=2 => {
            let second = random.within(&request.window.seconds());
            let phase = [Phase::Penumbra, Phase::Central][random.below(2) as usize];
            sample::put_near_edge(random, &mut request, second, phase);
        }
        3 => {
            let second = random.within(&request.window.seconds());
            let (u_rate, v_rate) = (random.within(&(-10_000..=10_000)), random.within(&(-10_000..=10_000)));
            sample::slow_down(&mut request, second, u_rate, v_rate);
        }
        _ => put_at_limit(random, &mut request),
    }
    if let Some(changed) = request.to_bytes() {
        *bytes = changed.to_vec();
    }
}
