//! `vectors KIND`: test vectors from a fixed seed, one a line, parts separated by a space.
//!
//! Numbers are decimal, a minus sign before those below zero. Bytes are hexadecimal, two lowercase digits
//! each; no bytes at all are written `-`. An answer may be `refused NUMBER PLACE` in place of what stands
//! below.
//!
//! | KIND | A line |
//! |---|---|
//! | sines | angle sine cosine |
//! | places | latitude height R P |
//! | directions | u v direction |
//! | states | L M guard state |
//! | shadows | request u v L1 L2 penumbra central direction magnitude |
//! | sheets | length request sheet |
//! | shared | length request sheet |
//! | listings | request listing |
//! | reads | length sheet count entries |
//! | writes | length entries sheet |
//!
//! States are 0 outside, 1 inside, 2 unsure. A request is the 115 bytes of program `sheet`; in `shadows` its window
//! is the one second that the line is about; in `sheets`, `shared` and `listings` it may have another length. In
//! `shared` the request asks for the share too, beside its bytes. A listing is what program `sheet` prints, each end
//! of a line written `;`. The length is that of the buffer, in bytes for `sheets`, `shared` and `writes`, in entries
//! for `reads`. Entries are numbers separated by commas, five an entry: kind, then the fields of its body in their
//! order, 0 where the kind has fewer; an empty list is `-`. Every record of a sheet is an entry, head and end too.

use reference::elements::{Elements, Station, Window, ELEMENT_RANGES, FARTHEST, STATION_RANGES};
use reference::listing::{program, ROOM};
use reference::place::place;
use reference::random::Random;
use reference::refusal::Refusal;
use reference::request::{Request, KIND_PLACES, REQUEST_LENGTH};
use reference::sample::{self, Manner};
use reference::shadow::{direction, state, Phase, State, GUARD, GUARDS};
use reference::sheet::{self, WORDS};
use reference::sine::sine_cosine;
use std::fmt::Display;
use std::ops::RangeInclusive;
use std::process::ExitCode;

const SEED: u64 = 1954;

fn main() -> ExitCode {
    let kind = std::env::args().nth(1).unwrap_or_default();
    let mut random = Random::new(SEED);
    let lines = match kind.as_str() {
        "sines" => sines(&mut random),
        "places" => places(&mut random),
        "directions" => directions(&mut random),
        "states" => states(&mut random),
        "shadows" => shadows(&mut random),
        "sheets" => sheets(&mut random, false),
        "shared" => sheets(&mut random, true),
        "listings" => listings(&mut random),
        "reads" => reads(&mut random),
        "writes" => writes(&mut random),
        _ => {
            eprintln!(
                "usage: vectors sines | places | directions | states | shadows | sheets | shared | listings | \
                 reads | writes"
            );
            return ExitCode::FAILURE;
        }
    };
    for line in lines {
        println!("{line}");
    }
    ExitCode::SUCCESS
}

fn hex(bytes: &[u8]) -> String {
    if bytes.is_empty() {
        return "-".to_string();
    }
    bytes.iter().map(|byte| format!("{byte:02x}")).collect()
}

fn list(words: &[u32]) -> String {
    if words.is_empty() {
        return "-".to_string();
    }
    words.iter().map(u32::to_string).collect::<Vec<_>>().join(",")
}

fn answer<T>(result: Result<T, Refusal>, good: impl Fn(T) -> String) -> String {
    result.map_or_else(|refusal| refusal.to_string(), good)
}

fn line(parts: &[&dyn Display]) -> String {
    parts.iter().map(ToString::to_string).collect::<Vec<_>>().join(" ")
}

/// Quadrant borders and tenths of a degree with their neighbours, the ends of each stretch of the sine rule,
/// angles below zero, and far ones.
fn sines(random: &mut Random) -> Vec<String> {
    let mut angles = Vec::new();
    for quarter in -5..=9 {
        angles.extend((-1..=1).map(|by| quarter * 90_000_000 + by));
    }
    for tenth in [0, 1, 2, 299, 300, 301, 449, 450, 451, 898, 899, 900, 901, 1799, 2700, 3599] {
        angles.extend([-1, 0, 1, 49_999, 50_000, 50_001, 99_998].map(|by| tenth * 100_000 + by));
    }
    angles.extend((0..100).map(|_| random.within(&(0..=359_999_999))));
    angles.extend((0..50).map(|_| random.within(&(0..=90_000_000))));
    angles.extend((0..50).map(|_| random.within(&(-1_000_000_000..=1_000_000_000))));
    angles.extend([-1_000_000_000, 1_000_000_000]);
    let line_of = |angle| {
        let (sine, cosine) = sine_cosine(angle);
        line(&[&angle, &sine, &cosine])
    };
    angles.into_iter().map(line_of).collect()
}

/// Poles, equator, limits of the height, each degree, the book's example, and others at random.
fn places(random: &mut Random) -> Vec<String> {
    let mut stations = Vec::new();
    for latitude in [-90_000_000, -89_999_999, -45_000_000, -1, 0, 1, 45_000_000, 89_999_999, 90_000_000] {
        stations.extend([-500, -499, -1, 0, 1, 166, 8_999, 9_000].map(|height| (latitude, height)));
    }
    stations.extend((-90..=90).map(|degree| (1_000_000 * degree, 0)));
    stations.push((55_755_000, 166));
    for _ in 0..200 {
        stations.push((random.within(&(-90_000_000..=90_000_000)), random.within(&(-500..=9_000))));
    }
    let line_of = |(latitude, height)| {
        let place = place(latitude, height);
        line(&[&latitude, &height, &place.r, &place.p])
    };
    stations.into_iter().map(line_of).collect()
}

/// Axes, diagonals, the neighbours of each quadrant's border, and others at random.
fn directions(random: &mut Random) -> Vec<String> {
    let mut pairs = vec![(0, 0), (1, 1), (0, -5)];
    for size in [1, 2, 573, 100_000_000, 600_000_000] {
        for (u, v) in [(0, 1), (1, 0), (0, -1), (-1, 0), (1, 1), (1, -1), (-1, -1), (-1, 1)] {
            pairs.extend(
                [(0, 0), (1, 0), (-1, 0), (0, 1), (0, -1)].map(|(a, b)| (u * size + a, v * size + b)),
            );
        }
    }
    for _ in 0..150 {
        let size = [10, 100_000, 600_000_000][random.below(3) as usize];
        pairs.push((random.within(&(-size..=size)), random.within(&(-size..=size))));
    }
    pairs.into_iter().map(|(u, v)| line(&[&u, &v, &direction(u, v)])).collect()
}

fn state_number(state: State) -> i64 {
    match state {
        State::Outside => 0,
        State::Inside => 1,
        State::Unsure => 2,
    }
}

/// The squares at both edges of the unsure ring with their neighbours, for radii down to 0.
fn states(random: &mut Random) -> Vec<String> {
    let mut lines = Vec::new();
    for guard in [GUARD, 17, 100, 999, 1_000] {
        let mut radii =
            vec![0, 1, guard - 1, guard, guard + 1, guard + 2, 2_000, 500_000, 54_000_000, 60_000_000];
        radii.extend((0..20).map(|_| random.within(&(0..=60_000_000))));
        for l in radii {
            let (inner, outer) = ((l - guard) * (l - guard), (l + guard) * (l + guard));
            for m in [0, inner - 1, inner, inner + 1, l * l, outer - 1, outer, outer + 1] {
                if m >= 0 {
                    lines.push(line(&[&l, &m, &guard, &state_number(state(l, m, guard))]));
                }
            }
        }
    }
    lines
}

fn shadow_line(request: &Request) -> String {
    let circumstances = match request.check() {
        Ok(circumstances) => circumstances,
        Err(refusal) => return line(&[&hex(&bytes(request)), &refusal]),
    };
    let shadow = circumstances.shadow(request.window.first);
    line(&[
        &hex(&bytes(request)),
        &shadow.u,
        &shadow.v,
        &shadow.l1,
        &shadow.l2,
        &state_number(shadow.state(Phase::Penumbra, request.guard)),
        &state_number(shadow.state(Phase::Central, request.guard)),
        &shadow.direction(),
        &shadow.magnitude(request.guard),
    ])
}

/// A request near the edge or along it, at a second of its own.
fn draw_near_edge(random: &mut Random) -> Request {
    let manner = [Manner::Anywhere, Manner::AtLimits, Manner::Natural][random.below(3) as usize];
    let mut request = sample::draw(random, manner);
    let second = request.window.first;
    let phase = if random.once_in(2) { Phase::Central } else { Phase::Penumbra };
    if random.once_in(4) {
        let size = sample::beyond(random, request.guard);
        sample::shrink_central(&mut request, second, size);
    }
    if random.once_in(4) {
        sample::slow_down(&mut request, second, random.within(&(-9_999..=9_999)), 0);
    }
    if random.once_in(3) {
        let beyond = sample::beyond(random, request.guard);
        sample::put_along_edge(&mut request, second, phase, beyond);
    } else {
        sample::put_near_edge(random, &mut request, second, phase);
    }
    request
}

/// Seconds of the hand-worked sheet and of the eclipse of 1954 at and about the contacts and over the whole
/// range; drawn requests anywhere, at the limits and near the edge; a shadow at rest by each guard; guards at
/// their limits and beyond.
fn shadows(random: &mut Random) -> Vec<String> {
    let mut lines = Vec::new();
    for (request, contacts) in [
        (sample::hand_worked(), [-5400, 5400, -100, 100, 0]),
        (sample::moscow_1954(), [35, 7921, 0, 4115, -3600]),
        (sample::kiev_1954(), [34, 8397, 4354, 4423, 4389]),
    ] {
        let about = contacts.into_iter().flat_map(|contact| contact - 2..=contact + 2);
        for second in about.chain((-9..=9).map(|step| 1_200 * step)) {
            lines.push(shadow_line(&in_window(&request, second, second)));
        }
    }
    for manner in [Manner::Anywhere, Manner::AtLimits, Manner::Natural] {
        lines.extend((0..40).map(|_| shadow_line(&sample::draw(random, manner))));
    }
    lines.extend((0..120).map(|_| shadow_line(&draw_near_edge(random))));
    lines.extend(still().iter().chain(&guard_limits()).map(shadow_line));
    lines
}

fn sheets(random: &mut Random, share: bool) -> Vec<String> {
    let line_of = |(room, input): (usize, Vec<u8>)| {
        let mut buffer = vec![0xA5; room];
        let request = Request::from_bytes(&input).map(|request| Request { share, ..request });
        let result = request.and_then(|request| request.sheet(&mut buffer));
        line(&[&room, &hex(&input), &answer(result, |length| hex(&buffer[..length]))])
    };
    inputs(random).into_iter().map(line_of).collect()
}

fn listings(random: &mut Random) -> Vec<String> {
    let with_program_room = inputs(random).into_iter().filter(|&(room, _)| room == ROOM);
    with_program_room.map(|(_, input)| line(&[&hex(&input), &program(&input).replace('\n', ";")])).collect()
}

/// Program inputs and the buffer for their sheets: whole sheets, a short buffer, then the sorts below.
fn inputs(random: &mut Random) -> Vec<(usize, Vec<u8>)> {
    let hand = sample::hand_worked();
    let mut requests = Vec::new();
    for request in [hand, sample::moscow_1954(), sample::kiev_1954()] {
        requests.extend([request, in_window(&request, -FARTHEST, FARTHEST)]);
    }
    requests.extend(windows());
    requests.extend(limits());
    requests.extend(guard_limits());
    requests.extend(still());
    requests.extend(passing());
    requests.extend(faults());
    requests.extend((0..120).map(|_| draw_in_window(random)));
    let mut inputs: Vec<(usize, Vec<u8>)> = requests.iter().map(|request| (ROOM, bytes(request))).collect();
    inputs.extend([0, 1, 44, 45, 46].map(|room| (room, bytes(&hand))));
    inputs.extend(faults().map(|request| (0, bytes(&request))));
    inputs.extend(other_shapes().into_iter().map(|input| (ROOM, input)));
    inputs
}

fn bytes(request: &Request) -> Vec<u8> {
    request.to_bytes().expect("numbers that have room").to_vec()
}

fn in_window(request: &Request, first: i64, last: i64) -> Request {
    Request { window: Window { first, last }, ..*request }
}

/// Short windows about a contact, and windows out of range.
fn windows() -> [Request; 12] {
    [
        (5400, 5400),
        (5400, 5402),
        (5399, 5400),
        (5398, 5402),
        (-101, -99),
        (-100, 100),
        (-10_800, 10_800),
        (-10_801, 0),
        (0, 10_801),
        (1, 0),
        (-32_768, 32_767),
        (32_767, -32_768),
    ]
    .map(|(first, last)| in_window(&sample::hand_worked(), first, last))
}

/// Each number of the elements and the station at its limits and just beyond them, in a short window.
fn limits() -> Vec<Request> {
    let short = in_window(&sample::hand_worked(), -102, -98);
    let about =
        |range: &RangeInclusive<i64>| [range.start() - 1, *range.start(), *range.end(), range.end() + 1];
    let mut requests = Vec::new();
    for (field, range) in ELEMENT_RANGES.iter().enumerate() {
        for value in about(range) {
            let mut fields = short.elements.fields();
            fields[field] = value;
            requests.push(Request { elements: Elements::from_fields(fields), ..short });
        }
    }
    for (field, range) in STATION_RANGES.iter().enumerate() {
        for value in about(range) {
            let mut fields = short.station.fields();
            fields[field] = value;
            requests.push(Request { station: Station::from_fields(fields), ..short });
        }
    }
    requests
}

/// The guard at its limits and just beyond them, and as far as its bytes reach.
fn guard_limits() -> Vec<Request> {
    let short = in_window(&sample::hand_worked(), -102, -98);
    let guards = [0, *GUARDS.start() - 1, *GUARDS.start(), *GUARDS.end(), *GUARDS.end() + 1, 65_535];
    guards.map(|guard| Request { guard, ..short }).to_vec()
}

/// A shadow at rest, a unit within each guard, at it and a unit beyond it, on both sides of both edges: the sheet
/// says open or nothing, and the magnitude knows the total phase or does not.
fn still() -> Vec<Request> {
    let mut requests = Vec::new();
    for guard in [GUARD, 17, 500, 999, 1_000] {
        for edge in [54_000_000, 1_000_000] {
            for off in [guard - 1, guard, guard + 1].into_iter().flat_map(|off| [off, -off]) {
                let mut request = Request { guard, ..in_window(&sample::hand_worked(), 0, 2) };
                request.elements.x = [edge + off, 0, 0, 0];
                requests.push(request);
            }
        }
    }
    requests
}

/// The same way of the shadow under several guards, 500 units from an edge: beside it without crossing, which is a
/// graze under the larger ones alone; slowly across it, which becomes a longer entry; across it just after the first
/// second or before the last, which becomes open.
fn passing() -> Vec<Request> {
    let mut requests = Vec::new();
    for edge in [54_000_000, 1_000_000] {
        for (x, y1, first, last) in [
            ([edge + 500, 0], 36_000_000, -60, 60),
            ([edge, 36_000], 0, -150, 150),
            ([edge, -36_000], 0, -150, 150),
            ([edge + 500, -360_000], 0, 0, 100),
            ([edge - 500, 360_000], 0, -100, 0),
        ] {
            for guard in [GUARD, 17, 499, 500, 501, 1_000] {
                let mut request = Request { guard, ..in_window(&sample::hand_worked(), first, last) };
                request.elements.x = [x[0], x[1], 0, 0];
                request.elements.y[1] = y1;
                requests.push(request);
            }
        }
    }
    requests
}

/// Several faults at once: the refusal that comes first, with its first field.
fn faults() -> [Request; 4] {
    let mut station = sample::hand_worked();
    station.station.latitude = 90_000_001;
    station.station.height = -501;
    station.station.delta_t = 20_001;
    let mut elements = station;
    elements.elements.y[3] = 10_001;
    elements.elements.tan_f2 = 0;
    let guard = Request { guard: 15, ..elements };
    [station, elements, guard, in_window(&guard, -6000, 10_801)]
}

/// Inputs that are too short or too long or have other kinds.
fn other_shapes() -> Vec<Vec<u8>> {
    let good = bytes(&sample::hand_worked());
    let mut inputs =
        vec![vec![], good[..REQUEST_LENGTH - 1].to_vec(), [&good[..], &[0]].concat(), good[1..].to_vec()];
    for at in KIND_PLACES {
        for kind in [0, 1, 5, 0x82] {
            let mut input = good.clone();
            input[at] = kind;
            inputs.push(input);
        }
    }
    inputs
}

/// A request near the edge at some second of its window.
fn draw_in_window(random: &mut Random) -> Request {
    let request = draw_near_edge(random);
    let second = request.window.first;
    let width = if random.once_in(8) { 2_000 } else { 12 };
    let first = second - random.within(&(0..=width));
    let last = second + random.within(&(0..=width));
    in_window(&request, first.max(-FARTHEST), last.min(FARTHEST))
}

/// A well-formed sheet as entries, drawn at random with many entries, grazes and opens among them.
fn draw_entries(random: &mut Random) -> Vec<u32> {
    let (a, b) = (random.below(21_601) as u32, random.below(21_601) as u32);
    let (first, last) = (a.min(b), a.max(b));
    let guard = if random.once_in(2) { GUARD } else { random.within(&GUARDS) };
    let mut entries = vec![0x01, 1 + random.below(999) as u32, first, last, guard as u32];
    for base in [0x10, 0x20] {
        let mut from = first;
        let mut next_contact = random.below(2) as u32;
        for _ in 0..random.below(7) {
            if from >= last {
                break;
            }
            from += random.below(u64::from(last - from)) as u32 / 3;
            let to = from + 1 + random.below(u64::from(last - from)) as u32 / 3;
            if random.once_in(3) {
                entries.extend([base + 2, from, to, 0, 0]);
            } else if random.once_in(3) && from == first {
                entries.extend([base + 3, from, to, 0, 0]);
            } else {
                let direction = if random.once_in(9) { 65_535 } else { random.below(3600) as u32 };
                entries.extend([base + next_contact, from, to, direction, 0]);
                next_contact = 1 - next_contact;
            }
            from = to;
        }
        if random.once_in(3) {
            entries.extend([base + 3, from, last, 0, 0]);
        }
    }
    let second = first + random.below(u64::from(last - first) + 1) as u32;
    entries.extend([0x30, second, random.below(1_300_001) as u32, 0, 0]);
    if random.once_in(2) {
        entries.extend([0x31, random.below(1_000_001) as u32, 0, 0, 0]);
    }
    entries.extend([0x7F, 0, 0, 0, 0]);
    entries
}

fn read_line(room: usize, bytes: &[u8]) -> String {
    let mut entries = vec![7; WORDS * room];
    let result = sheet::read(bytes, &mut entries);
    line(&[
        &room,
        &hex(bytes),
        &answer(result, |count| format!("{count} {}", list(&entries[..WORDS * count]))),
    ])
}

/// Well-formed sheets; the same cut, lengthened, with records dropped, doubled or exchanged, with a byte
/// changed; a short buffer.
fn reads(random: &mut Random) -> Vec<String> {
    let mut hand = vec![0; 45];
    sample::hand_worked().sheet(&mut hand).expect("room enough");
    let mut lines: Vec<String> = (0..=hand.len()).map(|length| read_line(7, &hand[..length])).collect();
    for room in [0, 6, 7, 8] {
        lines.push(read_line(room, &hand));
    }
    lines.push(read_line(7, &[&hand[..], &[0x7F]].concat()));
    for kind in [0x00, 0x02, 0x0F, 0x14, 0x1F, 0x24, 0x31, 0x32, 0x7E, 0x80, 0xFF] {
        lines.push(read_line(7, &[&hand[..9], &[kind], &hand[9..]].concat()));
    }
    // Each record alone, so most where another is due.
    for kind in [0x01, 0x10, 0x11, 0x12, 0x13, 0x20, 0x21, 0x22, 0x23, 0x30, 0x31, 0x7F] {
        lines.push(read_line(7, &[kind, 0, 7, 0, 8, 0, 9, 0, 16]));
        lines.push(read_line(7, &[&hand[..37], &[kind, 0x12, 0xC1, 0x12, 0xC3, 0, 9]].concat()));
    }
    // The head's guard; and a whole sheet of the old form, without one.
    for guard in [0u16, 15, 16, 17, 999, 1_000, 1_001, 65_535] {
        lines.push(read_line(7, &[&hand[..7], &guard.to_be_bytes(), &hand[9..]].concat()));
    }
    lines.push(read_line(7, &[&hand[..7], &hand[9..]].concat()));
    lines.push(read_line(7, &[&hand[..7], &hand[37..]].concat()));
    // The share at its limits; before each record and after the last.
    let (before, end) = hand.split_at(44);
    for share in [0u32, 1, 999_999, 1_000_000, 1_000_001, u32::MAX] {
        let record = [&[0x31], &share.to_be_bytes()[..]].concat();
        lines.push(read_line(8, &[before, &record, end].concat()));
        lines.push(read_line(8, &[before, &record, &record, end].concat()));
        for at in [0, 9, 16, 23, 30, 37, 44, 45] {
            lines.push(read_line(8, &[&hand[..at], &record, &hand[at..]].concat()));
        }
    }
    for _ in 0..60 {
        let entries = draw_entries(random);
        let mut sheet = written(&entries);
        lines.push(read_line(entries.len() / WORDS, &sheet));
        let records = sheet::records_of(&sheet).expect("a well-formed sheet");
        let at = random.below(records.len() as u64) as usize;
        let other = random.below(records.len() as u64) as usize;
        let mut changed = records.clone();
        match random.below(3) {
            0 => _ = changed.remove(at),
            1 => changed.insert(at, records[other]),
            _ => changed.swap(at, other),
        }
        lines.push(read_line(50, &sheet::bytes_of(&changed)));
        for _ in 0..2 {
            let place = random.below(sheet.len() as u64) as usize;
            let old = sheet[place];
            sheet[place] = if random.once_in(2) { random.below(256) as u8 } else { old ^ 1 };
            lines.push(read_line(50, &sheet));
            sheet[place] = old;
        }
    }
    lines
}

/// The sheet of entries that keep all rules.
fn written(entries: &[u32]) -> Vec<u8> {
    let mut sheet = vec![0; ROOM];
    let length = sheet::write(entries, &mut sheet).expect("entries that keep all rules");
    sheet.truncate(length);
    sheet
}

fn write_line(room: usize, entries: &[u32]) -> String {
    let mut buffer = vec![0xA5; room];
    let result = sheet::write(entries, &mut buffer);
    line(&[&room, &list(entries), &answer(result, |length| hex(&buffer[..length]))])
}

/// Lists that keep all rules; the same cut at every length, lengthened, with a number changed, with entries
/// dropped, doubled or exchanged; a short buffer.
fn writes(random: &mut Random) -> Vec<String> {
    let mut sheet = vec![0; 45];
    sample::hand_worked().sheet(&mut sheet).expect("room enough");
    let records = sheet::records_of(&sheet).expect("a well-formed sheet");
    let hand: Vec<u32> = records.iter().flat_map(|record| record.words()).collect();
    let mut lines: Vec<String> = (0..=hand.len()).map(|length| write_line(45, &hand[..length])).collect();
    for room in [0, 44, 46] {
        lines.push(write_line(room, &hand));
    }
    for more in [&[0x7F][..], &[0x7F, 0, 0, 0, 0], &[5, 5, 5, 5, 5], &[0x30, 0]] {
        lines.push(write_line(ROOM, &[&hand, more].concat()));
        lines.push(write_line(0, &[&hand, more].concat()));
    }
    for kind in [0, 2, 0x14, 0x7E, 0x80, 0x101, 0x110, 0x17F, 0x7F00, u32::MAX] {
        lines.push(write_line(ROOM, &[&hand[..WORDS], &[kind, 0, 0, 0, 0], &hand[WORDS..]].concat()));
    }
    // One number after another made too large or, where unused, other than 0.
    for at in 0..hand.len() {
        for value in [1, 0xFFFF, 0x1_0000 + hand[at], u32::MAX] {
            let mut changed = hand.clone();
            changed[at] = value;
            lines.push(write_line(ROOM, &changed));
        }
    }
    // The share after each entry, at its limits, and with a number that it does not use.
    for at in 0..=records.len() {
        for share in [[0, 0, 0, 0], [1_000_000, 0, 0, 0], [1_000_001, 0, 0, 0], [7, 1, 0, 0], [7, 0, 0, 1]] {
            let (before, after) = hand.split_at(WORDS * at);
            lines.push(write_line(ROOM, &[before, &[0x31], &share[..], after].concat()));
        }
    }
    for _ in 0..50 {
        let entries = draw_entries(random);
        lines.push(write_line(ROOM, &entries));
        let mut changed = entries.clone();
        let at = random.below(changed.len() as u64) as usize;
        changed[at] = if random.once_in(2) { changed[at] ^ 1 } else { random.below(25_000) as u32 };
        lines.push(write_line(ROOM, &changed));
        let mut exchanged: Vec<&[u32]> = entries.chunks(WORDS).collect();
        let (a, b) = (random.below(exchanged.len() as u64), random.below(exchanged.len() as u64));
        exchanged.swap(a as usize, b as usize);
        lines.push(write_line(ROOM, &exchanged.concat()));
    }
    lines
}
