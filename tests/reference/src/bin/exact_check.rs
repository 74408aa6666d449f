//! `exact_check SEED N [star]`: draws requests until N seconds are looked at, of eclipses or of stars, and holds the
//! rules of document 01 against the exact values at every second of every window:
//!
//! - under each of several guards and the request's own, inside and outside are never exactly wrong, and an unsure
//!   second lies
//!   within the guard plus 13 units of the edge; what is sure under one of them is sure, with the same answer, under
//!   all smaller ones;
//! - u is within 7 units of its exact value, v within 7½, L1 and L2 within 3, the radius of a star's cylinder within 0;
//! - the 13-unit law, for several t;
//! - the sheet: every exact change lies in exactly one entry of its phase, enters and leaves run between the
//!   exact answers they claim and alternate, and the sheet read and written again is the same.
//!
//! Requests lie anywhere in their ranges, at their limits, near the edge, along it, with a shadow that stands almost
//! still, with a central cone that comes to a point at the station, with a star's cylinder whose axis goes through
//! it. Prints counts and the worst values found; the first broken claim stops it with the request and the second.

use reference::course::{off, Course, Phased, Second};
use reference::elements::{Window, FARTHEST};
use reference::exact::{units, D};
use reference::numbers::root;
use reference::request::Request;
use reference::shadow::{state, State};
use reference::sheet::{self, Family, Role};
use reference::star::StarRequest;
use reference::tally::Tally;
use std::time::Instant;

/// The bound that document 01 asks to be proved of the distance less L, in units.
const WHOLE: i64 = 13;

/// Guards that every second is asked under, the request's own beside them.
const SOME_GUARDS: [i64; 5] = [16, 17, 100, 999, 1_000];

fn check<C: Course>(seed: u64, wanted: u64) {
    let start = Instant::now();
    let mut tally = Tally::<C>::new(seed);
    while tally.seconds < wanted {
        let request = C::difficult(&mut tally.random);
        check_request(&mut tally, &request);
    }
    tally.print();
    println!("no claim broken; {:.1} s", start.elapsed().as_secs_f64());
}

fn main() {
    let arguments: Vec<String> = std::env::args().skip(1).collect();
    let arguments: Vec<&str> = arguments.iter().map(String::as_str).collect();
    let number = |word: &str| word.parse().expect("a number");
    match arguments[..] {
        [seed, wanted] => check::<Request>(number(seed), number(wanted)),
        [seed, wanted, "star"] => check::<StarRequest>(number(seed), number(wanted)),
        _ => {
            eprintln!("usage: exact_check SEED N [star]");
            std::process::exit(1);
        }
    }
}

/// All that is claimed of a request's seconds and of its sheet.
fn check_request<C: Course>(tally: &mut Tally<C>, request: &C) {
    tally.requests += 1;
    for ((touched, number), range) in tally.limits.iter_mut().zip(request.numbers()).zip(C::ranges()) {
        touched[0] |= number == *range.start();
        touched[1] |= number == *range.end();
    }
    let checked = request.checked().unwrap_or_else(|_| panic!("within its ranges"));
    let mut inside = vec![Vec::new(); C::FAMILIES.len()];
    let mut unsure_since = vec![None; C::FAMILIES.len()];
    for second in request.window().seconds() {
        let answers = check_second(tally, request, &C::second(&checked, second), second);
        for (phase, &(state, exactly_inside)) in answers.iter().enumerate() {
            inside[phase].push(exactly_inside);
            unsure_since[phase] = match (state, unsure_since[phase]) {
                (State::Unsure, None) => Some(second),
                (State::Unsure, since) => since,
                _ => None,
            };
            if let Some(since) = unsure_since[phase] {
                tally.longest_unsure = tally.longest_unsure.max(second - since + 1);
            }
        }
    }
    check_sheet(tally, request, &inside);
}

/// All that is claimed of a second; its state and its exact answer in each phase.
fn check_second<C: Course>(
    tally: &mut Tally<C>,
    request: &C,
    found: &Second,
    second: i64,
) -> Vec<(State, bool)> {
    tally.seconds += 1;
    for (worst, off, bound_twice, claim) in [
        (&mut tally.u, off(found.u.0, found.u.1), 14, "u within 7"),
        (&mut tally.v, off(found.v.0, found.v.1), 15, "v within 7 and a half"),
    ] {
        must(off + off <= units(bound_twice), claim, request, second);
        worst.look(off.to_f64() / D as f64, *request, second);
    }
    let phases = found.phases.iter().enumerate();
    phases.map(|(index, phase)| check_phase(tally, request, index, phase, found.m, second)).collect()
}

fn check_phase<C: Course>(
    tally: &mut Tally<C>,
    request: &C,
    index: usize,
    phase: &Phased,
    m: i64,
    second: i64,
) -> (State, bool) {
    let must = |holds: bool, claim: &str| must(holds, claim, request, second);
    let &Phased { l, off, edge } = &phase;
    let bound = if C::FAMILIES[index] == Family::Star { 0 } else { 3 };
    must(*off <= units(bound), "L within its bound");
    tally.phases[index].l.look(off.to_f64() / D as f64, *request, second);

    let (l, inside, beyond) = (*l, edge.inside(), edge.beyond());
    let answer = state(l, m, request.guard());
    tally.phases[index].states[answer as usize] += 1;
    tally.phases[index].close += u64::from(beyond.abs() <= (request.guard() + 24) as f64);
    let mut smaller = None;
    let mut guards = [request.guard(); 6];
    guards[1..].copy_from_slice(&SOME_GUARDS);
    guards.sort();
    for guard in guards {
        let state = state(l, m, guard);
        match state {
            State::Inside => must(inside, "inside is exactly inside"),
            State::Outside => must(!inside, "outside is exactly outside"),
            State::Unsure => must(edge.near(guard + WHOLE), "unsure within the guard plus 13 of the edge"),
        }
        let withholds = state == State::Unsure || smaller.is_none_or(|before| before == state);
        must(withholds, "sure under a guard is sure, with the same answer, under a smaller one");
        tally.withheld += u64::from(smaller.is_some_and(|before| before != state));
        smaller = Some(state);
        match state {
            State::Unsure => {
                tally.unsure_reach.look(beyond.abs() - guard as f64, request.under(guard), second)
            }
            _ => tally.sure_reach.look(guard as f64 - beyond.abs(), request.under(guard), second),
        }
    }

    let reached = root(m) - l;
    let here = tally.random.within(&(-40..=40));
    let far = tally.random.within(&(-1_000_000_000..=1_000_000_000));
    for t in [reached, reached + 1, reached + here, here, far] {
        if l + t < 0 {
            continue;
        }
        tally.laws += 1;
        if m <= (l + t) * (l + t) {
            must(edge.at_most(t + WHOLE), "at most t + 13");
        }
        if m >= (l + t) * (l + t) {
            must(edge.at_least(t - WHOLE), "at least t - 13");
        }
    }
    let distance = (m as f64).sqrt();
    let rounded = if distance + l as f64 == 0.0 {
        0.0
    } else {
        (i128::from(m) - i128::from(l) * i128::from(l)) as f64 / (distance + l as f64)
    };
    tally.whole.look((beyond - rounded).abs(), *request, second);
    (answer, inside)
}

/// All that is claimed of the entries of a sheet, found in its bytes by the reader.
fn check_sheet<C: Course>(tally: &mut Tally<C>, request: &C, inside: &[Vec<bool>]) {
    let Window { first, last } = request.window();
    let must = |holds: bool, claim: &str, second: i64| must(holds, claim, request, second);
    let mut buffer = vec![0; 65_536];
    let Ok(length) = request.write(&mut buffer) else {
        return must(false, "a sheet within the limits is written", first);
    };
    let Ok(records) = sheet::records_of(&buffer[..length]) else {
        return must(false, "a sheet is well formed", first);
    };
    let words: Vec<u32> = records.iter().flat_map(|record| record.words()).collect();
    let mut again = vec![0; length];
    must(sheet::write(&words, &mut again) == Ok(length), "entries read can be written", first);
    must(again == buffer[..length], "entries written again give the sheet", first);

    for (index, family) in C::FAMILIES.iter().enumerate() {
        let exactly_inside = |second: i64| inside[index][(second - first) as usize];
        let entries: Vec<(Role, i64, i64)> = (records.iter())
            .filter(|record| record.family() == *family)
            .filter_map(|record| Some((record.role()?, record.fields[0], record.fields[1])))
            .map(|(role, from, to)| (role, i64::from(from) - FARTHEST, i64::from(to) - FARTHEST))
            .collect();
        for second in first..last {
            if exactly_inside(second) == exactly_inside(second + 1) {
                continue;
            }
            let mut holding = entries.iter().filter(|&&(_, from, to)| from <= second && second < to);
            let holder = holding.next();
            must(holder.is_some() && holding.next().is_none(), "a change lies in exactly one entry", second);
            tally.changes += 1;
            let claims_none = matches!(holder, Some((Role::Graze | Role::Open, _, _)));
            tally.changes_in_graze_or_open += u64::from(claims_none);
        }
        let mut latest = None;
        for &(role, from, to) in &entries {
            tally.phases[index].entries[role as usize] += 1;
            match role {
                Role::Enter => {
                    must(!exactly_inside(from) && exactly_inside(to), "an enter's exact ends", from)
                }
                Role::Leave => {
                    must(exactly_inside(from) && !exactly_inside(to), "a leave's exact ends", from)
                }
                Role::Graze | Role::Open => continue,
            }
            must(latest != Some(role), "enters and leaves alternate", from);
            latest = Some(role);
        }
    }
}

/// Stops at a claim that does not hold.
fn must<C: Course>(holds: bool, claim: &str, request: &C, second: i64) {
    if holds {
        return;
    }
    println!("BROKEN: {claim}");
    println!("at {second} of {request:?}");
    if let Ok(checked) = request.checked() {
        let Second { u, v, m, phases } = C::second(&checked, second);
        println!("u {}, v {}, M {m}", u.0, v.0);
        for (family, phase) in C::FAMILIES.iter().zip(phases) {
            let state = state(phase.l, m, request.guard());
            println!("{family:?} L {} {state:?}, exactly {} beyond the edge", phase.l, phase.edge.beyond());
        }
    }
    std::process::exit(2);
}
