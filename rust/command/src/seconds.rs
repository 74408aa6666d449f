//! `ukhtvaresh seconds`: a table over time.

use crate::asked::{Asked, Reading};
use crate::clock::{Clock, Scale};
use crate::entries::{millionths, tenths};
use crate::failure::{Failure, Outcome};
use crate::output::Output;
use clap::ArgMatches;
use serde_json::{json, Map, Value};
use ukhtvaresh::State;

const WIDEST: i64 = 10_800;

fn state(state: State) -> &'static str {
    match state {
        State::Outside => "outside",
        State::Inside => "inside",
        State::Unsure => "unsure",
    }
}

// The values of one second in the order of their columns.
fn values(
    asked: &Asked,
    clock: &Clock,
    scales: &[Scale],
    second: i64,
) -> Outcome<Vec<(&'static str, Value)>> {
    let mut made = vec![("second", json!(second))];
    for scale in scales {
        made.push((scale.name(), json!(clock.date_time(*scale, 100 * second))));
    }
    if asked.is_star() {
        let at = ukhtvaresh::star_second(&asked.request, second).map_err(|refusal| asked.refused(refusal))?;
        made.push(("star", json!(state(at.state))));
    } else {
        let at = asked.second(second)?;
        let share = ukhtvaresh::share(&asked.request, second).map_err(|refusal| asked.refused(refusal))?;
        made.push(("penumbra", json!(state(at.penumbra))));
        made.push(("central", json!(state(at.central))));
        made.push(("magnitude", millionths(at.magnitude)));
        made.push(("share", millionths(share)));
    }
    let horizon = asked.horizon(second)?;
    made.push(("altitude", tenths(horizon.altitude)));
    made.push(("azimuth", horizon.azimuth.map_or(Value::Null, tenths)));
    Ok(made)
}

fn plain(value: &Value) -> String {
    match value {
        Value::String(text) => text.clone(),
        Value::Null => String::new(),
        other => other.to_string(),
    }
}

pub fn run(given: &ArgMatches) -> Outcome<()> {
    let asked = Asked::open(given.get_one("file"), &Reading::of(given))?;
    // The library refuses a bad request, with its field, before any second is asked for.
    asked.sheet()?;
    let window = [asked.number("first"), asked.number("last")].map(|end| end.unwrap_or(0));
    let end = |name: &str, default: i64| given.get_one::<i64>(name).copied().unwrap_or(default);
    let (first, last, step) = (end("from", window[0]), end("to", window[1]), end("every", 60));
    for (name, second) in [("--from", first), ("--to", last)] {
        if !(-WIDEST..=WIDEST).contains(&second) {
            return Err(Failure::Refused(format!("{name} {second} is outside {} to {WIDEST}", -WIDEST)));
        }
    }
    if first > last {
        return Err(Failure::Refused(format!("--from {first} is after --to {last}")));
    }
    let mut output = Output::open(given.get_one("out"))?;
    let clock = Clock::new(asked.instant, asked.number("delta t").unwrap_or(0));
    let scales = clock.scales();
    let mut second = first;
    while second <= last {
        let values = values(&asked, &clock, &scales, second)?;
        if given.get_flag("json") {
            let object: Map<String, Value> =
                values.into_iter().map(|(name, value)| (name.to_owned(), value)).collect();
            output.line(&Value::Object(object).to_string())?;
        } else {
            if second == first {
                output.line(&values.iter().map(|(name, _)| *name).collect::<Vec<_>>().join(","))?;
            }
            output.line(&values.iter().map(|(_, value)| plain(value)).collect::<Vec<_>>().join(","))?;
        }
        second += step;
    }
    output.finish()
}
