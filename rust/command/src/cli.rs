//! The table of subcommands and options. Help, manual pages and completions are made from it.

use crate::catalogue::RADII;
use clap::builder::PossibleValuesParser;
use clap::{value_parser, Arg, ArgAction, Command};

pub const NAME: &str = "ukhtvaresh";
pub const VERSION: &str = env!("CARGO_PKG_VERSION");

const ABOUT: &str = "Contact sheets of solar eclipses, and of stars behind the Moon, from a proved library";
const LONG_ABOUT: &str = "\
Makes and reads contact sheets: when a station enters and leaves the Moon's penumbra and central shadow, each contact
between two named seconds, and the second at which the shadow's axis is closest, with its magnitude. A proved library
decides what a sheet says; this command reads, writes and words.

A request is text, `name value` on a line, or its 115 bytes (79 for a star). Input is a FILE or standard input, output
is standard output or --out FILE. A value is taken exactly or refused with its field, range and line; --round rounds
numbers with too many decimals. `ukhtvaresh SUBCOMMAND --help` has examples.";
const COLUMNS: usize = 100;
pub const EXIT: &str = "\
Exit status: 0 done; 1 refused (a request, a sheet or a value); 2 usage, or a file that cannot be read or written.";

/// What follows the options: words, in lines that fit a terminal, and examples.
fn with_examples(words: &str, examples: &[&str]) -> String {
    let (mut text, mut column) = (String::new(), 0);
    for word in words.split_whitespace() {
        let length = word.chars().count();
        if column + 1 + length > COLUMNS {
            text.push('\n');
            column = 0;
        } else if column > 0 {
            text.push(' ');
            column += 1;
        }
        text.push_str(word);
        column += length;
    }
    if !text.is_empty() {
        text.push_str("\n\n");
    }
    format!("{text}Examples:\n  {}", examples.join("\n  "))
}

fn file(what: &'static str) -> Arg {
    Arg::new("file").value_name("FILE").help(what)
}

fn out() -> Arg {
    let help = "Write to FILE, by a temporary file and a rename, in place of standard output";
    Arg::new("out").long("out").short('o').value_name("FILE").help(help)
}

fn flag(name: &'static str, help: &'static str) -> Arg {
    Arg::new(name).long(name).action(ArgAction::SetTrue).help(help)
}

fn json() -> Arg {
    flag("json", "Write JSON, one object on a line")
}

fn csv() -> Arg {
    flag("csv", "Write CSV with a line of column names").conflicts_with("json")
}

fn stored() -> [Arg; 2] {
    [
        flag("stored", "Write the sheet's bytes, as they are stored").conflicts_with_all(["json", "csv"]),
        flag("share", "With --stored: add the covered share of the Sun's disc").requires("stored"),
    ]
}

fn quiet() -> Arg {
    flag("quiet", "Write no summary to standard error").short('q')
}

fn round() -> Arg {
    flag("round", "Round numbers of up to 14 decimals to those that are taken, and say so")
}

fn reading() -> [Arg; 3] {
    [
        round(),
        Arg::new("instant").long("instant").value_name("TIME").help(
            "The date and time of second 0, as in \"2017-08-21 18:00:00 ET\", where the request has none",
        ),
        Arg::new("tai-utc")
            .long("tai-utc")
            .value_name("S")
            .help("TAI - UTC in whole seconds, 37 since 2017, for times in UTC"),
    ]
}

fn place() -> Vec<Arg> {
    let number =
        |name, value, help| Arg::new(name).long(name).value_name(value).allow_hyphen_values(true).help(help);
    vec![
        Arg::new("latitude")
            .value_name("LATITUDE")
            .required(true)
            .allow_negative_numbers(true)
            .help("Degrees, north positive, -90 to 90"),
        Arg::new("longitude")
            .value_name("LONGITUDE")
            .required(true)
            .allow_negative_numbers(true)
            .help("Degrees, east positive, -180 to 180"),
        number("height", "M", "Height in metres, -500 to 9000 [default: 0]"),
        number(
            "delta-t",
            "S",
            "Ephemeris less universal time in seconds, -100 to 200 [default: the catalogue's]",
        ),
        Arg::new("radii")
            .long("radii")
            .value_name("RADII")
            .value_parser(PossibleValuesParser::new(RADII.map(|(name, _)| name)))
            .help("Radii of Sun and Moon: the rules' own, or the IAU's [default: document02]"),
        round(),
    ]
}

/// The whole table.
pub fn command() -> Command {
    Command::new(NAME)
        .version(VERSION)
        .about(ABOUT)
        .long_about(LONG_ABOUT)
        .after_help(format!(
            "{EXIT}\n\n\
             Examples:\n  \
             ukhtvaresh eclipse 2024-04-08 32.7767 -96.7970        # Dallas: the sheet with clock times\n  \
             ukhtvaresh sheet examples/hopkinsville2017.txt        # a typed request\n  \
             ukhtvaresh eclipses 43.37 -8.40 --from 2026           # every eclipse at A Coruña from 2026 on"
        ))
        .subcommand_required(true)
        .arg_required_else_help(true)
        .disable_help_subcommand(true)
        .subcommands([
            sheet(),
            list(),
            stream(),
            mend(),
            contacts(),
            network(),
            seconds(),
            eclipses(),
            eclipse(),
            completions(),
            manual(),
        ])
}

fn sheet() -> Command {
    Command::new("sheet")
        .about("From a request, typed or in bytes, to its listing with times, altitudes and notes")
        .arg(file("A typed request, or its bytes; standard input where it is left out or -").num_args(0..))
        .args([json(), csv()])
        .args(stored())
        .args(reading())
        .arg(out())
        .after_help(with_examples(
            "A line has an entry, its two seconds, the direction in tenths of a degree, times of day in ET, UT and \
             UTC where the request has an instant, and the altitude of the Sun or the star. With several FILEs a \
             refused one is reported, and the others are shown.",
            &[
                "ukhtvaresh sheet examples/hopkinsville2017.txt --instant \"2017-08-21 18:00:00 ET\"",
                "ukhtvaresh sheet --json < examples/potsdam1956.bin",
                "ukhtvaresh sheet --stored --out moscow.sheet examples/moscow1954.txt",
            ],
        ))
}

fn list() -> Command {
    Command::new("list")
        .about("The listing of a stored sheet, or of every sheet of a year file of any size")
        .arg(file("Stored sheets, one after the other; standard input where it is left out or -"))
        .args([json(), csv(), out()])
        .after_help(with_examples(
            "An empty line separates sheets. Where the bytes are no sheet, the listing stops there, the message has \
             the byte, and the status is 1; ukhtvaresh mend takes damaged parts out.",
            &[
                "ukhtvaresh list year.bin | less",
                "ukhtvaresh list --csv year.bin --out year.csv",
            ],
        ))
}

fn stream() -> Command {
    Command::new("stream")
        .about("From many requests in bytes to a year file")
        .arg(file("Requests in bytes, one after the other; standard input where it is left out or -").num_args(0..))
        .arg(
            Arg::new("jobs")
                .long("jobs")
                .short('j')
                .value_name("N")
                .value_parser(value_parser!(u64).range(1..=1024))
                .help("How many threads compute, 1 to 1024; the order stays [default: as many as there are cores]"),
        )
        .args([out(), quiet()])
        .after_help(with_examples(
            "A refused request has no sheet: its index, counted from 1, its byte and the reason go to standard error, \
             and the status is 1 at the end. Where the bytes are no request, the command stops there, since nothing \
             says where the next one begins. A summary ends standard error.",
            &[
                "cat examples/*.bin | ukhtvaresh stream --out year.bin",
                "ukhtvaresh stream --jobs 8 requests.bin > year.bin",
            ],
        ))
}

fn mend() -> Command {
    Command::new("mend")
        .about("A year file of any size without its damaged parts")
        .arg(file("A year file; standard input where it is left out or -"))
        .arg(
            Arg::new("notes")
                .long("notes")
                .value_name("FILE")
                .help("Write the notes to FILE in place of standard error: `dropped START LENGTH` for each stretch"),
        )
        .arg(
            flag("notes-bytes", "With --notes: 16 bytes for each stretch, start and length, as in document 02")
                .requires("notes"),
        )
        .args([out(), quiet()])
        .after_help(with_examples(
            "Where a whole well-formed sheet begins, it is kept; otherwise one byte is dropped. The status is 0 also \
             where bytes were dropped.",
            &[
                "ukhtvaresh mend year.bin --out mended.bin",
                "ukhtvaresh mend year.bin --notes dropped.bin --notes-bytes > mended.bin",
            ],
        ))
}

fn contacts() -> Command {
    Command::new("contacts")
        .about("Each entry with its bracket in hundredths of a second, altitude, azimuth and position angles")
        .arg(file("A typed request, or its bytes; standard input where it is left out or -"))
        .args([json(), csv()])
        .args(reading())
        .arg(out())
        .after_help(with_examples(
            "The true contact, for the elements and the station as they are given, lies between the two times of its \
             bracket. `direction` is that of the Moon's centre from the Sun's, or from the star; `point` that of the \
             point of contact on the limb, from north through east; `zenith` the same point from the zenith. At \
             second and third contact of a total eclipse the point lies opposite to the direction; of a star it is on \
             the Moon's limb. An entry without a bracket has - there: seconds that are not surely outside and inside \
             with a guard of 32.",
            &[
                "ukhtvaresh contacts examples/hopkinsville2017.txt --instant \"2017-08-21 18:00:00 ET\"",
                "ukhtvaresh eclipse 2024-04-08 32.7767 -96.7970 --request | ukhtvaresh contacts --csv",
            ],
        ))
}

fn network() -> Command {
    Command::new("network")
        .about("From a typed list of stations to their clocks' steps from the antenna and the first in the penumbra")
        .arg(file("A typed list; standard input where it is left out or -"))
        .args([json(), round().help("Round numbers of up to 14 decimals to those that are taken, and say so"), out()])
        .after_help(with_examples(
            "The list has the elements and the window as in a typed request, and for each station a line `station \
             NUMBER LATITUDE LONGITUDE HEIGHT DELTA-T CLOCK`, CLOCK being the number of the station whose clock it \
             follows, 0 for the antenna. The station that the penumbra reaches first is named whether or not the Sun \
             is up there; a note has the Sun's altitude.",
            &[
                "ukhtvaresh network examples/eleven1954.network.txt",
                "ukhtvaresh network --json examples/eleven1954.network.txt",
            ],
        ))
}

fn seconds() -> Command {
    let second = |name: &'static str, help| {
        Arg::new(name)
            .long(name)
            .value_name("S")
            .allow_negative_numbers(true)
            .value_parser(value_parser!(i64))
            .help(help)
    };
    Command::new("seconds")
        .about("A table over time: magnitude, covered share, altitude, every N seconds")
        .arg(file("A typed request, or its bytes; standard input where it is left out or -"))
        .arg(
            Arg::new("every")
                .long("every")
                .value_name("N")
                .value_parser(value_parser!(i64).range(1..=21_600))
                .help("Seconds between two rows, 1 to 21600 [default: 60]"),
        )
        .arg(second("from", "The first second, -10800 to 10800 [default: the window's]"))
        .arg(second("to", "The last second, -10800 to 10800 [default: the window's]"))
        .arg(json().help("Write JSON, one object on a line, in place of CSV"))
        .args(reading())
        .arg(out())
        .after_help(with_examples(
            "Magnitude and share (the covered part of the Sun's disc) are 0 to 1; altitude and azimuth are in \
             degrees, of the Sun's centre or the star, without refraction. Times are dates and times of day, where \
             there is an instant.",
            &[
                "ukhtvaresh eclipse 2024-04-08 32.7767 -96.7970 --request | ukhtvaresh seconds --every 60 > day.csv",
                "ukhtvaresh seconds --every 1 --from 1500 --to 1800 examples/hopkinsville2017.txt",
            ],
        ))
}

fn eclipses() -> Command {
    let end = |name: &'static str, help| Arg::new(name).long(name).value_name("DATE").help(help);
    Command::new("eclipses")
        .about("Every eclipse of the catalogue, 1900 to 2100, at a place: what is seen and when")
        .args(place())
        .arg(end("from", "The first day, YYYY-MM-DD, or year [default: 1900]"))
        .arg(end("to", "The last day, YYYY-MM-DD, or year [default: 2100]"))
        .arg(flag("visible", "Leave out those during which the Sun is down"))
        .arg(flag("all", "Have also those that do not reach the place").conflicts_with("visible"))
        .args([json(), csv(), out()])
        .after_help(with_examples(
            "A line has the date by universal time, the eclipse's kind anywhere and at the place, where the Sun is \
             (up, down, rises, sets, or partly up), first contact, greatest eclipse and last contact in universal \
             time with the Sun's altitude, the magnitude, and how long the central phase lasts. Where the Sun is down \
             at greatest eclipse, time and magnitude are those of the greatest part with the Sun up. The Sun counts \
             as up from an altitude of -0.8 on. `+1d` marks the day after the date.",
            &[
                "ukhtvaresh eclipses 43.37 -8.40 --from 2026 --to 2030",
                "ukhtvaresh eclipses 55.755 37.57 --visible --csv --out moscow.csv",
            ],
        ))
}

fn eclipse() -> Command {
    let mut args = vec![Arg::new("date")
        .value_name("DATE")
        .required(true)
        .help("YYYY-MM-DD, by universal time, 1900 to 2100")];
    args.extend(place());
    Command::new("eclipse")
        .about("From the catalogue to the sheet of a place")
        .args(args)
        .arg(Arg::new("guard").long("guard").value_name("N").help(
            "Half-width of the undecided band at a cone's edge, 16 to 1000 [default: the fits' misfit, 16 at least]",
        ))
        .arg(Arg::new("station").long("station").value_name("N").help("The station's number, 1 to 999 [default: 1]"))
        .arg(Arg::new("title").long("title").value_name("WORDS").help("Words for the first line of the request"))
        .arg(flag("request", "Write the typed request in place of its listing").conflicts_with_all([
            "json", "csv", "stored", "bytes",
        ]))
        .arg(flag("bytes", "Write the request's 115 bytes in place of its listing").conflicts_with_all([
            "json", "csv", "stored",
        ]))
        .args([json(), csv()])
        .args(stored())
        .arg(out())
        .after_help(with_examples(
            "The reference instant is the whole hour nearest to the place's greatest eclipse, and the window is the \
             widest. Notes on standard error say where the eclipse is on another day than the one asked for, where it \
             is not visible, and where delta t is a forecast.",
            &[
                "ukhtvaresh eclipse 2024-04-08 32.7767 -96.7970 --height 131",
                "ukhtvaresh eclipse 2026-08-12 43.37 -8.40 --request > coruna.txt",
                "ukhtvaresh eclipse 2017-08-21 44.9429 -123.0351 --json | jq .entries",
            ],
        ))
}

fn completions() -> Command {
    Command::new("completions")
        .about("The completions of a shell")
        .arg(
            Arg::new("shell")
                .value_name("SHELL")
                .required(true)
                .value_parser(PossibleValuesParser::new(["bash", "zsh"]))
                .help("bash or zsh"),
        )
        .after_help(with_examples(
            "",
            &[
                "ukhtvaresh completions bash > ~/.local/share/bash-completion/completions/ukhtvaresh",
                "ukhtvaresh completions zsh > ~/.zfunc/_ukhtvaresh",
            ],
        ))
}

fn manual() -> Command {
    Command::new("manual")
        .about("The manual page of the command or of a subcommand, for man")
        .arg(
            Arg::new("subcommand")
                .value_name("SUBCOMMAND")
                .help("A subcommand; the command where it is left out"),
        )
        .after_help(with_examples(
            "",
            &["ukhtvaresh manual > ukhtvaresh.1", "ukhtvaresh manual sheet | man -l -"],
        ))
}
