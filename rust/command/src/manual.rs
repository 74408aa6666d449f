//! Manual pages and completions, made from the table of `cli`.

use crate::cli::{command, EXIT, NAME, VERSION};
use crate::failure::{Failure, Outcome};
use crate::output::Output;
use clap::{Arg, ArgMatches, Command};

/// Text with what roff would take for its own made plain.
fn plain(text: &str) -> String {
    let text = text.replace('\\', "\\e").replace('-', "\\-").replace('\'', "\\(aq");
    let line = |line: &str| match line.starts_with('.') {
        true => format!("\\&{line}"),
        false => line.to_owned(),
    };
    text.lines().map(line).collect::<Vec<_>>().join("\n")
}

fn paragraphs(text: &str) -> String {
    text.trim().split("\n\n").map(|part| format!("{}\n", plain(part))).collect::<Vec<_>>().join(".PP\n")
}

// An option or a place of the command line, as a manual shows it.
fn shown(arg: &Arg) -> String {
    let value = arg
        .get_value_names()
        .map(|names| names.iter().map(|name| name.to_string()).collect::<Vec<_>>().join(" "));
    let takes = arg.get_action().takes_values();
    let value = value.filter(|_| takes);
    if arg.is_positional() {
        return format!("\\fI{}\\fR", plain(&value.unwrap_or_default()));
    }
    let short = arg.get_short().map(|short| format!("\\fB\\-{short}\\fR, ")).unwrap_or_default();
    let long =
        arg.get_long().map(|long| format!("\\fB{}\\fR", plain(&format!("--{long}")))).unwrap_or_default();
    let value = value.map(|value| format!(" \\fI{}\\fR", plain(&value))).unwrap_or_default();
    format!("{short}{long}{value}")
}

fn options(of: &Command) -> String {
    let (places, options): (Vec<&Arg>, Vec<&Arg>) =
        of.get_arguments().filter(|arg| !arg.is_hide_set()).partition(|arg| arg.is_positional());
    let mut page = String::new();
    for arg in places.into_iter().chain(options) {
        let mut help = arg.get_help().map(ToString::to_string).unwrap_or_default();
        let values: Vec<String> = match arg.get_action().takes_values() {
            true => arg.get_possible_values().iter().map(|value| value.get_name().to_owned()).collect(),
            false => Vec::new(),
        };
        if !values.is_empty() {
            help = format!("{help} [{}]", values.join(", "));
        }
        page.push_str(&format!(".TP\n{}\n{}\n", shown(arg), plain(&help)));
    }
    page
}

fn synopsis(of: &Command, name: &str) -> String {
    let mut line = format!("\\fB{}\\fR [\\fIOPTIONS\\fR]", plain(name));
    for arg in of.get_positionals() {
        let value = shown(arg);
        let many = if arg.get_num_args().is_some_and(|count| count.max_values() > 1) { "..." } else { "" };
        line.push_str(&match arg.is_required_set() {
            true => format!(" {value}"),
            false => format!(" [{value}{many}]"),
        });
    }
    if of.has_subcommands() {
        line.push_str(" \\fISUBCOMMAND\\fR ...");
    }
    format!("{line}\n")
}

// What stands after the options: words, and examples as they are typed.
fn after(of: &Command) -> String {
    let text = of.get_after_help().map(ToString::to_string).unwrap_or_default();
    let (words, examples) = text.split_once("Examples:\n").unwrap_or((&text, ""));
    let words = words.replace(EXIT, "");
    let mut page = String::new();
    if !words.trim().is_empty() {
        page.push_str(&format!(".PP\n{}", paragraphs(&words)));
    }
    if !examples.is_empty() {
        let lines: Vec<&str> = examples.lines().map(|line| line.trim_start()).collect();
        page.push_str(&format!(".SH EXAMPLES\n.nf\n{}\n.fi\n", plain(&lines.join("\n"))));
    }
    page
}

/// The manual page of the command or of one of its subcommands, in roff.
pub fn page(subcommand: Option<&str>) -> Outcome<String> {
    let mut whole = command();
    whole.build();
    let (of, name) = match subcommand {
        None => (&whole, NAME.to_owned()),
        Some(wanted) => {
            let of = whole.get_subcommands().find(|of| of.get_name() == wanted).ok_or_else(|| {
                Failure::Usage(format!("there is no subcommand {wanted}: ukhtvaresh --help lists them"))
            })?;
            (of, format!("{NAME} {wanted}"))
        }
    };
    let about = of.get_about().map(ToString::to_string).unwrap_or_default();
    let long = of.get_long_about().map(ToString::to_string).unwrap_or_else(|| format!("{about}."));
    let title = name.replace(' ', "-");
    let mut page = format!(
        ".TH {} 1 \"\" \"{NAME} {VERSION}\" \"User Commands\"\n.SH NAME\n{} \\- {}\n.SH SYNOPSIS\n{}",
        plain(&title.to_uppercase()),
        plain(&title),
        plain(&about),
        synopsis(of, &name),
    );
    page.push_str(&format!(".SH DESCRIPTION\n{}", paragraphs(&long)));
    let listed = options(of);
    let (mut words, examples) = match after(of).split_once(".SH EXAMPLES") {
        Some((words, examples)) => (words.to_owned(), format!(".SH EXAMPLES{examples}")),
        None => (after(of), String::new()),
    };
    page.push_str(&std::mem::take(&mut words));
    if !listed.is_empty() {
        page.push_str(&format!(".SH OPTIONS\n{listed}"));
    }
    if subcommand.is_none() {
        page.push_str(".SH SUBCOMMANDS\n");
        for of in of.get_subcommands() {
            let about = of.get_about().map(ToString::to_string).unwrap_or_default();
            page.push_str(&format!(".TP\n\\fB{}\\fR\n{}\n", plain(of.get_name()), plain(&about)));
        }
    }
    let status = EXIT.trim_start_matches("Exit status: ");
    page.push_str(&format!(".SH EXIT STATUS\n{}\n{examples}", plain(status)));
    let others: Vec<String> = match subcommand {
        None => whole.get_subcommands().map(|of| format!("{NAME}-{}", of.get_name())).collect(),
        Some(_) => vec![NAME.to_owned()],
    };
    let others: Vec<String> = others.iter().map(|name| format!("\\fB{}\\fR(1)", plain(name))).collect();
    page.push_str(&format!(".SH SEE ALSO\n{}\n", others.join(",\n")));
    Ok(page)
}

pub fn run(given: &ArgMatches) -> Outcome<()> {
    let page = page(given.get_one::<String>("subcommand").map(String::as_str))?;
    let mut output = Output::open(None)?;
    output.write(page.as_bytes())?;
    output.finish()
}

pub fn completions(given: &ArgMatches) -> Outcome<()> {
    let shell = match given.get_one::<String>("shell").map(String::as_str) {
        Some("zsh") => clap_complete::Shell::Zsh,
        _ => clap_complete::Shell::Bash,
    };
    let mut text = Vec::new();
    clap_complete::generate(shell, &mut command(), NAME, &mut text);
    let mut output = Output::open(None)?;
    output.write(&text)?;
    output.finish()
}
