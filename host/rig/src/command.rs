//! The command line.

use crate::check::passed_in_words;
use crate::graph::dot;
use crate::loading::{bytes_of, Loaded};
use crate::options::Options;
use crate::order::Order;
use crate::orders::{attempts, report};
use crate::plot::plot;
use crate::run::{run, Script};
use crate::stop::Stop;
use crate::text::text;
use std::io::{self, Write};
use std::path::Path;
use std::process::{Command, ExitCode};
use std::{env, fs};

const HELP: &str = "\
rig: decks as text, refusals in words, graphs, runs and orders

    rig make TEXT > DECK            the bytes of a deck that is given as text
    rig text DECK                   the text of a deck
    rig check TEXT|DECK             whether a deck passes, and if not, why
    rig convert OLD > NEW           an old deck, with default actions, as a new one
    rig graph TEXT|DECK             the dependency graph for Graphviz
        --svg FILE                  drawn by dot
    rig run TEXT|DECK CALLS         the calls of a text, each with its answer
        --order oldest|newest|SEED  in which order what is pending is committed; `commit` lines are left out
        --trace                     which rule made each update, what was applied, which limit discarded what
        --csv                       the values after each frame in place of the answers
        --plot FILE                 the channels over the frames, as SVG
    rig orders TEXT|DECK CALLS      the same inputs under many orders of commits
        --tries N                   so many, 100 if not given
    rig --help
    rig --version

`-` stands for standard input. A file with bytes below 9 is taken for a deck, any other for a text. The status is 0,
1 where something was refused, and 2 for wrong use. docs/TUTORIAL.md makes a first rig; docs/FORMAT.md has the texts.
";

/// The orders that are tried where no number is given; the help says so too.
const TRIES: usize = 100;

/// What a command writes to standard output, and whether something was refused on the way.
pub struct Done {
    pub output: Vec<u8>,
    /// What is said of it on standard error, behind the output.
    pub notes: String,
    pub refused: bool,
}

impl Done {
    pub fn text(output: impl Into<Vec<u8>>) -> Done {
        Done { output: output.into(), notes: String::new(), refused: false }
    }
}

pub fn main() -> ExitCode {
    let arguments: Vec<String> =
        env::args_os().skip(1).map(|word| word.to_string_lossy().into_owned()).collect();
    let words: Vec<&str> = arguments.iter().map(String::as_str).collect();
    match perform(&words) {
        Ok(done) => match io::stdout().write_all(&done.output).and_then(|()| io::stdout().flush()) {
            Ok(()) => {
                eprint!("{}", done.notes);
                ExitCode::from(if done.refused { Stop::REFUSED } else { 0 })
            }
            // Whoever reads it may have read enough.
            Err(error) if error.kind() == io::ErrorKind::BrokenPipe => ExitCode::SUCCESS,
            Err(error) => {
                eprintln!("rig: The output cannot be written: {error}.");
                ExitCode::from(Stop::MISUSED)
            }
        },
        Err(stop) => {
            eprintln!("{}", stop.message());
            ExitCode::from(stop.status())
        }
    }
}

fn perform(words: &[&str]) -> Result<Done, Stop> {
    let Some((&command, rest)) = words.split_first() else {
        return Err(Stop::Misused(HELP.trim_end().to_string()));
    };
    match command {
        "--help" | "-h" | "help" => Ok(Done::text(HELP)),
        "--version" | "-V" => Ok(Done::text(format!("rig {}\n", env!("CARGO_PKG_VERSION")))),
        "make" => make(one_file(command, rest)?),
        "text" => {
            let readable = Loaded::read(one_file(command, rest)?)?.readable()?;
            Ok(Done::text(text(&readable.deck, &readable.names)))
        }
        "check" => {
            let loaded = Loaded::read(one_file(command, rest)?)?;
            let deck = loaded.checked()?;
            Ok(Done::text(passed_in_words(&loaded.file, &deck) + "\n"))
        }
        "convert" => convert(one_file(command, rest)?),
        "graph" => graph(rest),
        "run" => run_calls(rest),
        "orders" => orders(rest),
        _ => Err(misused(command)),
    }
}

fn one_file<'a>(command: &str, rest: &[&'a str]) -> Result<&'a str, Stop> {
    match Options::read(rest, &[], &[]).map(|options| options.files) {
        Some(files) if files.len() == 1 => Ok(files[0]),
        _ => Err(misused(command)),
    }
}

fn graph(rest: &[&str]) -> Result<Done, Stop> {
    let options = Options::read(rest, &[], &["--svg"]).ok_or_else(|| misused("graph"))?;
    let [file] = options.files[..] else { return Err(misused("graph")) };
    let loaded = Loaded::read(file)?;
    let title = Path::new(&loaded.file).file_stem().map_or("rig".into(), |stem| stem.to_string_lossy());
    let text = dot(&loaded.readable()?, &title);
    match options.value("--svg") {
        Some(svg) => draw(&text, svg),
        None => Ok(Done::text(text)),
    }
}

fn run_calls(rest: &[&str]) -> Result<Done, Stop> {
    let options =
        Options::read(rest, &["--trace", "--csv"], &["--order", "--plot"]).ok_or_else(|| misused("run"))?;
    let [deck, calls] = options.files[..] else { return Err(misused("run")) };
    let order = match options.value("--order") {
        Some(word) => Some(Order::named(word).ok_or_else(|| misused("run"))?),
        None => None,
    };
    let ran = run(&Script::read(deck, calls)?, order, options.has("--trace"));
    if let Some(file) = options.value("--plot") {
        let unwritten = |error| Stop::Misused(format!("rig: {file} cannot be written: {error}."));
        fs::write(file, plot(&ran.frames)).map_err(unwritten)?;
    }
    let refused = !ran.refusals.is_empty();
    let (output, notes) = if options.has("--csv") {
        // The rows do not show what was refused.
        let notes = ran.refusals.iter().map(|refusal| format!("{calls}, {refusal}.\n")).collect();
        (ran.frames.csv(), notes)
    } else if refused {
        (ran.answers, format!("{calls}: {}.\n", refused_calls(ran.refusals.len())))
    } else {
        (ran.answers, String::new())
    };
    Ok(Done { output: output.into_bytes(), notes, refused })
}

/// How many calls were refused.
fn refused_calls(count: usize) -> String {
    match count {
        1 => "One call was refused".to_string(),
        count => format!("{count} calls were refused"),
    }
}

fn orders(rest: &[&str]) -> Result<Done, Stop> {
    let options = Options::read(rest, &[], &["--tries"]).ok_or_else(|| misused("orders"))?;
    let [deck, calls] = options.files[..] else { return Err(misused("orders")) };
    let tries = match options.value("--tries") {
        Some(word) => word.parse().ok().filter(|&tries| tries > 0).ok_or_else(|| misused("orders"))?,
        None => TRIES,
    };
    let script = Script::read(deck, calls)?;
    let tried = attempts(&script, tries);
    let refused = tried.iter().any(|tried| !tried.refused.is_empty());
    Ok(Done { output: report(&script, &tried).into_bytes(), notes: String::new(), refused })
}

fn misused(command: &str) -> Stop {
    let form = HELP.lines().find(|line| line.trim_start().starts_with(&format!("rig {command} ")));
    Stop::Misused(match form {
        Some(form) => format!("rig: The command is used so: {}\nrig --help says more.", form.trim()),
        None => format!("rig: There is no command {command}. rig --help shows those that there are."),
    })
}

/// A deck that does not pass is not written.
fn make(file: &str) -> Result<Done, Stop> {
    let loaded = Loaded::read(file)?;
    if loaded.source.is_none() {
        return Err(Stop::Refused(format!("{}: The file is a deck already, no text.", loaded.file)));
    }
    loaded.checked()?;
    Ok(Done::text(loaded.bytes))
}

fn convert(file: &str) -> Result<Done, Stop> {
    let loaded = Loaded { file: file.to_string(), bytes: bytes_of(file)?, source: None };
    match reaction::Deck::convert(&loaded.bytes) {
        Ok(deck) => Ok(Done::text(deck.bytes())),
        Err(refusal) => Err(Stop::Refused(crate::check::refusal_in_words(&loaded, refusal))),
    }
}

/// Draws a graph by Graphviz.
fn draw(graph: &str, svg: &str) -> Result<Done, Stop> {
    let written = format!("{svg}.dot");
    let unwritten = |error| Stop::Misused(format!("rig: {written} cannot be written: {error}."));
    fs::write(&written, graph).map_err(unwritten)?;
    let ran = Command::new("dot").args(["-Tsvg", "-o", svg, &written]).output();
    // The graph's text is only dot's input.
    let _ = fs::remove_file(&written);
    match ran {
        Ok(output) if output.status.success() => Ok(Done::text("")),
        Ok(output) => Err(Stop::Misused(format!("rig: dot failed: {}", String::from_utf8_lossy(&output.stderr).trim()))),
        Err(_) => Err(Stop::Misused(
            "rig: dot, Graphviz's program, is not installed, so that no picture was drawn. Debian's package is graphviz. \
             Without --svg the graph is written as text."
                .to_string(),
        )),
    }
}
