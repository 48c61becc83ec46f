//! The six subcommands: from files to standard output, or to the file that an option names.

use crate::arguments::{Arguments, Done, Failure};
use sock::diagnose::{self, not_fresh};
use sock::files::{content, load, text, Form, Loaded};
use sock::library::{check_readable, check_start, word_for, Move};
use sock::names::Names;
use sock::run::{interactive, Desk, Run, MOST};
use sock::show::{counted, show, show_step, Colours};
use sock::state::State;
use sock::tell::step_line;
use sock::{moves, picture};
use std::io::{self, IsTerminal, Write};

// ---- Files and output

pub fn say(text: &str) -> Done<()> {
    let mut out = io::stdout().lock();
    out.write_all(text.as_bytes()).and_then(|_| out.flush()).map_err(unwritten)
}

fn unwritten(why: io::Error) -> Failure {
    Failure(3, format!("sock: not all could be written: {why}"))
}

/// To the file that -o names, or to standard output.
fn put(arguments: &Arguments, text: &[u8]) -> Done<()> {
    match arguments.value("-o") {
        Some(file) => write(file, text),
        None => say(&String::from_utf8_lossy(text)),
    }
}

fn write(file: &str, bytes: &[u8]) -> Done<()> {
    std::fs::write(file, bytes)
        .map_err(|why| Failure(3, format!("sock: {file} could not be written: {why}")))
}

/// A configuration and steps, in the form that the file's name asks for.
fn save(file: &str, names: &Names, state: &State, steps: &[Move]) -> Done<()> {
    write(file, &content(Form::of(file), names, state, steps))
}

fn loaded(file: &str) -> Done<Loaded> {
    let bytes = std::fs::read(file)
        .map_err(|why| Failure(2, format!("sock: {file} cannot be read: {why}")))?;
    load(file, &bytes).map_err(|trouble| Failure(1, trouble.in_file(file)))
}

/// What a file holds; with --plan its start is a planners' one, and translated.
fn given(arguments: &Arguments, file: &str) -> Done<Loaded> {
    if arguments.option("--plan").is_none() {
        return loaded(file);
    }
    if Form::of(file) == Form::Text {
        return Err(arguments.misused("--plan is for words: texts have no fixed scopes"));
    }
    loaded(file)?.translated().map_err(|trouble| Failure(1, trouble.in_file(file)))
}

/// The start of a file, which has to be readable.
fn started(file: &str, loaded: &Loaded) -> Done<State> {
    let refusal = || Failure(1, loaded.refusal().in_file(file).trim_end().to_string());
    loaded.start.clone().ok_or_else(refusal)
}

/// After so many of the file's steps.
fn after(file: &str, loaded: &Loaded, count: usize) -> Done<State> {
    let steps = &loaded.input.steps;
    let few =
        || Failure(2, format!("sock: {file} has {}, not {count}", counted(steps.len(), "step")));
    Ok(started(file, loaded)?.after(steps.get(..count).ok_or_else(few)?))
}

fn colours() -> Colours {
    Colours(io::stdout().is_terminal() && std::env::var_os("NO_COLOR").is_none())
}

// ---- The commands

pub fn asm(arguments: &Arguments) -> Done<u8> {
    let (file, _) = arguments.file(false)?;
    if Form::of(file) != Form::Text {
        return Err(
            arguments.misused(&format!("a text is expected, whose name ends in .sock, not {file}"))
        );
    }
    let loaded = loaded(file)?;
    let state = started(file, &loaded)?;
    if check_start(&state.words) == 11 {
        let _ = writeln!(
            io::stderr(),
            "{file}: no start (11, not fresh): sock run goes on from it, bin/handover does not"
        );
    }
    let form = arguments.value("-o").map_or(Form::Hex, Form::of);
    put(arguments, &content(form, &loaded.names, &state, &loaded.input.steps))?;
    Ok(0)
}

pub fn dis(arguments: &Arguments) -> Done<u8> {
    let (file, _) = arguments.file(false)?;
    let words = given(arguments, file)?;
    let state = started(file, &words)?;
    let names = match arguments.value("--names") {
        Some(other) => fitting_names(loaded(other)?.names, &state),
        None => words.names,
    };
    let text = text(&names, &state, &words.input.steps);
    let back = load("it.sock", text.as_bytes()).map(|back| back.input);
    if back.as_ref() != Ok(&words.input) {
        return Err(Failure(
            1,
            format!("sock: {file}: its text has other words; please report it"),
        ));
    }
    put(arguments, text.as_bytes())?;
    Ok(0)
}

/// The names of a text for a configuration that may have fewer engines.
fn fitting_names(mut names: Names, state: &State) -> Names {
    let count = state.tree.engines.len();
    names.engines.retain(|(_, number)| usize::from(*number) < count);
    names.variables.resize(count, Vec::new());
    names
}

pub fn check(arguments: &Arguments) -> Done<u8> {
    let (file, _) = arguments.file(false)?;
    let loaded = given(arguments, file)?;
    let words = &loaded.input.words;
    let (readable, start) = (check_readable(words), check_start(words));
    let mut out =
        format!("readable {readable} {}\nstart {start} {}\n", word_for(readable), word_for(start));
    let why = match &loaded.start {
        None => diagnose::read(words).err(),
        Some(state) => not_fresh(&state.tree),
    };
    match why {
        _ if start == 0 => {}
        Some(why) => {
            if let Some(at) = loaded.place(&why) {
                out.push_str(&format!("at: {}\n", at.in_file(file)));
            }
            out.push_str(&why.said());
        }
        None => out.push_str(&format!("{}\n", diagnose::UNEXPLAINED)),
    }
    say(&out)?;
    Ok(u8::from(start != 0))
}

pub fn show_file(arguments: &Arguments) -> Done<u8> {
    let (file, step) = arguments.file(true)?;
    let loaded = given(arguments, file)?;
    let step = step.unwrap_or(0);
    let whole = after(file, &loaded, step)?;
    if arguments.option("--svg").is_some() {
        put(arguments, picture::svg(&loaded.names, &whole).as_bytes())?;
    } else if arguments.option("--dot").is_some() {
        put(arguments, picture::dot(&loaded.names, &whole).as_bytes())?;
    } else {
        let colours = if arguments.value("-o").is_some() { Colours(false) } else { colours() };
        let text = match step.checked_sub(1) {
            None => show(&loaded.names, &whole, colours),
            Some(before) => show_step(
                &loaded.names,
                &after(file, &loaded, before)?,
                loaded.input.steps[before],
                step,
                colours,
            ),
        };
        put(arguments, text.as_bytes())?;
    }
    Ok(0)
}

pub fn list_moves(arguments: &Arguments) -> Done<u8> {
    let (file, step) = arguments.file(true)?;
    let most = arguments.value("--most").map_or(Ok(MOST), |text| arguments.number(text))?;
    let loaded = given(arguments, file)?;
    let state = after(file, &loaded, step.unwrap_or(0))?;
    let found = moves::moves(&state, most);
    let mut out = String::new();
    for step in &found.moves {
        out.push_str(&format!("{}\n", step_line(&loaded.names, &state, *step)));
    }
    if let Some(note) = found.note() {
        out.push_str(&format!("# {note}\n"));
    }
    say(&out)?;
    Ok(0)
}

pub fn run(arguments: &Arguments) -> Done<u8> {
    let (file, _) = arguments.file(false)?;
    let random = match arguments.option("--random") {
        Some([seed, count]) => Some((arguments.number(seed)?, arguments.number(count)?)),
        _ => None,
    };
    let replays = arguments.option("--replay").is_some();
    let loaded = given(arguments, file)?;
    let typed = random.is_none() && !replays;
    let mut run = Run::new(loaded.names.clone(), started(file, &loaded)?);
    run.trace = arguments.option("--trace").is_some();
    run.keeps = typed;
    let mut out = io::stdout().lock();
    let told = if typed {
        at_a_desk(&mut run, &mut out)
    } else {
        let steps: &[Move] = if replays { &loaded.input.steps } else { &[] };
        by_itself(&mut run, steps, random, &mut out)
    };
    told.and_then(|_| out.flush()).map_err(unwritten)?;
    drop(out);
    if let Some(file) = arguments.value("--write") {
        save(file, &run.names, run.now(), &[])?;
    }
    if let Some(file) = arguments.value("--steps") {
        save(file, &run.names, run.start(), &run.steps)?;
    }
    Ok(0)
}

/// The steps of a file, then random ones by seed and count.
fn by_itself(
    run: &mut Run,
    steps: &[Move],
    random: Option<(u64, usize)>,
    out: &mut impl Write,
) -> io::Result<()> {
    run.replay(steps, out)?;
    if let Some((seed, count)) = random {
        run.random(seed, count, out)?;
    }
    writeln!(out, "{}", run.summary())
}

/// The steps that a person takes.
fn at_a_desk(run: &mut Run, out: &mut impl Write) -> io::Result<()> {
    let mut write = |file: &str, names: &Names, state: &State, steps: &[Move]| {
        if file.is_empty() {
            return Err("a file's name is expected".to_string());
        }
        save(file, names, state, steps).map_err(|failure| failure.1)
    };
    let input = io::stdin().lock();
    let echo = !input.is_terminal();
    interactive(run, Desk { input, out, colours: colours(), echo, save: &mut write })
}
