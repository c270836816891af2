//! The command line.

use outside::args::Args;
use outside::compare::{compare, difference, Plan};
use outside::cover::{unreachable_table, Cover};
use outside::pair;
use outside::point::wanted;
use outside::program::{Feeding, Program};
use outside::script;
use outside::settings::Role;
use outside::station::Station;
use outside::watch::Tally;
use outside::{long, plan, receive, words};
use std::io::{self, BufWriter, Read, Write};
use std::path::PathBuf;
use std::process::ExitCode;
use std::time::Duration;

const USAGE: &str = "outside sunday < script      answers as the script comes
outside lines < script       answers a whole script
outside words < script       prints a script as a scene, with its answers
outside generate [--seed S] [--long ROLE] > script
outside cover [--scripts N] [--seed S] [--no-long] [--table] [--unreachable]
outside compare --program CMD.. [--scripts N] [--seed S] [--no-long] [--any-cover]
                [--patience SECONDS] [--keep DIRECTORY]
outside pair --program CMD.. [--scenes N] [--seed S] [--no-long] [--batch]
             [--patience SECONDS]
outside pair --self [--scenes N] [--seed S] [--no-long]
outside receive < messages   the receiving job, to be timed";

const SCRIPTS: u64 = 300;
const SCENES: u64 = 200;

fn main() -> ExitCode {
    let words: Vec<String> = std::env::args().skip(1).collect();
    let result = match words.split_first() {
        Some((name, rest)) => command(name, rest),
        None => Err(USAGE.to_string()),
    };
    match result {
        Ok(()) => ExitCode::SUCCESS,
        Err(trouble) => {
            eprintln!("{trouble}");
            ExitCode::FAILURE
        }
    }
}

fn command(name: &str, rest: &[String]) -> Result<(), String> {
    match name {
        "sunday" => said(script::sunday(io::stdin().lock(), BufWriter::new(io::stdout().lock()))),
        "lines" => print(script::lines(&input()?).as_bytes()),
        "words" => said(words::print_script(&input()?, BufWriter::new(io::stdout().lock()))),
        "generate" => generate(rest),
        "cover" => cover(rest),
        "compare" => compare_command(rest),
        "pair" => pair_command(rest),
        "receive" => receive_command(),
        _ => Err(format!("there is no command {name:?}\n{USAGE}")),
    }
}

fn said<T>(result: io::Result<T>) -> Result<T, String> {
    result.map_err(|error| format!("input or output failed: {error}"))
}

fn input() -> Result<Vec<u8>, String> {
    let mut bytes = Vec::new();
    said(io::stdin().lock().read_to_end(&mut bytes))?;
    Ok(bytes)
}

fn print(bytes: &[u8]) -> Result<(), String> {
    said(io::stdout().lock().write_all(bytes))
}

fn say(line: &str) -> Result<(), String> {
    print(format!("{line}\n").as_bytes())
}

fn receive_command() -> Result<(), String> {
    let mut messages = [0; receive::INPUT];
    said(io::stdin().lock().read_exact(&mut messages))?;
    say(&format!("{} delivered", receive::receive(&mut messages)?))
}

fn generate(rest: &[String]) -> Result<(), String> {
    let args = Args::parse(rest, &["seed", "long"])?;
    let seed = args.value("seed", 1)?;
    if !args.flag("long") {
        return print(&plan::script(seed));
    }
    let role = match args.value("long", String::new())?.as_str() {
        "initiator" => Role::Initiator,
        "called" => Role::Called,
        other => return Err(format!("--long takes initiator or called, not {other:?}")),
    };
    print(&long::script(seed, role).ok_or("the long life has settings out of range")?)
}

fn plan_of(args: &Args) -> Result<Plan, String> {
    Ok(Plan {
        scripts: args.value("scripts", SCRIPTS)?,
        seed: args.value("seed", 1)?,
        long: !args.flag("no-long"),
    })
}

fn cover(rest: &[String]) -> Result<(), String> {
    let known = ["scripts", "seed", "no-long", "table", "unreachable"];
    let args = Args::parse(rest, &known)?;
    if args.flag("unreachable") {
        return print(unreachable_table().as_bytes());
    }
    let mut cover = Cover::default();
    for source in plan_of(&args)?.sources() {
        cover.run(&source.script);
    }
    if args.flag("table") {
        print(cover.table().as_bytes())?;
    }
    covered(&cover)
}

/// Names what the scripts should have met and didn't.
fn covered(cover: &Cover) -> Result<(), String> {
    let Cover { scripts, records, delivered, .. } = cover;
    say(&format!("{scripts} scripts, {records} records, {delivered} messages delivered"))?;
    let mut troubles: Vec<String> = Vec::new();
    troubles.extend(cover.missing().iter().map(|point| format!("not met: {point}")));
    troubles.extend(cover.impossible().iter().map(|point| format!("can't be, but was: {point}")));
    if troubles.is_empty() {
        return say(&format!("all {} points that can be met were met", wanted().len()));
    }
    Err(troubles.join("\n"))
}

fn program_of(args: &Args, patience: u64) -> Result<Program, String> {
    let patience = Duration::from_secs(args.value("patience", patience)?);
    Ok(Program { words: args.command("program")?, patience })
}

fn compare_command(rest: &[String]) -> Result<(), String> {
    let known = ["program", "scripts", "seed", "no-long", "any-cover", "patience", "keep"];
    let args = Args::parse(rest, &known)?;
    let program = program_of(&args, 600)?;
    let keep = args.value("keep", PathBuf::from("."))?;
    let mut counted = Cover::default();
    compare(&program, &plan_of(&args)?, &mut counted, &keep)?;
    say("no difference")?;
    match covered(&counted) {
        Err(missing) if args.flag("any-cover") => say(&missing),
        result => result,
    }
}

fn pair_command(rest: &[String]) -> Result<(), String> {
    let known = ["program", "self", "scenes", "seed", "no-long", "batch", "patience"];
    let args = Args::parse(rest, &known)?;
    let mut stations = stations(&args)?;
    let mut tally = Tally::default();
    let seed: u64 = args.value("seed", 1)?;
    let scenes: u64 = args.value("scenes", SCENES)?;
    for scene in seed..seed + scenes {
        pair::scene(&mut stations, &mut tally, scene)?;
    }
    if !args.flag("no-long") {
        pair::long_scene(&mut stations, &mut tally, seed)?;
    }
    if args.flag("batch") {
        let program = program_of(&args, 600)?;
        stations.iter().try_for_each(|station| replay(station, &program))?;
    }
    print_tally(&tally)?;
    pair::enough(&tally, !args.flag("no-long"))
}

fn stations(args: &Args) -> Result<[Station; 2], String> {
    if args.flag("self") {
        return Ok([Station::Own(Default::default()), Station::Own(Default::default())]);
    }
    if args.flag("batch") {
        return Ok([Station::recorded(), Station::recorded()]);
    }
    let program = program_of(args, 30)?;
    let talk = || program.talk().map(Box::new).map(Station::Program);
    Ok([talk()?, talk()?])
}

/// For a program that answers only at the end of its input: it gets the
/// script that was recorded, and must print the lines that were checked.
fn replay(station: &Station, program: &Program) -> Result<(), String> {
    let Station::Recorded { script, lines, .. } = station else {
        return Ok(());
    };
    let finished = program.run(script, Feeding::Whole)?;
    match difference(lines, &String::from_utf8_lossy(&finished.text)) {
        None => Ok(()),
        Some(found) => Err(format!("the replayed lines differ: {found}")),
    }
}

fn print_tally(tally: &Tally) -> Result<(), String> {
    say("seen:")?;
    tally.seen.iter().try_for_each(|(what, count)| say(&format!("{count:>10}  {what}")))?;
    say("checked:")?;
    tally.checks.iter().try_for_each(|(what, count)| say(&format!("{count:>10}  {what}")))?;
    say(&format!("{:>10}  checks in all, none failed", tally.checks.values().sum::<u64>()))
}
