//! Times the proved library beside what it is to keep up with, and prints tables of times, memory and stack. `README.md` says how to read
//! them.

mod checks;
mod clock;
mod decode;
mod deep;
mod depths;
mod document;
mod empty;
mod lines;
mod listing;
mod measure;
mod memory;
mod plan;
mod real_lua;
mod stack;
mod table;
mod texts;
mod trial;
mod unread;
mod utf8;

use std::env;
use std::fs;
use std::path::Path;
use std::process::ExitCode;
use std::thread;

use plan::Plan;
use table::Tables;

const USAGE: &str = "usage: bench --write | bench [--quick] [utf8] [checks] [decode] [trial] [bodies] [memory] [stack]";
const PARTS: [&str; 7] = ["utf8", "checks", "decode", "trial", "bodies", "memory", "stack"];

struct Options {
    plan: Plan,
    is_written: bool,
    /// Of [`PARTS`].
    parts: Vec<String>,
}

fn options() -> Option<Options> {
    let mut options = Options { plan: Plan::FULL, is_written: false, parts: Vec::new() };
    for argument in env::args().skip(1) {
        match argument.as_str() {
            "--quick" => options.plan = Plan::QUICK,
            "--write" => options.is_written = true,
            part if PARTS.contains(&part) => options.parts.push(argument),
            _ => return None,
        }
    }
    // Only whole tables are kept, and none of a quick run, whose times say nothing.
    if options.is_written && (options.plan.is_quick() || !options.parts.is_empty()) {
        return None;
    }
    if options.parts.is_empty() {
        options.parts = PARTS.map(str::to_owned).to_vec();
    }
    Some(options)
}

fn main() -> ExitCode {
    let Some(options) = options() else {
        eprintln!("{USAGE}");
        return ExitCode::from(2);
    };
    match run(&options) {
        Ok(()) => ExitCode::SUCCESS,
        Err(error) => {
            eprintln!("bench: {error}");
            ExitCode::FAILURE
        }
    }
}

fn run(Options { plan, is_written, parts }: &Options) -> Result<(), String> {
    let root = Path::new(env!("CARGO_MANIFEST_DIR")).join("..");
    let folder = root.join("target/bench");
    fs::create_dir_all(&folder).map_err(|error| format!("{}: {error}", folder.display()))?;
    let tables = measured(plan, parts, &root, &folder);
    fs::remove_dir_all(&folder).map_err(|error| format!("{}: {error}", folder.display()))?;

    let (machine, tables) = (machine(plan), tables?.to_string());
    println!("{machine}\n\n{tables}");
    if *is_written { document::write(&root.join("docs/BENCH.md"), &machine, &tables) } else { Ok(()) }
}

/// `folder` is for files that live as long as the measuring.
fn measured(plan: &Plan, parts: &[String], root: &Path, folder: &Path) -> Result<Tables, String> {
    let mut tables = Tables::default();
    let program = root.join("target/bin/bodies");
    for part in parts {
        match part.as_str() {
            "utf8" => utf8::run(plan, &mut tables)?,
            "checks" => {
                checks::run(plan, &mut tables)?;
                unread::run(plan, &mut tables)?;
            }
            "decode" => decode::run(plan, &mut tables)?,
            "trial" => trial::run(plan, &mut tables, folder)?,
            "bodies" => lines::run(plan, &mut tables, &program, folder)?,
            "memory" => memory::run(plan, &mut tables, &program)?,
            _ => depths::run(plan, &mut tables)?,
        }
    }
    Ok(tables)
}

/// What the times depend on.
fn machine(plan: &Plan) -> String {
    let processors = fs::read_to_string("/proc/cpuinfo").unwrap_or_default();
    let model = processors.lines().find_map(|line| line.strip_prefix("model name")?.split_once(": "));
    let model = model.map_or("an unknown processor", |(_, model)| model);
    let count = thread::available_parallelism().map_or(1, usize::from);
    let quick = if plan.is_quick() { " Quick: small texts and short samples, the times say nothing." } else { "" };
    format!("{model}, {count} of them; {} rounds of {} ms or more.{quick}", plan.rounds, plan.sample.as_millis())
}
