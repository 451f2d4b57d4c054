//! The Rust side of the port: the reference as judge. `oracle/run` calls this program.

mod bench;
mod blocks;
mod closing_jobs;
mod convert;
mod cover;
mod differences;
mod driver;
mod file_jobs;
mod generator;
mod implementation;
mod inertia;
mod job;
mod job_file;
mod judge;
mod library;
mod listing;
mod mechanisms;
mod model;
mod packing;
mod program;
mod proposals;
mod random;
mod recorded;
mod tally;
mod unpacking;
mod velocities;
mod written;

use generator::Sizes;
use std::ffi::OsString;
use std::io::Write;
use std::path::PathBuf;

const USAGE: &str = "usage: oracle/run COMMAND
  tally [JOBS] [SEED]             outcomes of generated jobs by mode, reference against model
  drive LIBRARY [JOBS] [SEED]     an implementation (see oracle/wrap) against the judge
  shifts LIBRARY [JOBS] [SEED]    the same with a shift for each job
  rules LIBRARY [JOBS] [SEED]     the same with a table of rules for each job
  centres LIBRARY [JOBS] [SEED]   the same with centres for each job's bodies
  proposals LIBRARY [JOBS] [SEED] propose and commit against the undivided solve, with changes between them
  velocities tally [JOBS] [SEED]  outcomes of generated velocity jobs, reference against model
  velocities drive LIBRARY [JOBS] [SEED]
                                  velocity solves and their checks, with rules and shifts among them
  velocities sheets               V1 to V5 on reference and model
  groups LIBRARY [TABLES] [SEED]  an implementation's solves by groups against the model, of positions
                                  and of velocities
  record                          makes the recorded solves in crates/solve_recorded
  replay                          judges the recorded solves anew
  cover                           counts what the recorded solves meet
  blocks [JOBS] [SEED]            mode 2 of the model against the Rust's velocity side
  differences                     docs/DIFFERENCES.md's inputs on the reference
  bench [LIBRARY]                 times of the reference, and of an implementation
  bench-closing LIBRARY           time of an implementation's closing check at 512 rows, with its list too
  bench-eigen LIBRARY EIGEN       the same job by Eigen's conjugate gradients (oracle/eigen makes EIGEN)
  bench-groups LIBRARY            times of an implementation's solve by groups, and of the one table
  bench-program PROGRAM           time of the job program's process on the largest job
  job FILE                        what the job program prints of a job file
  files FOLDER [JOBS] [SEED] [SPARE]
                                  job files in every placement, with what the program prints
  program PROGRAM [FILES] [SEED]  the job program's own process on generated, damaged and random files
  margined FILE                   what the program that lists margins prints of a job file
  margins PROGRAM [FILES] [SEED]  that program's own process on such files
  gapped FILE                     what the program that lists gaps prints of a job file
  gaps PROGRAM [FILES] [SEED]     that program's own process on such files
  grouped FILE                    what the program that solves by groups prints of a job file
  mechanisms PROGRAM [FILES] [SEED]
                                  that program's own process on such files, several mechanisms on a bench
  converted FILE [ARGUMENT..]     what the converter writes of a job file, to standard output
  convert PROGRAM [FILES] [SEED]  the converter's own process on such files, both layouts
  inertia record                  makes the recorded matrices in crates/inertia_recorded
  inertia PROGRAM [COUNT] [SEED]  that program, crates/inertia_recorded/out/inertia_recorded, on drawn matrices
  examples                        document 01's P1 to P9 as job files, in target/examples";

fn main() {
    let arguments: Vec<String> = std::env::args().skip(1).collect();
    let words: Vec<&str> = arguments.iter().map(String::as_str).collect();
    let ended = command(&words).unwrap_or_else(|message| {
        eprintln!("oracle: {message}");
        false
    });
    std::process::exit(if ended { 0 } else { 1 });
}

/// Where the oracle's folder is: `oracle/run` says so.
fn home() -> PathBuf {
    std::env::var_os("ORACLE_HOME").map_or_else(|| PathBuf::from("."), PathBuf::from)
}

fn command(words: &[&str]) -> Result<bool, String> {
    let number = |at: usize, default: u64| match words.get(at) {
        None => Ok(default),
        Some(word) => word.parse().map_err(|_| format!("'{word}' is not a number")),
    };
    match words {
        ["tally", ..] => Ok(tally::run(number(1, 100_000)?, number(2, 1)?, |seed, index| {
            generator::job(seed, index, Sizes::Any)
        })),
        ["drive", library, ..] => driver::run(library, number(2, 100_000)?, number(3, 1)?, &home()),
        ["shifts", library, ..] => {
            driver::shifts(library, number(2, 100_000)?, number(3, 1)?, &home())
        }
        ["rules", library, ..] => {
            driver::rules(library, number(2, 100_000)?, number(3, 1)?, &home())
        }
        ["centres", library, ..] => {
            driver::centres(library, number(2, 100_000)?, number(3, 1)?, &home())
        }
        ["proposals", library, ..] => proposals::run(library, number(2, 200_000)?, number(3, 1)?),
        ["groups", library, ..] => {
            driver::groups::run(library, number(2, 100_000)?, number(3, 1)?, &home())
        }
        ["velocities", "sheets"] => Ok(velocities::sheets()),
        ["velocities", "drive", library, ..] => {
            driver::velocities(library, number(3, 100_000)?, number(4, 1)?, &home())
        }
        ["velocities", "tally", ..] => Ok(velocities::tally(number(2, 100_000)?, number(3, 1)?)),
        ["record"] => recorded::make(&home()),
        ["replay"] => recorded::replay(&home()),
        ["cover"] => recorded::cover(&home()),
        ["blocks", ..] => Ok(blocks::run(number(1, 100_000)?, number(2, 1)?)),
        ["differences"] => Ok(differences::run()),
        ["bench"] => bench::tables(None),
        ["bench", library] => bench::tables(Some(library)),
        ["bench-closing", library] => bench::closing(library),
        ["bench-eigen", library, eigen] => bench::eigen::table(library, eigen),
        ["bench-groups", library] => bench::groups::table(library),
        ["bench-program", program] => bench::program::table(program),
        ["job", file] => {
            let bytes = std::fs::read(file).map_err(|error| format!("{file}: {error}"))?;
            print!("{}", listing::of_file(&bytes));
            Ok(true)
        }
        ["margined", file] => {
            let bytes = std::fs::read(file).map_err(|error| format!("{file}: {error}"))?;
            print!("{}", listing::margins_of_file(&bytes));
            Ok(true)
        }
        ["margins", program, ..] => {
            program::margins(program, number(2, 1000)?, number(3, 1)?, &home())
        }
        ["gapped", file] => {
            let bytes = std::fs::read(file).map_err(|error| format!("{file}: {error}"))?;
            print!("{}", listing::gaps_of_file(&bytes));
            Ok(true)
        }
        ["gaps", program, ..] => program::gaps(program, number(2, 1000)?, number(3, 1)?, &home()),
        ["program", program, ..] => program::run(program, number(2, 1000)?, number(3, 1)?, &home()),
        ["files", folder, ..] => {
            file_jobs::write(folder, number(2, 1000)?, number(3, 1)?, number(4, 0)? as u32)
        }
        ["grouped", file] => {
            let bytes = std::fs::read(file).map_err(|error| format!("{file}: {error}"))?;
            print!("{}", mechanisms::of_file(&bytes));
            Ok(true)
        }
        ["mechanisms", program, ..] => {
            mechanisms::run(program, number(2, 1000)?, number(3, 1)?, &home())
        }
        ["converted", file, asked @ ..] => {
            let bytes = std::fs::read(file).map_err(|error| format!("{file}: {error}"))?;
            let asked: Vec<OsString> = asked.iter().map(OsString::from).collect();
            let text = convert::text(&written::converted(&bytes, convert::layout_of(&asked)));
            std::io::stdout().write_all(&text).map_err(|error| error.to_string())?;
            Ok(true)
        }
        ["convert", program, ..] => convert::run(program, number(2, 1000)?, number(3, 1)?, &home()),
        ["inertia", "record"] => inertia::record(&home()),
        ["inertia", program, ..] => inertia::drive(program, number(2, 500_000)?, number(3, 1)?),
        ["examples"] => listing::examples(&home()),
        _ => Err(USAGE.to_string()),
    }
}
