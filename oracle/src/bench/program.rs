//! The job program's process, start to end, on the largest job that it takes, beside a
//! process that does nothing.

use super::{Shape, mechanism, short, summary};
use crate::job_file;
use std::process::{Command, Stdio};
use std::time::Instant;

const RUNS: usize = 300;

/// A loop of 64 joints with two rows each: 128 rows and 64 bodies.
pub fn table(program: &str) -> Result<bool, String> {
    let folder = crate::home().join("target");
    println!("milliseconds, minimum and median of {RUNS}");
    let empty = folder.join("empty");
    std::fs::write(&empty, []).map_err(|error| error.to_string())?;
    print_times("an empty process (true)", "true", &empty)?;
    for mode in 0..3 {
        let job = mechanism(Shape::Loop, 64, 2, mode);
        let [_, count, ..] = crate::model::solve(&job).answer.words();
        let file = folder.join(format!("largest-{mode}.job"));
        std::fs::write(&file, job_file::write(&job)).map_err(|error| error.to_string())?;
        let label = format!("{} rows, {} bodies, mode {mode}, {count} steps", job.rows, job.bodies);
        print_times(&label, program, &file)?;
    }
    Ok(true)
}

fn print_times(label: &str, program: &str, input: &std::path::Path) -> Result<(), String> {
    let mut times = Vec::new();
    for _ in 0..RUNS {
        let file = std::fs::File::open(input).map_err(|error| error.to_string())?;
        let started = Instant::now();
        let status = Command::new(program)
            .stdin(Stdio::from(file))
            .stdout(Stdio::null())
            .status()
            .map_err(|error| format!("{program}: {error}"))?;
        times.push(started.elapsed().as_secs_f64() * 1e3);
        if !status.success() {
            return Err(format!("{program}: {status}"));
        }
    }
    let found = summary(times);
    println!("{label}: {} {}", short(found.minimum), short(found.median));
    Ok(())
}
