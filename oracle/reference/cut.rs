//! The build's knife: cuts named items verbatim out of the larger files of the
//! reference, and makes a copy of pcg.rs without its timer lines.
//!
//! Usage: cut SOURCE-FOLDER OUTPUT-FOLDER

use std::fs;
use std::path::Path;

/// Each output file, the source it is cut from, and the heads of its items.
const CUTS: [(&str, &str, &[&str]); 7] = [
    (
        "solver_items.rs",
        "crates/kapitsa-core/src/joint/solver.rs",
        &[
            "pub(super) struct SolverMassCacheStats",
            "struct GeneralizedImpulse",
            "pub(crate) struct VelocityPcgResult",
            "pub(crate) struct PositionPcgResult",
            "pub(crate) struct VelocityPcgScratch",
            "impl VelocityPcgScratch",
            "impl SolverMassCacheStats",
            "struct IncompleteCholeskyPreconditioner",
            "impl IncompleteCholeskyPreconditioner",
            "struct VelocityRowTerm",
            "pub(super) fn map_rigid_body_error(",
        ],
    ),
    (
        "solver_mass_types.rs",
        "crates/kapitsa-core/src/rigid_body/solver_mass.rs",
        &["pub(crate) struct SolverMass", "pub(crate) enum SolverMassCacheStatus"],
    ),
    // These two stand inside `impl SolverMass`, which the harness writes around them.
    (
        "solver_mass_methods.rs",
        "crates/kapitsa-core/src/rigid_body/solver_mass.rs",
        &["    pub(crate) fn diagonal(", "    pub(crate) fn cross("],
    ),
    // Two statements of `apply_constraint_position_impulse_cached`, which the harness puts into a
    // function of their own.
    (
        "next_center.rs",
        "crates/kapitsa-core/src/rigid_body/solver_mass.rs",
        &["        let linear_delta = linear_impulse", "        let next_center = cached"],
    ),
    (
        "inverse_items.rs",
        "crates/kapitsa-core/src/rigid_body/solver_mass.rs",
        &["pub(crate) fn inverse_spd(", "fn map_cholesky_error("],
    ),
    (
        "config_items.rs",
        "crates/kapitsa-core/src/joint/config.rs",
        &["pub(crate) struct JointTolerance", "impl JointTolerance"],
    ),
    (
        "constraint_items.rs",
        "crates/kapitsa-core/src/constraint.rs",
        &[
            "pub(crate) struct SolverBody",
            "pub(crate) trait SolverBodyAccess",
            "impl SolverBodyAccess for [SolverBody]",
        ],
    ),
];

const PCG: &str = "crates/kapitsa-core/src/joint/solver/pcg.rs";

fn main() {
    let arguments: Vec<String> = std::env::args().collect();
    let (source, output) = (Path::new(&arguments[1]), Path::new(&arguments[2]));
    for (name, from, heads) in CUTS {
        let text = read(&source.join(from));
        let items: Vec<&str> = heads.iter().map(|head| cut(&text, head, from)).collect();
        write(&output.join(name), &wrap(name, &items.join("\n")));
    }
    write(&output.join("pcg_untimed.rs"), &without_timers(&read(&source.join(PCG))));
}

/// Methods need their `impl` around them, statements a function; everything else stands by itself.
fn wrap(name: &str, items: &str) -> String {
    match name {
        "solver_mass_methods.rs" => format!("impl SolverMass {{\n{items}}}\n"),
        "next_center.rs" => format!("{NEXT_CENTER} {{\n{items}        Ok(next_center)\n}}\n"),
        _ => items.to_string(),
    }
}

const NEXT_CENTER: &str =
    "fn next_center(cached: SolverMass, linear_impulse: Vec3) -> Result<Vec3, BodyError>";

/// The item whose head line begins with `head`: its attributes and comments,
/// its head, and everything to the brace that closes it.
fn cut<'a>(text: &'a str, head: &str, from: &str) -> &'a str {
    let begins = line_starts(text).filter(|&at| begins_item(&text[at..], head)).collect::<Vec<_>>();
    if begins.len() != 1 {
        fail(&format!("{from}: '{head}' was found {} times, not once", begins.len()));
    }
    let statement = head.trim_start().starts_with("let ");
    let end = if statement { semicolon(text, begins[0]) } else { closing_brace(text, begins[0]) };
    &text[with_attributes(text, begins[0])..end]
}

/// `head` ends at a name's end, so `struct SolverMass` is not `struct SolverMassSlot`.
fn begins_item(line: &str, head: &str) -> bool {
    line.strip_prefix(head).is_some_and(|rest| {
        head.ends_with(['(', '<', ']']) || rest.starts_with([' ', '<', '{', '\n'])
    })
}

fn line_starts(text: &str) -> impl Iterator<Item = usize> + '_ {
    std::iter::once(0).chain(text.match_indices('\n').map(|(at, _)| at + 1))
}

/// Walks back over the attribute and comment lines right above an item.
fn with_attributes(text: &str, mut start: usize) -> usize {
    while start > 0 {
        let above = text[..start - 1].rfind('\n').map_or(0, |at| at + 1);
        let line = text[above..start].trim_start();
        if !line.starts_with("#[") && !line.starts_with("///") {
            break;
        }
        start = above;
    }
    start
}

/// The place after the line of the brace that closes the first one opened.
/// The items named above hold no brace in a string or a comment.
fn closing_brace(text: &str, start: usize) -> usize {
    let mut depth = 0;
    for (at, byte) in text.bytes().enumerate().skip(start) {
        match byte {
            b'{' => depth += 1,
            b'}' if depth == 1 => return (at + 2).min(text.len()),
            b'}' => depth -= 1,
            _ => {}
        }
    }
    fail("an item is not closed")
}

/// The place after the line of the statement's end: those named above hold no block.
fn semicolon(text: &str, start: usize) -> usize {
    text[start..].find(";\n").map_or_else(|| fail("a statement does not end"), |at| start + at + 2)
}

/// pcg.rs reads its clock in lines that do nothing else.
fn without_timers(text: &str) -> String {
    text.split_inclusive('\n')
        .filter(|line| !line.contains("Instant::now();") && !line.contains(".elapsed();"))
        .collect()
}

fn read(path: &Path) -> String {
    fs::read_to_string(path).unwrap_or_else(|error| fail(&format!("{}: {error}", path.display())))
}

fn write(path: &Path, text: &str) {
    fs::write(path, text).unwrap_or_else(|error| fail(&format!("{}: {error}", path.display())))
}

fn fail(message: &str) -> ! {
    eprintln!("oracle: {message}");
    std::process::exit(1)
}
