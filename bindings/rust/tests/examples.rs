//! Every example runs to its end: each holds what it finds to what it should find. `cargo test` builds them;
//! where it was told to build the tests alone there is nothing to run.

use std::env;
use std::fs;
use std::path::Path;
use std::process::Command;

#[test]
fn run_to_their_end() {
    let tests = env::current_exe().expect("this test");
    let built =
        tests.parent().and_then(Path::parent).expect("the profile's folder").join("examples");
    let sources = Path::new(env!("CARGO_MANIFEST_DIR")).join("examples");
    for source in fs::read_dir(sources).expect("there are examples") {
        let source = source.expect("a file").path();
        let program = built.join(source.file_stem().expect("a name"));
        if !program.is_file() {
            eprintln!("not built: {}", program.display());
            continue;
        }
        let ended = Command::new(&program).output().expect("it starts");
        assert!(ended.status.success(), "{}: {ended:?}", program.display());
    }
}
