//! The refusals held to docs/refusals.tsv, line by line, where the repository is around the package.

use kapitsa::Refusal;
use std::error::Error;
use std::path::Path;

#[test]
fn the_table() {
    let path = Path::new(env!("CARGO_MANIFEST_DIR")).join("../../docs/refusals.tsv");
    if !path.is_file() {
        eprintln!("no table beside the package: nothing is compared");
        return;
    }
    let table = std::fs::read_to_string(path).expect("it can be read");
    let mut lines = table.lines();
    assert_eq!(lines.next(), Some("number\tname\ttext\tadvice"));
    let mut refusals = Refusal::ALL.iter();
    for line in lines {
        let cells: Vec<&str> = line.split('\t').collect();
        let refusal = *refusals.next().expect("a refusal for each line");
        let name = format!("{refusal:?}");
        let told = [&refusal.number().to_string(), &name, refusal.text(), refusal.advice()];
        assert_eq!(cells, told);
        assert_eq!(Refusal::from_number(refusal.number()), Some(refusal));
    }
    assert_eq!(refusals.next(), None, "a line for each refusal");
}

#[test]
fn no_such_refusal() {
    for number in [0, 31, 255, u32::MAX] {
        assert_eq!(Refusal::from_number(number), None);
    }
}

#[test]
fn as_an_error() {
    fn fails() -> Result<(), Box<dyn Error>> {
        Err(Refusal::Immovable)?
    }
    let told = fails().unwrap_err().to_string();
    assert_eq!(told, format!("refused by 9: {}", Refusal::Immovable.text()));
    let with_advice = format!("{:#}", Refusal::Immovable);
    assert_eq!(with_advice, format!("{told} {}", Refusal::Immovable.advice()));
}
