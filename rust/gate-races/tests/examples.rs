//! Compares each race of the repository's examples/races with its .answer file.
use std::fs;
use std::path::Path;

#[test]
fn races() {
    let folder = Path::new(env!("CARGO_MANIFEST_DIR")).join("../../examples/races");
    let mut tried = 0;
    for entry in fs::read_dir(folder).unwrap() {
        let path = entry.unwrap().path();
        if path.extension().is_some_and(|end| end == "races") {
            let (race, answer) = (fs::read(&path).unwrap(), fs::read(path.with_extension("answer")).unwrap());
            assert_eq!(gate_races::outcomes(&race).as_ref(), Ok(&answer), "{}", path.display());
            tried += 1;
        }
    }
    assert!(tried > 2);
}
