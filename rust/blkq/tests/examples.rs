//! Compares each script and schedule of the repository's examples/ with its .answer file.
use blkq::Config;
use std::fs;
use std::path::{Path, PathBuf};

/// The files of one kind, each with its answer.
fn examples(kind: &str) -> Vec<(PathBuf, Vec<u8>, Vec<u8>)> {
    let folder = Path::new(env!("CARGO_MANIFEST_DIR")).join("../../examples");
    let files = fs::read_dir(folder).unwrap().map(|entry| entry.unwrap().path());
    let of_kind = files.filter(|path| path.extension().is_some_and(|end| end == kind));
    of_kind
        .map(|path| (path.clone(), fs::read(&path).unwrap(), fs::read(path.with_extension("answer")).unwrap()))
        .collect()
}

#[test]
fn scripts() {
    let scripts = examples("blkq");
    assert!(scripts.len() > 5);
    for (path, script, answer) in scripts {
        for config in [Config::default(), Config::new(1, 1, 1).unwrap(), Config::new(32, 64, 63).unwrap()] {
            assert_eq!(blkq::run(&script, config).as_ref(), Ok(&answer), "{}", path.display());
        }
    }
}

#[test]
fn schedules() {
    let schedules = examples("gate");
    assert!(schedules.len() > 5);
    for (path, schedule, answer) in schedules {
        let replay = blkq::replay(&schedule).unwrap();
        assert_eq!(replay.text(), answer, "{}", path.display());
        let last = answer.strip_suffix(b"\n").unwrap().rsplit(|byte| *byte == b'\n').next().unwrap();
        assert_eq!(replay.is_stuck(), last.starts_with(b"stuck"));
    }
}
