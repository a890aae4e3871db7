//! The scenarios of the repository: each report and status, and that their runs are sound.

use reference::program;
use reference::values::Dials;
use std::path::{Path, PathBuf};

fn scenarios() -> Vec<PathBuf> {
    let folder = Path::new(env!("CARGO_MANIFEST_DIR")).join("../scenarios");
    let all = std::fs::read_dir(folder).expect("the folder is there");
    let mut found: Vec<PathBuf> = all
        .map(|entry| entry.expect("an entry").path())
        .filter(|path| path.extension().is_some_and(|end| end == "scatter"))
        .collect();
    found.sort();
    found
}

fn read(path: &Path) -> Vec<u8> {
    std::fs::read(path).unwrap_or_else(|e| panic!("{}: {e}", path.display()))
}

/// The status that a scenario ends with: 0 where no file has another one.
fn status_of(path: &Path) -> u8 {
    let text = std::fs::read_to_string(path.with_extension("status")).unwrap_or_else(|_| "0".to_string());
    text.trim().parse().expect("a status")
}

#[test]
fn each_scenario_has_its_report_and_status() {
    let all = scenarios();
    assert!(all.len() > 80);
    for path in all {
        let done = program::run(&read(&path), &Dials::RULES);
        assert_eq!(done.status, status_of(&path), "{}", path.display());
        assert!(done.output == read(&path.with_extension("report")), "{}", path.display());
    }
}

#[test]
fn stored_journals_of_scenarios_are_explained() {
    for path in scenarios() {
        let stored = program::journal(&read(&path), &Dials::RULES);
        let explained = program::explain(&stored.output, &Dials::RULES);
        assert_eq!(explained.status, if stored.status == 3 { 3 } else { 0 }, "{}", path.display());
    }
}

#[test]
fn stored_explanations_are_those_of_the_journals() {
    let mut count = 0;
    for path in scenarios() {
        let Ok(wanted) = std::fs::read(path.with_extension("explain")) else { continue };
        let stored = program::journal(&read(&path), &Dials::RULES);
        let explained = program::explain(&stored.output, &Dials::RULES);
        assert_eq!(explained.status, 0, "{}", path.display());
        assert!(explained.output == wanted, "{}", path.display());
        count += 1;
    }
    assert!(count >= 25, "{count} stored explanations");
}

#[test]
fn small_scenarios_are_sound() {
    for path in scenarios() {
        let input = read(&path);
        let loss = path.file_name().is_some_and(|name| name.to_string_lossy().starts_with("loss_"));
        if !loss && input.len() < 3000 {
            let done = program::sound(&input, &Dials::RULES);
            assert!(matches!(done.status, 0 | 3), "{}", path.display());
        }
    }
}
