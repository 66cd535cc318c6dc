//! The stored cases of the program: this reader prints for each input what is stored as its output.

use std::fs;
use std::path::Path;

#[test]
fn the_stored_cases_print_alike() {
    let folder = Path::new(env!("CARGO_MANIFEST_DIR")).join("../../cases");
    let mut seen = 0;
    for entry in fs::read_dir(&folder).expect("the folder of cases") {
        let input = entry.expect("an entry of the folder").path();
        if input.extension().is_none_or(|extension| extension != "in") {
            continue;
        }
        let stream = fs::read(&input).expect("an input");
        let stored = fs::read_to_string(input.with_extension("out")).expect("its output");
        assert_eq!(second_reader::print(&stream), stored, "{}", input.display());
        seen += 1;
    }
    assert!(seen >= 20, "only {seen} cases");
}
