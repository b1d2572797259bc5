//! The second program's listing of every example is the file .out beside it.

use std::fs;
use std::path::Path;

/// Lists the examples of a folder; answers how many there are.
fn list_all(folder: &Path) -> usize {
    let mut count = 0;
    for entry in fs::read_dir(folder).expect("the folder of examples") {
        let out = entry.expect("an example").path();
        if out.extension().is_none_or(|extension| extension != "out") {
            continue;
        }
        let read = |extension| fs::read(out.with_extension(extension)).expect("a file of an example");
        let listing = second::list(&read("cfg"), &read("dat"));
        assert_eq!(listing.as_bytes(), read("out"), "{}", out.display());
        count += 1;
    }
    count
}

#[test]
fn the_second_program_lists_the_examples() {
    let examples = Path::new(env!("CARGO_MANIFEST_DIR")).join("../examples");
    assert!(list_all(&examples) > 0);
    assert!(list_all(&examples.join("refusals")) > 0);
}
