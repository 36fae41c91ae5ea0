//! README.md lists the lines that the build took.

/// Each line of the list stands in README.md.
#[test]
fn readme_lists_what_is_taken() {
    let path = format!("{}/../README.md", env!("CARGO_MANIFEST_DIR"));
    let readme = std::fs::read_to_string(path).expect("README.md is read");
    let listed: Vec<&str> = readme
        .lines()
        .filter(|line| line.starts_with("    src/"))
        .map(str::trim)
        .collect();
    let taken: Vec<&str> = oracle::TAKEN.lines().collect();
    assert_eq!(listed, taken);
}
