//! Writes the examples' call lists into the folder `examples` of the repository.

use bucketlines::examples::examples;
use bucketlines::hex_text;
use bucketlines::program::in_repository;

fn main() -> std::io::Result<()> {
    for example in examples() {
        let path = in_repository("examples").join(format!("{}.hex", example.name));
        std::fs::write(path, hex_text::text(example.title, &example.list))?;
    }
    Ok(())
}
