//! Writes changes.in and changes.out into the folder named.

use std::path::PathBuf;

fn main() -> std::io::Result<()> {
    let folder = PathBuf::from(std::env::args().nth(1).expect("the folder for changes.in and changes.out"));
    let list = oracle::changes::list();
    std::fs::write(folder.join("changes.in"), list.changes.join("\n") + "\n")?;
    std::fs::write(folder.join("changes.out"), list.answers.join("\n") + "\n")
}
