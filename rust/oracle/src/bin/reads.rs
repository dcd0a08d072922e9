//! Writes reads.in and reads.out into the folder named.

use std::path::PathBuf;

fn main() -> std::io::Result<()> {
    let folder = PathBuf::from(std::env::args().nth(1).expect("the folder for reads.in and reads.out"));
    let list = oracle::list::list();
    std::fs::write(folder.join("reads.in"), list.reads.join("\n") + "\n")?;
    std::fs::write(folder.join("reads.out"), list.answers.join("\n") + "\n")
}
