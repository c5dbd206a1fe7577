//! Prints the members of a type: `members CTF NAME`.

use ctfd::Dictionary;
use std::env;
use std::error::Error;

fn main() -> Result<(), Box<dyn Error>> {
    let words: Vec<String> = env::args().collect();
    let [_, file, name] = &words[..] else {
        return Err("usage: members CTF NAME".into());
    };
    let types = Dictionary::open(&std::fs::read(file)?)?;
    let found = types.find(name)?;
    println!("{found}: {} bytes", found.size()?);
    for member in found.members()? {
        println!("{:5} {member}", member.offset / 8);
    }
    Ok(())
}
