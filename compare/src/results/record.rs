//! Writes the fixed list of scripts with the crate's transcripts.

use std::fs;
use std::io::ErrorKind;
use std::path::Path;

use crate::lists::{
    blocks, building, examples, few, generate, indexed, long, pairs, tables, worked,
};
use crate::random::Random;
use crate::results::original;
use crate::say;
use crate::script::{encode, Call, FIRST_OF_TEXTS};

/// Writes scripts in hexadecimal, one a line, to `stdin` in a folder, and the original crate's transcripts, each with
/// an empty line after it, to `stdout` there. The scripts on texts, which `javascript/run` wrote, stay at the end.
pub fn run(folder: &Path, seed: u64, cases: u64) -> std::io::Result<()> {
    let mut scripts = chosen();
    let mut random = Random::new(seed);
    scripts.extend((0..cases).map(|_| generate::script(&mut random)));
    let mut lines = String::new();
    let mut transcripts = String::new();
    for script in &scripts {
        let bytes = encode(script);
        // By its first call a script is told from one on texts.
        assert!(bytes.first() < Some(&FIRST_OF_TEXTS));
        lines.extend(bytes.iter().map(|byte| format!("{byte:02X}")));
        lines.push('\n');
        transcripts.push_str(&original::run(&bytes).transcript);
        transcripts.push('\n');
    }
    let (texts, results) = scripts_of_texts(folder)?;
    fs::write(folder.join("stdin"), lines.clone() + &texts)?;
    fs::write(folder.join("stdout"), transcripts.clone() + &results)?;
    say!(
        "{} scripts, {} bytes; transcripts, {} bytes",
        scripts.len(),
        lines.len(),
        transcripts.len()
    );
    Ok(())
}

/// The scripts of a folder from the first one on texts, and their transcripts.
fn scripts_of_texts(folder: &Path) -> std::io::Result<(String, String)> {
    let read = |name: &str| match fs::read_to_string(folder.join(name)) {
        Err(error) if error.kind() == ErrorKind::NotFound => Ok(String::new()),
        read => read,
    };
    let (lines, transcripts) = (read("stdin")?, read("stdout")?);
    // Lines that begin with a lower opcode are less as strings.
    let first = format!("{FIRST_OF_TEXTS:02X}");
    let others = lines.lines().take_while(|line| *line < &first[..]).count();
    let texts = lines.split_inclusive('\n').skip(others).collect();
    let results = transcripts.split_inclusive("\n\n").skip(others).collect();
    Ok((texts, results))
}

/// Some scripts of each list, and all of the short lists.
fn chosen() -> Vec<Vec<Call>> {
    let mut scripts = generate::edge_calls();
    let mut lists = generate::unit_lists(1);
    lists.extend([
        vec![0xD83D, 0xDCA9],
        vec![0xDCA9, 0xD83D],
        vec![0xDBFF, 0xDFFF],
    ]);
    scripts.extend(lists.iter().map(|units| generate::calls_on(units)));
    scripts.extend(building::chosen());
    scripts.extend(blocks::chosen());
    scripts.extend(long::chosen());
    scripts.extend(pairs::chosen());
    scripts.extend(few::pushed());
    scripts.extend(few::one_surrogate());
    scripts.extend(tables::encoded_lengths());
    scripts.extend(tables::ends_of_units());
    scripts.extend(examples::recorded());
    scripts.extend(worked::scripts());
    scripts.extend(indexed::worked());
    scripts.extend(indexed::chosen());
    scripts
}
