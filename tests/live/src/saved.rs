//! Hatch lists that are written and read again, and that are read and written again.

use crate::ask::Args;
use crate::inputs::{Inputs, damage};
use crate::pairs::named;
use crate::random::Random;
use bagnoszyk::hatch;

/// Records at the limits: none, one, the most, and one more.
const RECORDS: [usize; 4] = [0, 1, 2000, 2001];

pub fn run(seed: u64, count: u64) -> Result<(), String> {
    println!(
        "hatch.write, hatch.write_floats {} lists at the limits, no difference",
        limits(seed)?
    );
    // Another seed, so that these are not the inputs on which the writer was compared.
    let mut records = Inputs::new(named("hatch.write")?.row, seed.wrapping_add(1));
    let mut random = Random::new(seed, "saved");
    let (mut files, mut refused) = (0, 0);
    while files < count {
        let patterns = &records.next().patterns;
        if patterns.len() / 8 <= 2000 {
            let mut file = written(patterns)?;
            damage(&mut file, &mut random);
            files += 1;
            refused += u64::from(!rewritten(&file)?);
        }
    }
    println!(
        "hatch.write, hatch.read {files} files, no difference; {refused} damaged ones refused"
    );
    if count > 100 && (refused == 0 || refused == files) {
        return Err("of the damaged files none is refused, or none is read".to_string());
    }
    Ok(())
}

/// The file of these records; an error if reading it does not give them.
fn written(patterns: &[u32]) -> Result<Vec<u8>, String> {
    let whole = &patterns[..patterns.len() / 8 * 8];
    let mut file = vec![0; 7 + 4 * whole.len()];
    let mut read = vec![0; whole.len()];
    let size = hatch::write_patterns(patterns, &mut file);
    let records = hatch::read_patterns(&file, &mut read);
    let accepted = records.is_ok_and(|r| r.version == 1 && 8 * r.count == whole.len());
    if size == Ok(file.len()) && accepted && read == whole {
        return Ok(file);
    }
    Err(format!("{patterns:08x?} is written as {file:02x?} and reads as {read:08x?}"))
}

/// Whether a file is read. An error if the plain reader decides otherwise, or if what is read and written again is another file.
fn rewritten(file: &[u8]) -> Result<bool, String> {
    let mut read = vec![0; file.len()];
    let records = hatch::read_patterns(file, &mut read);
    if records.is_ok() != hatch_list::read(file, read.len()).is_ok() {
        return Err(format!("{file:02x?} is read otherwise than it should be"));
    }
    let Ok(records) = records else { return Ok(false) };
    let mut again = vec![0; file.len()];
    let size = hatch::write_patterns(&read[..8 * records.count], &mut again);
    if size == Ok(file.len()) && again == file {
        return Ok(true);
    }
    Err(format!("{file:02x?} is read and written as {again:02x?}"))
}

/// How many lists of records were compared: at the limits, with up to seven entries that make no record, for a list of no byte, one that is a
/// byte short, one that is exact, and longer ones.
fn limits(seed: u64) -> Result<usize, String> {
    let writers = [named("hatch.write")?, named("hatch.write_floats")?];
    let mut random = Random::new(seed, "limits");
    let mut count = 0;
    for records in RECORDS {
        let size = 7 + 32 * records as u64;
        for entries in 8 * records..8 * records + 8 {
            let patterns: Vec<_> = (0..entries).map(|_| random.bits() as u32).collect();
            let floats = patterns.iter().map(|p| f32::from_bits(*p)).collect();
            let mut args = Args { floats, patterns, ..Args::default() };
            for room in [0, size - 1, size, size + 1, size + 40, u64::MAX] {
                args.wholes = vec![room];
                writers.iter().try_for_each(|writer| writer.compare(&args))?;
                count += 1;
            }
        }
    }
    Ok(count)
}
