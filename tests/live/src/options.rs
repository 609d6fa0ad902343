//! The options of a run.

pub struct Options {
    /// Decides every random input.
    pub seed: u64,
    /// How many inputs for each routine; each mode has its own number if it is not given.
    pub count: Option<u64>,
    /// Only the routines whose names begin so.
    pub only: String,
}

impl Options {
    pub fn parse(mut words: impl Iterator<Item = String>) -> Result<Self, String> {
        let mut options = Options { seed: 1, count: None, only: String::new() };
        while let Some(option) = words.next() {
            let value = words.next().ok_or(format!("{option} needs a value"))?;
            let number = || value.parse().map_err(|_| format!("not a number: {value}"));
            match option.as_str() {
                "--seed" => options.seed = number()?,
                "--count" => options.count = Some(number()?),
                "--only" => options.only = value,
                _ => return Err(format!("no such option: {option}")),
            }
        }
        Ok(options)
    }
}
