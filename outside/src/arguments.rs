//! Command-line arguments that the programs share.

/// What was asked for.
pub struct Arguments {
    /// Where all choices come from.
    pub seed: u64,
    /// How long to go on, if no number of cases is given.
    pub seconds: u64,
    /// How many cases.
    pub cases: Option<u64>,
    /// Whether everything must come up.
    pub full: bool,
    /// What has no name.
    pub rest: Vec<String>,
}

impl Arguments {
    /// Reads them; an argument that can't be read ends the program.
    pub fn read() -> Self {
        let mut arguments = Arguments {
            seed: 1,
            seconds: 20,
            cases: None,
            full: false,
            rest: Vec::new(),
        };
        let mut words = std::env::args().skip(1);
        let number = |word: Option<String>| -> u64 {
            let text = word.expect("a number after the name");
            text.parse().expect("a number after the name")
        };
        while let Some(word) = words.next() {
            match word.as_str() {
                "--seed" => arguments.seed = number(words.next()),
                "--seconds" => arguments.seconds = number(words.next()),
                "--cases" => arguments.cases = Some(number(words.next())),
                "--full" => arguments.full = true,
                _ => arguments.rest.push(word),
            }
        }
        arguments
    }
}
