//! Which parts to run, how many rounds, and from which seed.

#[derive(Clone, Debug, PartialEq, Eq)]
pub struct Options {
    /// Those named; all where none is.
    pub parts: Vec<&'static str>,
    /// Of each part; where not given, as many as the part has by default.
    pub rounds: Option<u64>,
    pub seed: u64,
    /// Whether to run what takes longer too.
    pub slow: bool,
}

/// How many rounds, and from which seed.
#[derive(Clone, Copy, Debug, PartialEq, Eq)]
pub struct Rounds {
    pub count: u64,
    pub seed: u64,
}

impl Options {
    /// From `[PART..] [--cases ROUNDS] [--seed SEED] [--slow]`; any other arguments end the program with a line on how to use it.
    pub fn of_program(name: &str, parts: &[&'static str]) -> Self {
        Self::parse(std::env::args().skip(1), parts).unwrap_or_else(|| {
            let parts: String = parts.iter().map(|part| format!(" [{part}]")).collect();
            eprintln!("usage: {name}{parts} [--cases ROUNDS] [--seed SEED] [--slow]");
            std::process::exit(2)
        })
    }

    fn parse(mut arguments: impl Iterator<Item = String>, parts: &[&'static str]) -> Option<Self> {
        let mut options = Options { parts: Vec::new(), rounds: None, seed: 1, slow: false };
        while let Some(argument) = arguments.next() {
            match argument.as_str() {
                "--cases" => options.rounds = Some(arguments.next()?.parse().ok()?),
                "--seed" => options.seed = arguments.next()?.parse().ok()?,
                "--slow" => options.slow = true,
                part => options.parts.push(parts.iter().find(|known| **known == part)?),
            }
        }
        if options.parts.is_empty() {
            options.parts = parts.to_vec();
        }
        Some(options)
    }

    pub fn rounds_or(&self, default: u64) -> Rounds {
        Rounds { count: self.rounds.unwrap_or(default), seed: self.seed }
    }
}

#[cfg(test)]
mod tests {
    use super::*;

    fn parsed(arguments: &[&str]) -> Option<(Vec<&'static str>, u64, u64)> {
        let options = Options::parse(arguments.iter().map(|argument| argument.to_string()), &["eggs", "ham"])?;
        let Rounds { count, seed } = options.rounds_or(7);
        Some((options.parts, count, seed))
    }

    #[test]
    fn options_are_taken_in_any_order_and_others_refused() {
        assert_eq!(parsed(&[]), Some((vec!["eggs", "ham"], 7, 1)));
        assert_eq!(parsed(&["--seed", "3", "ham", "--cases", "4"]), Some((vec!["ham"], 4, 3)));
        for wrong in [&["--cases"][..], &["--cases", "x"], &["--case", "1"], &["4"], &["egg"], &["--seed"]] {
            assert_eq!(parsed(wrong), None, "{wrong:?}");
        }
    }
}
