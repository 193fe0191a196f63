//! What a call of a program that compares asks for.

/// What can be asked for.
pub struct Choice {
    /// What a wrong call is told.
    pub usage: &'static str,
    /// The option for how many.
    pub count: &'static str,
    /// How many, if it isn't given.
    pub default: u64,
    /// The names of the families.
    pub families: Vec<&'static str>,
}

pub struct Ask {
    pub seed: u64,
    count: u64,
    families: usize,
    pub family: Option<usize>,
    number: Option<u64>,
    pub command: Vec<String>,
}

impl Ask {
    /// Nothing, if the call is wrong.
    pub fn from(choice: &Choice, mut args: impl Iterator<Item = String>) -> Option<Ask> {
        let mut ask = Ask {
            seed: 1,
            count: choice.default,
            families: choice.families.len(),
            family: None,
            number: None,
            command: Vec::new(),
        };
        while let Some(arg) = args.next() {
            match arg.as_str() {
                "--seed" => ask.seed = args.next()?.parse().ok()?,
                "--number" => ask.number = Some(args.next()?.parse().ok()?),
                "--family" => {
                    let name = args.next()?;
                    let at = choice.families.iter().position(|family| *family == name);
                    ask.family = Some(at?);
                }
                "--" => ask.command.extend(args.by_ref()),
                option if option == choice.count => ask.count = args.next()?.parse().ok()?,
                option if option.starts_with('-') => return None,
                _ => {
                    ask.command.push(arg);
                    ask.command.extend(args.by_ref());
                }
            }
        }
        // A comparison of nothing would pass any panel.
        let nothing = ask.count() == 0;
        let number_of_no_family = ask.number.is_some() && ask.family.is_none();
        let wrong = ask.command.is_empty() || nothing || number_of_no_family;
        (!wrong).then_some(ask)
    }

    pub fn count(&self) -> u64 {
        self.number.map_or(self.count, |_| 1)
    }

    /// Family and number of each that is asked for, the families by turns.
    pub fn each(&self) -> impl Iterator<Item = (usize, u64)> {
        let families: Vec<usize> = match self.family {
            Some(family) => vec![family],
            None => (0..self.families).collect(),
        };
        let (first, turns) = (self.number.unwrap_or(0), families.len() as u64);
        (0..self.count()).map(move |i| (families[(i % turns) as usize], first + i / turns))
    }
}

#[cfg(test)]
mod tests {
    use super::*;

    fn ask(call: &str) -> Option<Ask> {
        let choice = Choice {
            usage: "",
            count: "--sheets",
            default: 4000,
            families: vec!["chains", "mix", "bytes"],
        };
        Ask::from(&choice, call.split_whitespace().map(String::from))
    }

    #[test]
    fn the_command_keeps_its_options() {
        let ask = ask("--seed 7 --sheets 28 panel --seed 8").expect("a right call");
        assert_eq!(
            (ask.seed, ask.command.join(" ").as_str()),
            (7, "panel --seed 8")
        );
    }

    #[test]
    fn families_have_their_turns() {
        let each = ask("--sheets 6 panel").expect("a right call").each();
        let turns = [(0, 0), (1, 0), (2, 0), (0, 1), (1, 1), (2, 1)];
        assert_eq!(each.collect::<Vec<_>>(), turns);
    }

    #[test]
    fn one_can_be_asked_for_again() {
        let each = ask("--family mix --number 3 panel")
            .expect("a right call")
            .each();
        assert_eq!(each.collect::<Vec<_>>(), [(1, 3)]);
    }

    #[test]
    fn wrong_calls_are_seen() {
        for call in [
            "",
            "--seed x panel",
            "--sheets 0 panel",
            "--texts 3 panel",
            "--family none panel",
            "--number 3 panel",
            "--what",
        ] {
            assert!(ask(call).is_none(), "{call}");
        }
    }
}
