//! Words of a command: what stands by itself, and options.

use crate::failure::Failure;
use crate::help::wrong_form;

pub struct Arguments {
    pub words: Vec<String>,
    options: Vec<(String, String)>,
}

impl Arguments {
    /// Sorts the words. `valued` options take the next word (or what follows `=`), `flags` take none; --json is a flag of
    /// every command.
    pub fn sorted(given: &[String], valued: &[&str], flags: &[&str]) -> Result<Arguments, Failure> {
        let mut arguments = Arguments { words: Vec::new(), options: Vec::new() };
        let mut rest = given.iter();
        while let Some(word) = rest.next() {
            if !word.starts_with("--") {
                arguments.words.push(word.clone());
                continue;
            }
            let (name, value) = match word.split_once('=') {
                Some((name, value)) => (name, Some(value.to_string())),
                None => (word.as_str(), None),
            };
            let value = if (flags.contains(&name) || name == "--json") && value.is_none() {
                String::new()
            } else if valued.contains(&name) {
                let next = value.or_else(|| rest.next().filter(|next| !next.starts_with("--")).cloned());
                next.ok_or_else(|| Failure::Use(format!("{name} wants a value")))?
            } else {
                return Err(Failure::Use(format!("this command has no option {word}")));
            };
            if arguments.flag(name) {
                return Err(Failure::Use(format!("{name} is given twice")));
            }
            arguments.options.push((name.to_string(), value));
        }
        Ok(arguments)
    }

    pub fn option(&self, name: &str) -> Option<&str> {
        self.options.iter().find(|(known, _)| known == name).map(|(_, value)| value.as_str())
    }

    pub fn flag(&self, name: &str) -> bool {
        self.option(name).is_some()
    }

    pub fn number(&self, name: &str) -> Result<Option<i64>, Failure> {
        self.option(name).map(|value| whole_number(value, name)).transpose()
    }

    /// Wrong use of this command unless there are `least` to `most` words.
    pub fn count(&self, least: usize, most: usize, command: &str) -> Result<(), Failure> {
        if (least..=most).contains(&self.words.len()) {
            return Ok(());
        }
        Err(wrong_form(command))
    }

    /// Wrong use if more than one of these options is given.
    pub fn at_most_one(&self, names: &[&str]) -> Result<(), Failure> {
        let given: Vec<&str> = names.iter().filter(|name| self.flag(name)).copied().collect();
        match given[..] {
            [first, second, ..] => Err(Failure::Use(format!("give {first} or {second}, not both"))),
            _ => Ok(()),
        }
    }
}

/// A whole number of 64 bits.
pub fn whole_number(word: &str, what: &str) -> Result<i64, Failure> {
    word.parse().map_err(|_| Failure::Use(format!("{what}: `{word}` is not a whole number of 64 bits")))
}
