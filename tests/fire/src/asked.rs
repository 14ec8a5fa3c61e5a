//! What the words of the command line ask for.

use crate::checks::{Check, CHECKS, MANY_VISITS};

pub const USAGE: &str = "usage:
  fire --vectors FILE --seed S --count N [--visits] [--only NAME]...
where a NAME is that of a check, as in the table CHECKS";

pub struct Asked<'a> {
    pub vectors: &'a str,
    pub seed: u64,
    /// How many traces are generated.
    pub count: u64,
    pub checks: Vec<Check>,
    /// They are only those that were named.
    pub only_named: bool,
}

impl<'a> Asked<'a> {
    /// None where the words are not as the usage says.
    pub fn by(words: &[&'a str]) -> Option<Asked<'a>> {
        let ["--vectors", vectors, "--seed", seed, "--count", count, options @ ..] = words else {
            return None;
        };
        let (mut visits, mut names) = (false, Vec::new());
        let mut options = options.iter();
        while let Some(option) = options.next() {
            match *option {
                "--visits" => visits = true,
                "--only" => names.push(*options.next()?),
                _ => return None,
            }
        }
        Some(Asked {
            vectors,
            seed: seed.parse().ok()?,
            count: count.parse().ok()?,
            checks: chosen(visits, &names)?,
            only_named: !names.is_empty(),
        })
    }
}

/// All checks, or, where there are names, those of them; none where a name is
/// not that of a check.
fn chosen(visits: bool, names: &[&str]) -> Option<Vec<Check>> {
    let visits = visits.then_some(MANY_VISITS);
    let mut checks: Vec<Check> = CHECKS.into_iter().chain(visits).collect();
    let known = |name: &&str| checks.iter().any(|check| check.name == *name);
    if !names.iter().all(known) {
        return None;
    }
    checks.retain(|check| names.is_empty() || names.contains(&check.name));
    Some(checks)
}

#[cfg(test)]
mod tests {
    use super::*;

    const WORDS: [&str; 6] = ["--vectors", "file", "--seed", "7", "--count", "9"];

    /// The names of the checks that are made with these words more.
    fn names(more: &[&str]) -> Option<Vec<&'static str>> {
        let words = [&WORDS, more].concat();
        let checks = Asked::by(&words)?.checks;
        Some(checks.iter().map(|check| check.name).collect())
    }

    #[test]
    fn all_checks_are_made_unless_some_are_named() {
        let asked = Asked::by(&WORDS).unwrap();
        assert_eq!((asked.vectors, asked.seed, asked.count), ("file", 7, 9));
        assert!(!asked.only_named);
        let all: Vec<&str> = CHECKS.iter().map(|check| check.name).collect();
        assert_eq!(names(&[]).unwrap(), all);
        let and_visits = names(&["--visits"]).unwrap();
        assert_eq!(and_visits, [&all[..], &[MANY_VISITS.name]].concat());
        let two = ["--only", all[4], "--only", all[1]];
        assert_eq!(names(&two).unwrap(), [all[1], all[4]]);
        assert!(Asked::by(&[&WORDS[..], &two].concat()).unwrap().only_named);
        let visits = ["--only", MANY_VISITS.name, "--visits"];
        assert_eq!(names(&visits).unwrap(), [MANY_VISITS.name]);
    }

    #[test]
    fn other_words_are_wrong_use() {
        let name = CHECKS[0].name;
        for more in [
            &["--only"][..],
            &["--only", ""],
            &["--only", "no check"],
            &["--only", name, "--only", "no check"],
            &["--only", MANY_VISITS.name],
            &["--more"],
            &[name],
        ] {
            assert_eq!(names(more), None);
        }
        assert!(Asked::by(&WORDS[..4]).is_none());
        assert!(Asked::by(&["--vectors", "file", "--seed", "x", "--count", "9"]).is_none());
    }
}
