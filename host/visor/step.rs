//! A plan's text, line by line, as bgplan and `visor plan --raw` print it.

use crate::fields::{self, Part};
use visorlongan::{End, ENTRY_WORDS};

/// One answer of a plan: an entry's words, or the end's numbers.
#[derive(Clone, Copy, Debug, PartialEq, Eq)]
pub enum Step {
    Entry([u64; ENTRY_WORDS]),
    End([u64; 4]),
}

/// A step's kind, and its numbers with their names.
pub type Told = (&'static str, Vec<(&'static Part, String)>);

/// The kind of an end, where it is printed (9.7).
const END: u64 = 9;

impl Step {
    /// The step of a plan's line.
    pub fn parse(line: &str) -> Option<Step> {
        let number = |text: &str| {
            let number: i128 = text.parse().ok()?;
            let signed = i64::try_from(number).map(|number| number as u64);
            signed.or(u64::try_from(number)).ok()
        };
        let words: Option<Vec<u64>> = line.split_whitespace().map(number).collect();
        let words = words?;
        let (kind, numbers) = words.split_first()?;
        if *kind == END {
            return Some(Step::End(numbers.try_into().ok()?));
        }
        if fields::kind(*kind)?.parts.len() != numbers.len() {
            return None;
        }
        let mut entry = [0; ENTRY_WORDS];
        entry[..words.len()].copy_from_slice(&words);
        Some(Step::Entry(entry))
    }

    pub fn told(&self) -> Told {
        let told = |parts: &'static [Part], words: &[u64]| {
            let numbers = parts.iter().zip(words);
            numbers
                .map(|(part, word)| (part, part.text(*word)))
                .collect()
        };
        match self {
            Step::Entry(words) => match fields::kind(words[0]) {
                Some(kind) => (kind.name, told(kind.parts, &words[1..])),
                None => ("none", Vec::new()),
            },
            Step::End(words) => ("end", told(fields::END, words)),
        }
    }
}

impl From<End> for Step {
    fn from(end: End) -> Step {
        let verdict = end.verdict.number();
        Step::End([verdict, end.entries, end.rectangles, end.tile_words])
    }
}

/// Whether a text is a plan's, by its first line.
pub fn begins_plan(text: &str) -> bool {
    let first = text.lines().find(|line| !line.trim().is_empty());
    first.is_some_and(|line| Step::parse(line).is_some())
}

#[cfg(test)]
mod tests {
    use super::*;

    #[test]
    fn lines_of_a_plan() {
        let image = Step::parse(" 1       0       2      15                 4096").unwrap();
        assert_eq!(image, Step::Entry([1, 0, 2, 15, 4096, 0, 0, 0, 0, 0, 0]));
        let rect = " 5 0 0 0 60 4 -32 0 4096 1024 0";
        let Some(Step::Entry(words)) = Step::parse(rect) else {
            panic!("an entry");
        };
        assert_eq!(words[6] as i64, -32);
        assert_eq!(Step::parse(" 9 0 6 1 8"), Some(Step::End([0, 6, 1, 8])));
        let most = format!("1 0 2 15 {}", u64::MAX);
        assert!(Step::parse(&most).is_some());
        let more = "1 0 2 15 18446744073709551616";
        for line in [
            "",
            "1 0 2 15",
            "1 0 2 15 4096 0",
            "6 0",
            "9 0 6 1",
            "x 0",
            more,
        ] {
            assert_eq!(Step::parse(line), None, "{line}");
        }
        assert!(begins_plan("\n 9 2 0 0 0\n") && !begins_plan("0000 0500\n"));
    }
}
