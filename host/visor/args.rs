//! A command line, taken apart option by option.

use crate::command::Failure;
use std::ffi::OsString;

/// What stands after a command's name. A command takes the options that it knows; what is left are
/// its operands.
pub struct Args {
    left: Vec<OsString>,
    /// After `--`: operands, whatever they look like.
    plain: Vec<OsString>,
}

impl Args {
    pub fn new(mut arguments: Vec<OsString>) -> Args {
        let end = arguments.iter().position(|argument| argument == "--");
        let mut plain = Vec::new();
        if let Some(end) = end {
            plain = arguments.split_off(end);
            plain.remove(0);
        }
        Args {
            left: arguments,
            plain,
        }
    }

    /// Whether an option without a value is there.
    pub fn flag(&mut self, name: &str) -> bool {
        let before = self.left.len();
        self.left.retain(|argument| argument != name);
        self.left.len() < before
    }

    /// The value of an option, `--name value` or `--name=value`.
    pub fn value(&mut self, name: &str) -> Result<Option<OsString>, Failure> {
        let mut found = None;
        while let Some((at, joined)) = self.place(name) {
            if found.is_some() {
                return Err(Failure::Use(format!("{name} is given twice")));
            }
            self.left.remove(at);
            found = Some(match joined {
                Some(value) => value,
                None if at < self.left.len() => self.left.remove(at),
                None => return Err(Failure::Use(format!("{name} wants a value"))),
            });
        }
        Ok(found)
    }

    /// The same as text.
    pub fn text(&mut self, name: &str) -> Result<Option<String>, Failure> {
        let value = self.value(name)?;
        let text = value.map(|value| {
            value
                .into_string()
                .map_err(|_| Failure::Use(format!("the value of {name} is no text")))
        });
        text.transpose()
    }

    /// Where an option stands, and its value if that is joined to it.
    fn place(&self, name: &str) -> Option<(usize, Option<OsString>)> {
        self.left.iter().enumerate().find_map(|(at, argument)| {
            if argument == name {
                return Some((at, None));
            }
            let value = argument.to_str()?.strip_prefix(name)?.strip_prefix('=')?;
            Some((at, Some(value.into())))
        })
    }

    /// The operands, as many as wanted: `names` says what they are. An option that no one took is
    /// wrong use.
    pub fn operands<const N: usize>(self, names: &str) -> Result<[OsString; N], Failure> {
        let operands = self.any_operands()?;
        let found = operands.len();
        operands.try_into().map_err(|_| {
            let few = if found < N { "few" } else { "many" };
            Failure::Use(format!("too {few} operands: {names} is wanted"))
        })
    }

    pub fn any_operands(self) -> Result<Vec<OsString>, Failure> {
        let mut operands = self.left;
        let option = |argument: &&OsString| {
            let text = argument.to_string_lossy();
            // What begins as a negative number is no option.
            let name = text.strip_prefix('-').filter(|name| !name.is_empty());
            name.is_some_and(|name| !name.starts_with(|letter: char| letter.is_ascii_digit()))
        };
        let unknown = operands.iter().find(option);
        if let Some(unknown) = unknown {
            let name = unknown.to_string_lossy();
            return Err(Failure::Use(format!("there is no option {name}")));
        }
        operands.extend(self.plain);
        Ok(operands)
    }
}

#[cfg(test)]
mod tests {
    use super::*;

    fn args(words: &str) -> Args {
        Args::new(words.split_whitespace().map(OsString::from).collect())
    }

    #[test]
    fn options_in_any_order() {
        let mut a = args("one --as hex --json two --mode=3");
        assert_eq!(a.text("--as").unwrap().as_deref(), Some("hex"));
        assert_eq!(a.text("--mode").unwrap().as_deref(), Some("3"));
        assert!(a.flag("--json"));
        assert!(!a.flag("--json"));
        assert_eq!(a.operands::<2>("TWO FILES").unwrap(), ["one", "two"]);
    }

    #[test]
    fn wrong_use_is_named() {
        let said = |failure: Failure| match failure {
            Failure::Use(said) => said,
            other => panic!("{other:?}"),
        };
        assert_eq!(
            said(args("--as").value("--as").unwrap_err()),
            "--as wants a value"
        );
        assert_eq!(
            said(args("--as a --as=b").value("--as").unwrap_err()),
            "--as is given twice"
        );
        assert_eq!(
            said(args("--what x").operands::<1>("FILE").unwrap_err()),
            "there is no option --what"
        );
        assert_eq!(
            said(args("-x1").operands::<1>("FILE").unwrap_err()),
            "there is no option -x1"
        );
        assert_eq!(
            said(args("").operands::<1>("FILE").unwrap_err()),
            "too few operands: FILE is wanted"
        );
        assert_eq!(
            said(args("a b").operands::<1>("FILE").unwrap_err()),
            "too many operands: FILE is wanted"
        );
    }

    #[test]
    fn negative_numbers_are_operands() {
        assert_eq!(
            args("-5 -0x7").operands::<2>("TWO").unwrap(),
            ["-5", "-0x7"]
        );
    }

    #[test]
    fn after_two_dashes_all_are_operands() {
        let mut a = args("- -- --json");
        assert!(!a.flag("--json"));
        assert_eq!(a.operands::<2>("TWO").unwrap(), ["-", "--json"]);
    }
}
