//! The command line: which command, its options, and what stands between them.

use std::ffi::{OsStr, OsString};
use std::os::unix::ffi::OsStrExt;

use crate::failure::{Failure, Outcome};
use crate::text;

/// A command, with what its help says and what carries it out.
pub struct Command {
    pub name: &'static str,
    /// One line for the list of commands.
    pub about: &'static str,
    /// What it is given, in order; what may be left out stands in brackets.
    pub places: &'static str,
    pub options: &'static [Switch],
    /// What more there is to know.
    pub details: &'static str,
    pub example: &'static str,
    pub run: Run,
}

/// What carries a command out.
pub enum Run {
    /// It is done, or it has failed.
    Plain(fn(&Arguments) -> Outcome<()>),
    /// It ends in one of several ways, each with an exit code of its own.
    Coded(fn(&Arguments) -> Outcome<i32>),
}

/// An option, with a value behind it or without.
pub struct Switch {
    pub name: &'static str,
    pub value: Option<&'static str>,
    pub about: &'static str,
}

/// What a command was given.
pub struct Arguments {
    places: Vec<OsString>,
    switches: Vec<(&'static str, OsString)>,
}

pub enum Request {
    Run(&'static Command, Arguments),
    Help(Option<&'static Command>),
    Version,
}

impl Arguments {
    /// What stands at a place; empty if it was left out.
    pub fn place(&self, index: usize) -> &OsStr {
        self.places
            .get(index)
            .map_or(OsStr::new(""), OsString::as_os_str)
    }

    /// The same for a path on a volume, which is bytes.
    pub fn path(&self, index: usize) -> &[u8] {
        self.place(index).as_bytes()
    }

    pub fn count(&self) -> usize {
        self.places.len()
    }

    pub fn has(&self, switch: &str) -> bool {
        self.value(switch).is_some()
    }

    /// The value given last, as with other tools.
    pub fn value(&self, switch: &str) -> Option<&OsStr> {
        let mut given = self.switches.iter().rev();
        let found = given.find(|(name, _)| *name == switch);
        found.map(|(_, value)| value.as_os_str())
    }

    pub fn size(&self, switch: &str) -> Outcome<Option<u64>> {
        self.value(switch)
            .map(|value| size(switch, value))
            .transpose()
    }

    /// A number that counts no bytes, so that no unit stands behind it.
    pub fn number(&self, switch: &str, greatest: u64) -> Outcome<Option<u64>> {
        self.value(switch)
            .map(|value| number(switch, value, greatest))
            .transpose()
    }
}

/// A size out of the command line.
pub fn size(what: &str, value: &OsStr) -> Outcome<u64> {
    value.to_str().and_then(text::parse_size).ok_or_else(|| {
        let value = text::quoted(value.as_bytes());
        Failure::usage(format!(
            "{} is a number of bytes, with k, M or G behind it or nothing, and not '{}'",
            what, value
        ))
    })
}

fn number(what: &str, value: &OsStr, greatest: u64) -> Outcome<u64> {
    let number = value.to_str().and_then(text::parse_number);
    number.filter(|number| *number <= greatest).ok_or_else(|| {
        let value = text::quoted(value.as_bytes());
        Failure::usage(format!(
            "{} is a number from 0 to {}, and not '{}'",
            what, greatest, value
        ))
    })
}

pub fn parse(
    commands: &'static [Command],
    words: impl Iterator<Item = OsString>,
) -> Outcome<Request> {
    let mut words = words;
    let first = match words.next() {
        Some(first) => first,
        None => return Err(Failure::usage("which command? Try 'lentil --help'")),
    };
    match first.as_bytes() {
        b"--help" | b"-h" => return Ok(Request::Help(None)),
        b"--version" => return Ok(Request::Version),
        _ => (),
    }
    match commands.iter().find(|command| first == command.name) {
        Some(command) => command.parse(words),
        None => Err(Failure::usage(format!(
            "there is no command '{}'. Try 'lentil --help'",
            text::quoted(first.as_bytes())
        ))),
    }
}

impl Command {
    fn parse(&'static self, mut words: impl Iterator<Item = OsString>) -> Outcome<Request> {
        let mut arguments = Arguments {
            places: Vec::new(),
            switches: Vec::new(),
        };
        while let Some(word) = words.next() {
            match word.as_bytes() {
                b"--help" | b"-h" => return Ok(Request::Help(Some(self))),
                b"--" => arguments.places.extend(&mut words),
                [b'-', _, ..] => {
                    let switch = self.switch(&word, &mut words)?;
                    arguments.switches.push(switch);
                }
                _ => arguments.places.push(word),
            }
        }
        self.demand_places(arguments.count())?;
        Ok(Request::Run(self, arguments))
    }

    /// An option and its value, which stands behind `=` or is the next word.
    fn switch(
        &'static self,
        word: &OsStr,
        words: &mut impl Iterator<Item = OsString>,
    ) -> Outcome<(&'static str, OsString)> {
        let bytes = word.as_bytes();
        let cut = bytes.iter().position(|byte| *byte == b'=');
        let (name, joined) = match cut {
            Some(cut) => (&bytes[..cut], Some(&bytes[cut + 1..])),
            None => (bytes, None),
        };
        let unknown = || self.misused(&format!("has no option {}", text::quoted(name)));
        let mut options = self.options.iter();
        let switch = options.find(|switch| switch.name.as_bytes() == name);
        let switch = switch.ok_or_else(unknown)?;
        let value = match (switch.value, joined) {
            (None, None) => Some(OsString::new()),
            (None, Some(_)) => None,
            (Some(_), Some(value)) => Some(OsStr::from_bytes(value).to_os_string()),
            (Some(_), None) => words.next(),
        };
        let needs = switch.value.unwrap_or("no value");
        let value =
            value.ok_or_else(|| self.misused(&format!("{} takes {}", switch.name, needs)))?;
        Ok((switch.name, value))
    }

    fn demand_places(&self, count: usize) -> Outcome<()> {
        let places = || self.places.split(' ');
        let least = places().filter(|place| !place.starts_with('[')).count();
        match (least..=places().count()).contains(&count) {
            true => Ok(()),
            false => Err(self.misused(&format!("takes {}", self.places))),
        }
    }

    fn misused(&self, reason: &str) -> Failure {
        Failure::usage(format!(
            "{} {}. Try 'lentil {} --help'",
            self.name, reason, self.name
        ))
    }

    /// Carries it out, and gives the exit code.
    pub fn carry_out(&self, arguments: &Arguments) -> Outcome<i32> {
        match self.run {
            Run::Plain(run) => run(arguments).map(|()| 0),
            Run::Coded(run) => run(arguments),
        }
    }

    pub fn help(&self) -> String {
        let options = match self.options {
            [] => "",
            _ => " [OPTION ..]",
        };
        let usage = format!("lentil {}{} {}", self.name, options, self.places);
        let mut help = format!("lentil {}: {}\n\nusage: {}\n", self.name, self.about, usage);
        help += &format!("\n{}\n", self.details);
        if !self.options.is_empty() {
            help += &format!("\noptions:\n{}", self.option_lines());
        }
        help + &format!("\nexample:\n  {}\n", self.example)
    }

    fn option_lines(&self) -> String {
        let forms: Vec<String> = self.options.iter().map(Switch::form).collect();
        let width = forms.iter().map(String::len).max().unwrap_or(0);
        let lines = forms.iter().zip(self.options);
        let lines = lines.map(|(form, switch)| format!("  {:width$}  {}\n", form, switch.about));
        lines.collect()
    }
}

impl Switch {
    fn form(&self) -> String {
        match self.value {
            Some(value) => format!("{} {}", self.name, value),
            None => self.name.to_string(),
        }
    }
}

pub fn help(commands: &[Command]) -> String {
    let mut help = String::from(FRONT);
    let width = commands
        .iter()
        .map(|command| command.name.len())
        .max()
        .unwrap_or(0);
    for command in commands {
        help += &format!(
            "  {:width$}  {}\n",
            command.name,
            command.about,
            width = width
        );
    }
    help + BACK
}

const FRONT: &str = "\
lentil keeps a volume of sparse measurement files in an ordinary file.

usage: lentil COMMAND VOLUME ..
       lentil COMMAND --help
       lentil --version

";

const BACK: &str = "
VOLUME is a file of the host. PATH is a path on the volume: it starts at the root, without a
leading slash. With a slash at its end it means a folder, and leads to no file. '-' as FILE is
standard input or output. Sizes and offsets are bytes; k, M and G behind them mean powers of 1,024.
'--' ends the options.

A command that changes a volume locks it, works in memory, and puts the changed volume in the place
of the old one at the end, in one step. If it is refused or killed, the old one is there as it was.

Exit codes: 0 done, 1 refused or failed, 2 a command line that makes no sense; of search also 3 and
4. A number in brackets behind an error is the store's own.

example:
  lentil new traces.vol --size 64M
  lentil put traces.vol hood7 run1.bin --at 1M
  lentil map traces.vol
";
