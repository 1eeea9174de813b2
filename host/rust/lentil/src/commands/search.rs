//! search: a name looked for in a folder, a part of the folder at a time.

use lentilraft::{Error, Search, ROOT};

use super::option;
use crate::args::{Arguments, Command, Run};
use crate::failure::{About, Outcome};
use crate::store;
use crate::text;

pub const SEARCH: Command = Command {
    name: "search",
    about: "look for a name in a folder, a part of it at a time",
    places: "VOLUME PATH NAME",
    options: &[
        option("--from", "INDEX", "begin at that index (0)"),
        option(
            "--most",
            "COUNT",
            "look at no more names than that (no limit)",
        ),
    ],
    details: "\
PATH is the folder ('.' for the root), and NAME one name in it, not a path. Names are looked at in
the order in which they were made. What comes of it, with the exit code before it:

  0  found: node 12, index 7, looked at 7
  3  absent: looked at 9                        no name is NAME, from INDEX on
  4  stopped: looked at 5, go on with --from 6  COUNT were looked at, and others are left

If the folder is changed before a search goes on, names that were made meanwhile can be missed.",
    example: "lentil search traces.vol hood7 run1 --most 500",
    run: Run::Coded(search),
};

/// How a search ends. 1 and 2 mean what they mean with other commands: with 1 for absent, a script
/// would take a damaged volume for one without the name.
const FOUND: i32 = 0;
const ABSENT: i32 = 3;
const STOPPED: i32 = 4;

fn search(arguments: &Arguments) -> Outcome<i32> {
    let from = arguments.number("--from", u32::MAX.into())?.unwrap_or(0);
    let most = arguments.number("--most", u64::MAX)?.unwrap_or(u64::MAX);
    let volume = store::read(arguments.place(0))?;
    let (path, name) = (arguments.path(1), arguments.path(2));
    let folder = volume.find(ROOT, path).about(path)?;
    let answer = match volume.search(folder, name, from as u32, most) {
        Err(Error::BadName) => Err(Error::BadName).about(name)?,
        answer => answer.about(path)?,
    };
    let (line, code) = told(answer);
    text::print(line.as_bytes())?;
    Ok(code)
}

/// A line of text, whose last word is where to go on if the search has stopped; and the exit code.
fn told(answer: Search) -> (String, i32) {
    match answer {
        Search::Found {
            index,
            node,
            looked,
        } => (
            format!(
                "found: node {}, index {}, looked at {}\n",
                node, index, looked
            ),
            FOUND,
        ),
        Search::Absent { looked } => (format!("absent: looked at {}\n", looked), ABSENT),
        Search::Stopped { index, looked } => (
            format!(
                "stopped: looked at {}, go on with --from {}\n",
                looked, index
            ),
            STOPPED,
        ),
    }
}
