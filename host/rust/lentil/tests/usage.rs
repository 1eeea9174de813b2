//! Help, and command lines that make no sense.

mod common;

use common::Place;

const COMMANDS: [&str; 16] = [
    "new", "check", "report", "ls", "tree", "search", "mkdir", "put", "get", "cut", "limit", "ln",
    "rm", "import", "export", "map",
];

#[test]
fn the_program_says_what_it_does() {
    let place = Place::new("help");
    let help = place.run(["--help"]).text();
    for command in COMMANDS {
        assert!(help.contains(&format!("\n  {} ", command)), "{}", command);
    }
    assert!(help.contains("slash at its end it means a folder"));
    assert!(help.contains("\nexample:\n  lentil "));
    assert_eq!(place.run(["-h"]).text(), help);
    assert!(place.run(["--version"]).text().starts_with("lentil 0."));
}

#[test]
fn each_command_says_what_it_does() {
    let place = Place::new("help_command");
    for command in COMMANDS {
        let help = place.run([command, "--help"]).text();
        assert!(
            help.starts_with(&format!("lentil {}: ", command)),
            "{}",
            help
        );
        assert!(
            help.contains(&format!("\nusage: lentil {} ", command)),
            "{}",
            help
        );
        assert!(
            help.contains(&format!("\nexample:\n  lentil {} ", command)),
            "{}",
            help
        );
        assert!(help.lines().all(|line| line.len() <= 100), "{}", help);
    }
}

/// Runs command lines, each with words that must stand in the answer.
fn are_misused(test: &str, cases: &[(&[&str], &str)]) {
    let place = Place::with_volume(test);
    let state = place.state("v");
    for (words, reason) in cases {
        place.run(*words).misused(reason);
    }
    assert!(state == place.state("v"));
    assert_eq!(place.names(), ["v"]);
}

#[test]
fn senseless_command_lines_are_refused() {
    are_misused(
        "usage",
        &[
            (&[], "which command?"),
            (&["fetch"], "there is no command 'fetch'"),
            (&["new"], "new takes VOLUME."),
            (&["ls"], "ls takes VOLUME [PATH]."),
            (&["ls", "v", "a", "b"], "ls takes VOLUME [PATH]."),
            (&["ls", "--long", "v"], "ls has no option --long."),
            (&["ls", "-l=3", "v"], "ls -l takes no value."),
            (&["put", "v", "a", "--at"], "put --at takes OFFSET."),
            (
                &["put", "v", "a", "--at", "1.5k"],
                "--at is a number of bytes",
            ),
            (
                &["put", "v", "a", "--at", "0", "--sparse"],
                "--at or --sparse",
            ),
            (&["get", "v", "a", "--sparse"], "get --sparse needs a FILE"),
            (
                &["get", "v", "a", "-", "--sparse"],
                "get --sparse needs a FILE",
            ),
            (&["cut", "v", "a", "-1"], "cut has no option -1."),
            (&["cut", "v", "a", "all"], "SIZE is a number of bytes"),
            (&["limit", "v", "a", "\x1b"], "'$'\\x1b''"),
        ],
    );
}

#[test]
fn senseless_numbers_of_a_search_are_refused() {
    let search = |switch, number| ["search", "v", "d", "f", switch, number];
    let place = Place::with_volume("usage_search");
    for number in [
        "",
        "x",
        "-1",
        "+1",
        "1.5",
        "4k",
        "4294967296",
        "99999999999999999999",
    ] {
        let reason = format!(
            "--from is a number from 0 to 4294967295, and not '{}'",
            number
        );
        place.run(search("--from", number)).misused(&reason);
    }
    for number in ["", "all", "-1", "4k", "18446744073709551616"] {
        let range = "0 to 18446744073709551615";
        let reason = format!("--most is a number from {}, and not '{}'", range, number);
        place.run(search("--most", number)).misused(&reason);
    }
    are_misused(
        "usage_search_words",
        &[
            (&["search", "v", "d"], "search takes VOLUME PATH NAME."),
            (&["search", "v", "d", "f", "g"], "search takes VOLUME PATH"),
            (&["search", "v", "d", "f", "--from"], "--from takes INDEX."),
            (&["search", "v", "d", "f", "--most"], "--most takes COUNT."),
        ],
    );
}

#[test]
fn the_help_of_search_has_its_exit_codes() {
    let help = Place::new("help_search").run(["search", "--help"]).text();
    for line in ["  0  found: ", "  3  absent: ", "  4  stopped: "] {
        assert!(help.contains(&format!("\n{}", line)), "{}", help);
    }
}

#[test]
fn volumes_that_cannot_be_are_not_made() {
    are_misused(
        "usage_new",
        &[
            (&["new", "w", "--nodes", "0"], "--nodes is 1 to 4096, not 0"),
            (&["new", "w", "--entries", "4097"], "--entries is 1 to 4096"),
            (&["new", "w", "--chunks", "4097"], "--chunks is 1 to 4096"),
            (
                &["new", "w", "--size", "64k"],
                "--size is at least 70880 for such a volume, not 65536",
            ),
            (
                &["new", "w", "--size", "1G"],
                "--size is at most 269877440 for such",
            ),
            (
                &["new", "w", "--size", "16777216G"],
                "--size is at most 269877440 for such",
            ),
        ],
    );
}

#[test]
fn other_chunk_sizes_are_refused() {
    let reason = "--chunk-size is 4k, 8k, 16k, 32k or 64k";
    are_misused(
        "usage_chunk_size",
        &[
            (&["new", "w", "--chunk-size", "0"], reason),
            (&["new", "w", "--chunk-size", "2k"], reason),
            (&["new", "w", "--chunk-size", "12k"], reason),
            (&["new", "w", "--chunk-size", "128k"], reason),
        ],
    );
}

#[test]
fn two_dashes_end_the_options() {
    let place = Place::with_volume("dashes");
    place.run(["mkdir", "v", "--", "-p"]).done();
    assert_eq!(place.run(["ls", "v"]).text(), "-p\n");
    place.run(["ls", "--", "v", "-p"]).done();
}
