//! The program's arguments.

pub const USAGE: &str = "\
hall [simulate] [SEED [PICTURE]]
    simulates a hall and writes a picture of it: seed 1 and target/hall.svg where none is given
hall serve [--port PORT]
    serves the hall to a browser on this machine, until it is ended: a port of the system's choice where
    none is given
hall --help
    writes this
";

const SEED: u64 = 1;
const PICTURE: &str = "target/hall.svg";

#[derive(Debug, PartialEq, Eq)]
pub enum Command {
    Help,
    Simulate {
        seed: u64,
        picture: String,
    },
    /// With the port, or 0 for one of the system's choice.
    Serve {
        port: u16,
    },
}

/// The command, or a sentence that says which argument is wrong.
pub fn parse(arguments: &[&str]) -> Result<Command, String> {
    match arguments {
        ["--help" | "-h" | "help", ..] => Ok(Command::Help),
        ["serve", rest @ ..] => serve(rest),
        ["simulate", rest @ ..] => simulate(rest),
        rest => simulate(rest),
    }
}

fn simulate(arguments: &[&str]) -> Result<Command, String> {
    let (seed, picture) = match arguments {
        ["--help" | "-h"] => return Ok(Command::Help),
        [] => (SEED, PICTURE),
        [seed] => (whole(seed)?, PICTURE),
        [seed, picture] => (whole(seed)?, *picture),
        [_, _, extra, ..] => return Err(format!("`{extra}` comes after the picture's name")),
    };
    Ok(Command::Simulate { seed, picture: picture.into() })
}

fn whole(text: &str) -> Result<u64, String> {
    let most = u64::MAX;
    text.parse().map_err(|_| {
        format!("`{text}` is neither a command nor a seed: a whole number from 0 to {most}")
    })
}

fn serve(arguments: &[&str]) -> Result<Command, String> {
    let port = match arguments {
        ["--help" | "-h"] => return Ok(Command::Help),
        [] => return Ok(Command::Serve { port: 0 }),
        ["--port"] => return Err("`--port` needs a port after it".into()),
        ["--port", port] => port,
        [one] => one.strip_prefix("--port=").ok_or_else(|| unknown(one))?,
        ["--port", _, extra, ..] => return Err(unknown(extra)),
        [extra, ..] => return Err(unknown(extra)),
    };
    let is_number = !port.is_empty() && port.bytes().all(|byte| byte.is_ascii_digit());
    match port.parse() {
        Ok(port) if is_number => Ok(Command::Serve { port }),
        _ => Err(format!("`{port}` is no port: a whole number from 0 to 65535 is expected")),
    }
}

fn unknown(argument: &str) -> String {
    format!("`{argument}` is no argument of `hall serve`")
}

#[cfg(test)]
mod tests {
    use super::*;

    fn simulation(seed: u64, picture: &str) -> Result<Command, String> {
        Ok(Command::Simulate { seed, picture: picture.into() })
    }

    #[test]
    fn a_simulation_takes_a_seed_and_a_picture() {
        assert_eq!(parse(&[]), simulation(1, "target/hall.svg"));
        assert_eq!(parse(&["simulate"]), simulation(1, "target/hall.svg"));
        assert_eq!(parse(&["7"]), simulation(7, "target/hall.svg"));
        assert_eq!(parse(&["7", "a.svg"]), simulation(7, "a.svg"));
        assert_eq!(parse(&["simulate", "7", "a.svg"]), simulation(7, "a.svg"));
    }

    #[test]
    fn a_server_takes_a_port() {
        assert_eq!(parse(&["serve"]), Ok(Command::Serve { port: 0 }));
        assert_eq!(parse(&["serve", "--port", "8080"]), Ok(Command::Serve { port: 8080 }));
        assert_eq!(parse(&["serve", "--port=65535"]), Ok(Command::Serve { port: 65535 }));
    }

    #[test]
    fn help_is_told_of_each_command() {
        for arguments in [&["--help"][..], &["-h"], &["serve", "--help"], &["simulate", "-h"]] {
            assert_eq!(parse(arguments), Ok(Command::Help), "{arguments:?}");
        }
    }

    #[test]
    fn wrong_arguments_get_a_sentence_that_names_them() {
        for (arguments, named) in [
            (&["one"][..], "`one` is neither a command nor a seed"),
            (&["-1"], "`-1`"),
            (&["1", "a.svg", "2"], "`2` comes after"),
            (&["serve", "--port"], "`--port` needs"),
            (&["serve", "--port", "65536"], "`65536` is no port"),
            (&["serve", "--port", "+80"], "`+80` is no port"),
            (&["serve", "--port="], "`` is no port"),
            (&["serve", "8080"], "`8080` is no argument"),
            (&["serve", "--port", "1", "2"], "`2` is no argument"),
            (&["serve", "--host", "a"], "`--host` is no argument"),
        ] {
            let sentence = parse(arguments).expect_err(named);
            assert!(sentence.contains(named), "{sentence}");
        }
    }
}
