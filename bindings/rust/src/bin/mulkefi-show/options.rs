//! What the caller asks for.

use std::ffi::{OsStr, OsString};

pub const HELP: &str = "\
mulkefi-show prints an image or a message in words, or draws an image.

usage: mulkefi-show [--svg [--ids]] [--relation PLACE] [--] [FILE]
       mulkefi-show --message [--] [FILE]
       mulkefi-show --help

FILE is read, or standard input where no file is named or FILE is -. What is
shown goes to standard output.

options:
  --svg             draw the image, as SVG
  --ids             label points and curves with their ids in the picture
  --relation PLACE  highlight the relation at PLACE, counted from 0, which comes
                    with refusal 13 or 19, and the points and curves it names
  --message         show a message, not an image
  -h, --help        show this text
  --                take what follows as FILE, whatever it begins with

status:
  0  it was shown
  1  the bytes are refused; standard error tells by which number, and where
  2  a wrong call, nothing to read, no relation at PLACE, or output that cannot
     be written; standard error tells which
  3  the engine and the reader that finds the byte at fault do not agree
";

/// How an image is shown.
#[derive(Debug, Default, PartialEq)]
pub struct Options {
    pub svg: bool,
    pub ids: bool,
    pub relation: Option<usize>,
}

/// What is shown, and the file that it is in: standard input where there is none.
#[derive(Debug, PartialEq)]
pub enum Call {
    Help,
    Image(Options, Option<OsString>),
    Message(Option<OsString>),
}

/// The arguments as they come.
#[derive(Default)]
struct Given {
    options: Options,
    message: bool,
    file: Option<OsString>,
}

/// The call that the arguments make, or a sentence that says what is wrong with them.
pub fn call(mut arguments: impl Iterator<Item = OsString>) -> Result<Call, String> {
    let mut given = Given::default();
    while let Some(argument) = arguments.next() {
        match argument.to_str() {
            Some("-h" | "--help") => return Ok(Call::Help),
            Some("--svg") => given.options.svg = true,
            Some("--ids") => given.options.ids = true,
            Some("--message") => given.message = true,
            Some("--relation") if given.options.relation.is_some() => {
                return Err("--relation is given twice".to_string());
            }
            Some("--relation") => given.options.relation = Some(place(arguments.next())?),
            Some("--") => {
                arguments.by_ref().try_for_each(|file| given.take_file(file))?;
            }
            _ if is_option(&argument) => return Err(format!("unknown option {argument:?}")),
            _ => given.take_file(argument)?,
        }
    }
    given.call()
}

/// A dash alone stands for standard input.
fn is_option(argument: &OsStr) -> bool {
    argument.len() > 1 && argument.as_encoded_bytes().starts_with(b"-")
}

/// A relation's place.
fn place(value: Option<OsString>) -> Result<usize, String> {
    let wanted = "--relation wants a place, which is a number from 0";
    let value = value.ok_or_else(|| format!("{wanted}: nothing follows it"))?;
    let number = value.to_str().and_then(|text| text.parse().ok());
    number.ok_or_else(|| format!("{wanted}: {value:?} is none"))
}

impl Given {
    fn take_file(&mut self, file: OsString) -> Result<(), String> {
        if let Some(first) = &self.file {
            return Err(format!("one file is shown, not both {first:?} and {file:?}"));
        }
        self.file = Some(file);
        Ok(())
    }

    /// What the arguments ask for together.
    fn call(self) -> Result<Call, String> {
        let Given { options, message, file } = self;
        let file = file.filter(|file| file != "-");
        if message {
            let of_images = [
                (options.svg, "--svg"),
                (options.ids, "--ids"),
                (options.relation.is_some(), "--relation"),
            ];
            return match of_images.into_iter().find(|(given, _)| *given) {
                Some((_, name)) => Err(format!("{name} is for images, and --message is given")),
                None => Ok(Call::Message(file)),
            };
        }
        if options.ids && !options.svg {
            return Err("--ids is for a picture, and --svg is not given".to_string());
        }
        Ok(Call::Image(options, file))
    }
}
