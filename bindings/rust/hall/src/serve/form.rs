//! The fields of a form, as a browser sends them in a body or behind a path.

/// Names and values, each name once.
#[derive(Debug, PartialEq, Eq)]
pub struct Form(Vec<(String, String)>);

/// A sentence that names the field and says what was expected.
pub type Reading<T> = Result<T, String>;

impl Form {
    /// Reads `name=value&name=value`. Of names only the expected may come, and each at most once.
    pub fn parse(bytes: &[u8], expected: &[&str]) -> Reading<Form> {
        let mut fields: Vec<(String, String)> = Vec::new();
        for pair in bytes.split(|byte| *byte == b'&').filter(|pair| !pair.is_empty()) {
            let end = pair.iter().position(|byte| *byte == b'=').unwrap_or(pair.len());
            let name = decode(&pair[..end])?;
            let value = decode(pair.get(end + 1..).unwrap_or_default())?;
            if !expected.contains(&name.as_str()) {
                return Err(format!("`{name}` is no field here: {} expected.", list(expected)));
            }
            if fields.iter().any(|(known, _)| *known == name) {
                return Err(format!("`{name}` comes twice: each field is expected once."));
            }
            fields.push((name, value));
        }
        Ok(Form(fields))
    }

    pub fn get(&self, name: &str) -> Option<&str> {
        self.0.iter().find(|(known, _)| known == name).map(|(_, value)| value.as_str())
    }

    pub fn text(&self, name: &str) -> Reading<&str> {
        self.get(name).ok_or_else(|| format!("`{name}` is missing."))
    }

    /// A finite number.
    pub fn number(&self, name: &str) -> Reading<f64> {
        let text = self.text(name)?;
        let number = text.parse::<f64>().ok().filter(|number| number.is_finite());
        number.ok_or_else(|| format!("`{name}` is `{text}`: a finite number is expected."))
    }

    /// A finite number that is not below 0.
    pub fn distance(&self, name: &str) -> Reading<f64> {
        let number = self.number(name)?;
        match number >= 0.0 {
            true => Ok(number),
            false => Err(format!("`{name}` is {number}: a number from 0 on is expected.")),
        }
    }

    /// A whole number from 0 to 100.
    pub fn percent(&self, name: &str) -> Reading<u8> {
        let text = self.text(name)?;
        let percent = whole(text).filter(|percent| *percent <= 100);
        let percent = percent.and_then(|percent| u8::try_from(percent).ok());
        percent.ok_or_else(|| {
            format!("`{name}` is `{text}`: a whole number from 0 to 100 is expected.")
        })
    }

    /// A whole number that is not below 0.
    pub fn whole(&self, name: &str) -> Reading<u64> {
        let text = self.text(name)?;
        whole(text).ok_or_else(|| {
            format!("`{name}` is `{text}`: a whole number that is not below 0 is expected.")
        })
    }

    /// One of some words, and what it stands for.
    pub fn choice<T: Copy>(&self, name: &str, choices: &[(&str, T)]) -> Reading<T> {
        let text = self.text(name)?;
        let chosen = choices.iter().find(|(word, _)| *word == text);
        chosen.map(|(_, stands_for)| *stands_for).ok_or_else(|| {
            let words: Vec<&str> = choices.iter().map(|(word, _)| *word).collect();
            format!("`{name}` is `{text}`: one of {} is expected.", words.join(", "))
        })
    }
}

fn whole(text: &str) -> Option<u64> {
    let is_whole = !text.is_empty() && text.bytes().all(|byte| byte.is_ascii_digit());
    text.parse().ok().filter(|_| is_whole)
}

fn list(expected: &[&str]) -> String {
    match expected {
        [] => "no field is".into(),
        [one] => format!("`{one}` alone is"),
        several => {
            let names: Vec<String> = several.iter().map(|name| format!("`{name}`")).collect();
            format!("{} are", names.join(", "))
        }
    }
}

/// A `+` is a space, and `%` with two hexadecimal digits a byte.
fn decode(bytes: &[u8]) -> Reading<String> {
    let mut decoded = Vec::with_capacity(bytes.len());
    let mut rest = bytes.iter();
    while let Some(byte) = rest.next() {
        decoded.push(match byte {
            b'+' => b' ',
            b'%' => {
                let mut digit = || hexadecimal(*rest.next()?);
                let (high, low) = (digit(), digit());
                let byte = high.zip(low).map(|(high, low)| high << 4 | low);
                byte.ok_or("A `%` in the form is not followed by two hexadecimal digits.")?
            }
            byte => *byte,
        });
    }
    String::from_utf8(decoded).map_err(|_| "The form's bytes are not UTF-8.".into())
}

fn hexadecimal(digit: u8) -> Option<u8> {
    char::from(digit).to_digit(16).and_then(|digit| u8::try_from(digit).ok())
}

#[cfg(test)]
mod tests {
    use super::*;

    fn parse(text: &str) -> Reading<Form> {
        Form::parse(text.as_bytes(), &["x", "name"])
    }

    #[test]
    fn fields_are_decoded() {
        let form = parse("x=-1.5e3&name=a+b%26%c3%A9%3D").expect("a good form");
        assert_eq!(form.number("x"), Ok(-1500.0));
        assert_eq!(form.get("name"), Some("a b&é="));
        assert_eq!(parse("").expect("no fields").get("x"), None);
        assert_eq!(parse("&x=&").expect("an empty value").get("x"), Some(""));
        assert_eq!(parse("x").expect("an empty value").get("x"), Some(""));
    }

    #[test]
    fn bad_forms_get_a_sentence() {
        for (text, named) in [
            ("x=1&x=2", "`x` comes twice"),
            ("y=1", "`y` is no field here: `x`, `name` are expected."),
            ("=1", "`` is no field"),
            ("x=%4", "two hexadecimal digits"),
            ("x=%4g", "two hexadecimal digits"),
            ("x=%+1", "two hexadecimal digits"),
            ("name=%ff", "not UTF-8"),
        ] {
            let sentence = parse(text).expect_err(named);
            assert!(sentence.contains(named), "{text}: {sentence}");
        }
        assert!(Form::parse(b"x=\xff", &["x"]).expect_err("bytes").contains("not UTF-8"));
        assert!(Form::parse(b"x=1", &[]).expect_err("a field").contains("no field is expected"));
    }

    #[test]
    fn values_are_tested() {
        for bad in ["", "one", "nan", "inf", "-infinity", "1e999", "1,5", "0x1"] {
            let form = parse(&format!("x={bad}")).expect("a form");
            let sentence = form.number("x").expect_err(bad);
            assert!(sentence.contains("`x`") && sentence.contains("finite number"), "{sentence}");
        }
        for bad in ["101", "-1", "1.5", "%2B1", "", "99999999999999999999"] {
            let form = parse(&format!("x={bad}")).expect("a form");
            let sentence = form.percent("x").expect_err(bad);
            assert!(sentence.contains("from 0 to 100"), "{sentence}");
        }
        assert_eq!(parse("x=100").expect("a form").percent("x"), Ok(100));
        assert!(parse("x=-1").expect("a form").distance("x").is_err());
        assert!(parse("x=-1").expect("a form").whole("x").is_err());
        assert_eq!(parse("x=7").expect("a form").whole("x"), Ok(7));
        assert!(parse("").expect("a form").number("x").expect_err("none").contains("missing"));
    }

    #[test]
    fn a_choice_is_one_of_its_words() {
        let choices = [("yes", true), ("no", false)];
        assert_eq!(parse("x=no").expect("a form").choice("x", &choices), Ok(false));
        let sentence = parse("x=No").expect("a form").choice("x", &choices).expect_err("No");
        assert_eq!(sentence, "`x` is `No`: one of yes, no is expected.");
    }
}
