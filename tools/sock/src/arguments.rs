//! The arguments of a subcommand: its options with what follows them, and its files; and how a command ends that could not do all.

/// Why a command ends without having done all: the status, and what is said on standard error.
pub struct Failure(pub u8, pub String);

pub type Done<T> = Result<T, Failure>;

/// Options with how many words follow each, by command.
const OPTIONS: &[(&str, &str, usize)] = &[
    ("asm", "-o", 1),
    ("dis", "--plan", 0),
    ("dis", "-o", 1),
    ("dis", "--names", 1),
    ("check", "--plan", 0),
    ("show", "--plan", 0),
    ("show", "-o", 1),
    ("show", "--svg", 0),
    ("show", "--dot", 0),
    ("moves", "--plan", 0),
    ("moves", "--most", 1),
    ("run", "--plan", 0),
    ("run", "--replay", 0),
    ("run", "--random", 2),
    ("run", "--trace", 0),
    ("run", "--write", 1),
    ("run", "--steps", 1),
];

pub struct Arguments {
    pub command: String,
    pub options: Vec<(String, Vec<String>)>,
    pub files: Vec<String>,
}

impl Arguments {
    pub fn of(command: &str, words: &[String]) -> Done<Arguments> {
        let mut given =
            Arguments { command: command.to_string(), options: Vec::new(), files: Vec::new() };
        let mut rest = words.iter();
        while let Some(word) = rest.next() {
            if word == "--" {
                given.files.extend(rest.by_ref().cloned());
            } else if word.starts_with('-') && word.len() > 1 {
                let known = OPTIONS.iter().find(|(of, option, _)| *of == command && option == word);
                let Some((_, _, count)) = known else {
                    return Err(given.misused(&format!("no such option: {word}")));
                };
                let values: Vec<String> = rest.by_ref().take(*count).cloned().collect();
                if values.len() < *count {
                    return Err(given.misused(&format!("{word} wants {count} more")));
                }
                given.options.push((word.clone(), values));
            } else {
                given.files.push(word.clone());
            }
        }
        Ok(given)
    }

    pub fn misused(&self, why: &str) -> Failure {
        Failure(
            2,
            format!(
                "sock {}: {why} (sock {} --help says what there is)",
                self.command, self.command
            ),
        )
    }

    pub fn option(&self, name: &str) -> Option<&[String]> {
        self.options
            .iter()
            .rev()
            .find(|(option, _)| option == name)
            .map(|(_, values)| values.as_slice())
    }

    pub fn value(&self, name: &str) -> Option<&str> {
        self.option(name).map(|values| values[0].as_str())
    }

    /// The file, and the step behind it if the command takes one.
    pub fn file(&self, step: bool) -> Done<(&str, Option<usize>)> {
        match self.files.as_slice() {
            [file] => Ok((file, None)),
            [file, number] if step => match number.parse() {
                Ok(number) => Ok((file, Some(number))),
                Err(_) => Err(self.misused(&format!("a step's number is expected, not {number}"))),
            },
            [] => Err(self.misused("a file is expected")),
            [_, more, ..] => Err(self.misused(&format!("more than is expected: {more}"))),
        }
    }

    pub fn number<T: std::str::FromStr>(&self, text: &str) -> Done<T> {
        text.parse().map_err(|_| self.misused(&format!("a number is expected, not {text}")))
    }
}
