//! The arguments: a command, if the first is one, then options.

use data::unhex;

pub struct Arguments(pub Vec<String>);

impl Arguments {
    pub fn command(&self) -> Option<&str> {
        self.0.first().map(String::as_str).filter(|first| !first.starts_with('-'))
    }

    pub fn flag(&self, name: &str) -> bool {
        self.0.iter().any(|argument| argument == name)
    }

    pub fn text(&self, name: &str) -> Option<&str> {
        let at = self.0.iter().position(|argument| argument == name)?;
        self.0.get(at + 1).map(String::as_str)
    }

    pub fn number(&self, name: &str) -> Result<Option<u64>, String> {
        let wrong = |text: &str| format!("{name} wants a number, not {text}");
        let number = self.text(name).map(|text| text.parse().map_err(|_| wrong(text)));
        number.transpose()
    }

    pub fn bytes(&self, name: &str) -> Result<Vec<u8>, String> {
        unhex(self.text(name).unwrap_or(""))
            .ok_or_else(|| format!("{name} wants bytes in hexadecimal"))
    }

    /// What stands behind the command and is neither an option nor its value. Every
    /// option must be known: a misspelt one would be ignored.
    pub fn others(&self, flags: &[&str], options: &[&str]) -> Result<Vec<&str>, String> {
        let mut others = Vec::new();
        let mut left = self.0.iter().map(String::as_str).skip(self.command().iter().count());
        while let Some(argument) = left.next() {
            if options.contains(&argument) {
                left.next().ok_or_else(|| format!("{argument} wants a value"))?;
            } else if !argument.starts_with('-') {
                others.push(argument);
            } else if !flags.contains(&argument) {
                return Err(format!("unknown option {argument}"));
            }
        }
        Ok(others)
    }

    /// As [`Arguments::others`], where there may be none.
    pub fn known(&self, flags: &[&str], options: &[&str]) -> Result<(), String> {
        match self.others(flags, options)?.first() {
            Some(other) => Err(format!("{other} is one too many")),
            None => Ok(()),
        }
    }
}
