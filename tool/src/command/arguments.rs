//! The arguments of a command: files, flags, options with a value (`--allowance 5` or `--allowance=5`); behind `--` all are files.

/// What a command may be given.
pub struct Usage {
    pub help: &'static str,
    pub flags: &'static [&'static str],
    pub options: &'static [&'static str],
    pub least_files: usize,
    pub most_files: usize,
}

#[derive(Debug, Default)]
pub struct Arguments {
    pub files: Vec<String>,
    flags: Vec<String>,
    options: Vec<(String, String)>,
}

impl Arguments {
    pub fn read(arguments: &[String], usage: &Usage) -> Result<Arguments, String> {
        let mut read = Arguments::default();
        let mut rest = arguments.iter();
        while let Some(argument) = rest.next() {
            let with_value = argument.split_once('=').filter(|(name, _)| usage.options.contains(name));
            if argument == "--" {
                read.files.extend(rest.by_ref().cloned());
            } else if usage.flags.contains(&argument.as_str()) {
                read.flags.push(argument.clone());
            } else if usage.options.contains(&argument.as_str()) {
                let value = rest.next().ok_or(format!("{argument} wants a value"))?;
                read.options.push((argument.clone(), value.clone()));
            } else if let Some((name, value)) = with_value {
                read.options.push((name.to_string(), value.to_string()));
            } else if argument.starts_with('-') && argument != "-" {
                return Err(format!("no option {argument} here"));
            } else {
                read.files.push(argument.clone());
            }
        }
        let from_input = read.files.iter().chain(read.options.iter().map(|(_, value)| value));
        if from_input.filter(|file| *file == "-").count() > 1 {
            return Err("standard input can be read once: - is given twice".to_string());
        }
        let count = read.files.len();
        if count < usage.least_files {
            return Err("a file is missing".to_string());
        }
        if count > usage.most_files {
            return Err("too many files".to_string());
        }
        Ok(read)
    }

    pub fn flag(&self, name: &str) -> bool {
        self.flags.iter().any(|flag| flag == name)
    }

    pub fn option(&self, name: &str) -> Option<&str> {
        self.options.iter().rev().find(|(option, _)| option == name).map(|(_, value)| value.as_str())
    }

    /// An option's value as a number.
    pub fn number(&self, name: &str) -> Result<Option<u32>, String> {
        let wrong =
            |value: &str| format!("error: {name} wants a number from 0 to {}, not {value}\n", u32::MAX);
        let number = |value: &str| value.parse().map_err(|_| wrong(value));
        self.option(name).map(number).transpose()
    }

    pub fn is_short(&self) -> bool {
        self.flag("--short")
    }
}
