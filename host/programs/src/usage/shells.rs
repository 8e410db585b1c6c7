//! Completions for shells. After `--` there are files alone.

use super::{Argument, Program, Switch};

const MADE: &str = "# Made by host/run-docs.\n";

const BASH: &str = include_str!("completion.bash");

impl Program {
    /// For bash: what is no option is left to its own completion of files.
    pub fn bash(&self) -> String {
        let flags = |wanted: fn(Argument) -> bool| {
            let options = self.completed().filter(|option| wanted(option.argument));
            options.flat_map(|option| option.flags).copied().collect::<Vec<&str>>().join(" ")
        };
        let text = BASH.replace("@name@", self.name).replace("@flags@", &flags(|_| true));
        let text = text.replace("@numbers@", &flags(|argument| matches!(argument, Argument::Number(_))));
        text.replace("@folders@", &flags(|argument| matches!(argument, Argument::Folder(_))))
    }

    /// For zsh, as the function `_NAME`.
    pub fn zsh(&self) -> String {
        let options: String = self.completed().map(|option| format!("  {} \\\n", zsh_option(option))).collect();
        format!("#compdef {}\n{MADE}_arguments -S \\\n{options}  '*:file:_files'\n", self.name)
    }

    pub fn fish(&self) -> String {
        let options: String = self.completed().map(|option| fish_option(self.name, option)).collect();
        format!("{MADE}{options}")
    }

    /// The options that are offered.
    fn completed(&self) -> impl Iterator<Item = &'static Switch> {
        self.together().chain(self.alone())
    }
}

fn zsh_option(option: &Switch) -> String {
    let brief = option.brief().replace('\'', "'\\''").replace('[', "\\[").replace(']', "\\]").replace(':', "\\:");
    let argument = match option.argument {
        Argument::None => String::new(),
        Argument::Number(name) => format!(":{name}: "),
        Argument::File(name) => format!(":{name}:_files"),
        Argument::Folder(name) => format!(":{name}:_files -/"),
    };
    // Where a value may be joined to the flag.
    let flag = |flag: &str| match (option.argument.name(), flag.starts_with("--")) {
        (None, _) => flag.to_owned(),
        (Some(_), true) => format!("{flag}="),
        (Some(_), false) => format!("{flag}+"),
    };
    let flags: Vec<String> = option.flags.iter().map(|name| flag(name)).collect();
    match flags.as_slice() {
        [flag] => format!("'{flag}[{brief}]{argument}'"),
        flags => format!("'({})'{{{}}}'[{brief}]{argument}'", option.flags.join(" "), flags.join(",")),
    }
}

fn fish_option(program: &str, option: &Switch) -> String {
    let flags = option.flags.iter().map(|flag| match flag.strip_prefix("--") {
        Some(long) => format!(" -l {long}"),
        None => format!(" -s {}", flag.trim_start_matches('-')),
    });
    let argument = match option.argument {
        Argument::None => "",
        Argument::Number(_) => " -x",
        Argument::File(_) => " -r -F",
        Argument::Folder(_) => " -x -a '(__fish_complete_directories)'",
    };
    let brief = option.brief().replace('\\', "\\\\").replace('\'', "\\'");
    format!("complete -c {program}{}{argument} -d '{brief}'\n", flags.collect::<String>())
}
