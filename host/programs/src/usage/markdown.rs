//! Tables for README.

use super::Program;

impl Program {
    /// The options and the exit statuses.
    pub fn readme_table(&self) -> String {
        let options = self.options.iter().map(|option| {
            let argument = option.argument.name().map_or(String::new(), |name| format!(" {name}"));
            let flags: Vec<String> = option.flags.iter().map(|flag| format!("`{flag}{argument}`")).collect();
            [flags.join(", "), option.help.into()]
        });
        let statuses = self.statuses.iter().map(|(status, words)| [status.to_string(), (*words).into()]);
        format!("{}\n{}", table(&["option", ""], options), table(&["exit status", ""], statuses))
    }

    /// How it is used.
    pub fn readme_usage(&self) -> String {
        let usage = self.usage();
        let lines = usage.trim_start_matches("usage: ").lines();
        lines.map(|line| format!("    {}\n", line.strip_prefix("       ").unwrap_or(line))).collect()
    }
}

/// A table of Markdown.
pub fn table<const N: usize>(head: &[&str; N], rows: impl Iterator<Item = [String; N]>) -> String {
    let cell = |text: &String| if text.is_empty() { " |".into() } else { format!(" {} |", text.replace('|', "\\|")) };
    let line = |cells: &[String; N]| format!("|{}\n", cells.iter().map(cell).collect::<String>());
    let rows: String = rows.map(|row| line(&row)).collect();
    line(&head.map(str::to_owned)) + &"|---".repeat(N) + "|\n" + &rows
}
