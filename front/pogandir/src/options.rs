//! The command line.

use crate::notation::Names;
use crate::source::Form;

pub const HELP: &str = include_str!("help.txt");

#[derive(Clone, Copy, Debug, PartialEq, Eq)]
pub enum Command {
    List,
    Check,
    Sheet,
    Text,
    Bytes,
}

pub const COMMANDS: [(&str, Command); 5] = [
    ("list", Command::List),
    ("check", Command::Check),
    ("sheet", Command::Sheet),
    ("text", Command::Text),
    ("bytes", Command::Bytes),
];

/// What a command is asked to do.
#[derive(Clone, Debug, PartialEq, Eq)]
pub struct Options {
    pub command: Command,
    pub files: Vec<String>,
    pub json: bool,
    pub csv: bool,
    /// `text` writes what each line gave as what is expected of it.
    pub expect: bool,
    pub form: Option<Form>,
    pub names: Names,
    pub output: Option<String>,
}

#[derive(Clone, Debug, PartialEq, Eq)]
pub enum Request {
    Help,
    Version,
    Run(Options),
}

/// Reads the arguments; what is wrong with them is told in words.
pub fn read(arguments: &[String]) -> Result<Request, String> {
    let asks = |names: [&str; 2]| arguments.iter().any(|word| names.contains(&word.as_str()));
    if asks(["--help", "-h"]) || arguments.first().is_some_and(|first| first == "help") {
        return Ok(Request::Help);
    }
    if asks(["--version", "-V"]) {
        return Ok(Request::Version);
    }
    let (first, rest) = arguments.split_first().ok_or_else(|| expected("a command"))?;
    let command = COMMANDS.iter().find(|(name, _)| name == first).map(|(_, command)| *command);
    let command = command.ok_or_else(|| expected(&format!("'{first}' is no command; one")))?;
    let mut options = Options {
        command,
        files: Vec::new(),
        json: false,
        csv: false,
        expect: false,
        form: None,
        names: Names::default(),
        output: None,
    };
    let mut words = rest.iter();
    while let Some(word) = words.next() {
        if word == "--" {
            options.files.extend(words.cloned());
            break;
        }
        options.read_word(word, &mut words)?;
    }
    options.check()?;
    Ok(Request::Run(options))
}

fn expected(what: &str) -> String {
    let names: Vec<&str> = COMMANDS.iter().map(|(name, _)| *name).collect();
    format!("{what} is expected: {}; `pogandir --help` tells more", names.join(", "))
}

impl Options {
    fn read_word<'a>(
        &mut self,
        word: &str,
        rest: &mut impl Iterator<Item = &'a String>,
    ) -> Result<(), String> {
        let mut value = || rest.next().cloned().ok_or_else(|| format!("{word} needs a value"));
        match word {
            "--json" => self.json = true,
            "--csv" => self.csv = true,
            "--expect" => self.expect = true,
            "--walk" => self.form = Some(Form::Walk),
            "--text" => self.form = Some(Form::Text),
            "--names" => self.names = read_names(&value()?)?,
            "-o" | "--output" => self.output = Some(value()?),
            "-" => self.files.push(word.to_string()),
            _ if word.starts_with('-') => {
                return Err(format!("'{word}' is no option; `pogandir --help` names them"));
            }
            _ => self.files.push(word.to_string()),
        }
        Ok(())
    }

    fn check(&self) -> Result<(), String> {
        let many = matches!(self.command, Command::List | Command::Check);
        let is_for = |given: bool, option: &str, commands: &[Command]| {
            let names = COMMANDS.iter().filter(|(_, command)| commands.contains(command));
            let names: Vec<&str> = names.map(|(name, _)| *name).collect();
            match given && !commands.contains(&self.command) {
                true => Err(format!("{option} is for {}", names.join(", "))),
                false => Ok(()),
            }
        };
        is_for(self.json, "--json", &[Command::List, Command::Check, Command::Sheet])?;
        is_for(self.csv, "--csv", &[Command::Sheet])?;
        is_for(self.expect, "--expect", &[Command::Text])?;
        is_for(self.names != Names::default(), "--names", &[Command::Sheet])?;
        if self.output.as_ref().is_some_and(|output| self.files.contains(output)) {
            return Err("the output would take the place of an input".to_string());
        }
        match self.files.len() {
            0 => Err("a file is expected; - is standard input".to_string()),
            1 => Ok(()),
            _ if many => Ok(()),
            _ => Err("this command takes one file".to_string()),
        }
    }
}

/// panel=1,cabinet=2
fn read_names(list: &str) -> Result<Names, String> {
    let mut names = Names::default();
    for entry in list.split(',') {
        let (name, number) = entry.split_once('=').unwrap_or((entry, ""));
        let number = number.trim().parse();
        let Ok(number) = number else {
            return Err(format!("--names: '{entry}' is not of the form name=number"));
        };
        names.principals.insert(number, name.trim().to_string());
    }
    Ok(names)
}
