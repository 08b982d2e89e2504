//! The command line.

pub const HELP: &str = "\
deckplan writes, plans, checks and shows carrier rounds.

  deckplan plan FILE            search for a plan of least flowtime and print its listing
  deckplan board FILE           search and print the gate board: which car comes to which gate, and when
  deckplan check FILE PLAN      say whether PLAN, a listing or JSON, is a plan for the sheet
  deckplan view FILE -o X.html  write a page that shows the plan step by step
  deckplan picture FILE -o X.svg  write a picture of the plan, for print
  deckplan sheet FILE -o X      write the job sheet of a text
  deckplan text FILE            write a job sheet as text
  deckplan explain FILE         say what is in a sheet, or why it is refused, and where

FILE is a job sheet or a text, whichever it looks like; `-`, or none, is standard input. A FILE of no
bytes is the sheet of a dark house, a round without carriers; deckplan says so, but not with -q.

  -o, --output FILE   write there instead of to standard output
  --nodes N           search with this node limit, 1 to 4096, instead of the sheet's
  --json              print JSON (plan, board, check, explain)
  --as-sheet, --as-text   take FILE as a sheet or as a text, whatever it looks like
  -q, --quiet         say nothing while a search runs (otherwise after one second)
  -h, --help          this; -V, --version: the version

A text is typed like this (docs/TEXT.md has all of it):

  horizon 12
  nodes 500

  floor
  A..#..b
  ...p...
  B..#..a

  task a: p a

Capital letters A to L are carriers, `#` is blocked, other letters are places by name. Task a goes by
way of p to its gate a; task b has no line, so the letter b on the floor is its only goal. The signs
↑ → ↓ ← are lanes, which a carrier leaves only that way; a line `lane east: A 3,1` makes lanes too.
The text of a dark house is the one line `dark`.

Exit status: 0 a plan, a yes, done; 1 no plan, or a no; 2 the node limit is spent; 3 a sheet, text or
plan file is refused; 4 trouble with the command line or a file.
";

#[derive(Clone, Copy, PartialEq, Eq, Debug)]
pub enum Command {
    Sheet,
    Text,
    Explain,
    Plan,
    Board,
    Check,
    View,
    Picture,
    Help,
    Version,
}

/// What the first file is taken for.
#[derive(Clone, Copy, PartialEq, Eq, Debug)]
pub enum Form {
    Guess,
    Text,
    Sheet,
}

#[derive(Debug)]
pub struct Options {
    pub command: Command,
    pub files: Vec<String>,
    pub output: Option<String>,
    pub nodes: Option<u16>,
    pub json: bool,
    pub quiet: bool,
    pub form: Form,
}

const COMMANDS: [(&str, Command); 9] = [
    ("sheet", Command::Sheet),
    ("text", Command::Text),
    ("explain", Command::Explain),
    ("plan", Command::Plan),
    ("board", Command::Board),
    ("check", Command::Check),
    ("view", Command::View),
    ("picture", Command::Picture),
    ("help", Command::Help),
];

impl Options {
    /// Reads the arguments; an error is said in words.
    pub fn read(arguments: &[String]) -> Result<Options, String> {
        let mut options = Options {
            command: Command::Help,
            files: Vec::new(),
            output: None,
            nodes: None,
            json: false,
            quiet: false,
            form: Form::Guess,
        };
        let mut command = None;
        let mut rest = arguments.iter();
        let mut only_files = false;
        while let Some(argument) = rest.next() {
            let option = argument.starts_with('-') && argument != "-" && !only_files;
            match argument.as_str() {
                "--" if !only_files => only_files = true,
                "-h" | "--help" if option => return Ok(Options { command: Command::Help, ..options }),
                "-V" | "--version" if option => return Ok(Options { command: Command::Version, ..options }),
                _ if option => options.take(argument, &mut rest)?,
                _ if command.is_none() => command = Some(find(argument)?),
                _ => options.files.push(argument.clone()),
            }
        }
        options.command = command.ok_or("no command; `deckplan --help` lists them")?;
        options.fit()
    }

    fn take<'a>(
        &mut self,
        argument: &str,
        rest: &mut impl Iterator<Item = &'a String>,
    ) -> Result<(), String> {
        let (name, given) = match argument.split_once('=') {
            Some((name, value)) if name.starts_with("--") => (name, Some(value.to_string())),
            _ => (argument, None),
        };
        let mut value =
            || given.clone().or_else(|| rest.next().cloned()).ok_or(format!("{name} wants a value"));
        match name {
            "-o" | "--output" => self.output = Some(value()?),
            "--nodes" => {
                let value = value()?;
                let nodes = value.parse().ok().filter(|nodes| (1..=4096).contains(nodes));
                self.nodes =
                    Some(nodes.ok_or(format!("--nodes wants a number from 1 to 4096, and has `{value}`"))?);
            }
            _ if given.is_some() => return Err(format!("there is no option {name} with a value")),
            "--json" => self.json = true,
            "-q" | "--quiet" => self.quiet = true,
            "--as-sheet" => self.form = Form::Sheet,
            "--as-text" => self.form = Form::Text,
            _ => return Err(format!("there is no option {name}; `deckplan --help` lists them")),
        }
        Ok(())
    }

    /// The files fit the command.
    fn fit(self) -> Result<Options, String> {
        let most = match self.command {
            Command::Help | Command::Version => return Ok(self),
            Command::Check => 2,
            _ => 1,
        };
        if let Some(extra) = self.files.get(most) {
            return Err(format!("`{extra}` is one file too many for this command"));
        }
        if self.command == Command::Check && self.files.is_empty() {
            return Err("check wants two files: the sheet and the plan".to_string());
        }
        if self.command == Command::Check && self.file(0) == "-" && self.file(1) == "-" {
            return Err("the sheet and the plan cannot both come from standard input".to_string());
        }
        Ok(self)
    }

    /// A file by its position; standard input where there is none.
    pub fn file(&self, index: usize) -> &str {
        self.files.get(index).map_or("-", String::as_str)
    }
}

fn find(name: &str) -> Result<Command, String> {
    let found = COMMANDS.iter().find(|command| command.0 == name);
    found
        .map(|command| command.1)
        .ok_or(format!("there is no command `{name}`; `deckplan --help` lists them"))
}
