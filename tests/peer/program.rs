//! A program that is spoken with line by line.
use std::io::{BufRead, BufReader, Read, Write};
use std::process::{Child, ChildStdin, ChildStdout, Command, Stdio};

pub struct Program {
    name: String,
    child: Child,
    input: ChildStdin,
    output: BufReader<ChildStdout>,
}

impl Program {
    /// A command of words with blanks between them, and more words behind.
    pub fn start(command: &str, more: &[String]) -> Result<Program, String> {
        let mut words = command.split_whitespace();
        let name = words.next().ok_or("a command without a program")?;
        let mut child = Command::new(name)
            .args(words)
            .args(more)
            .stdin(Stdio::piped())
            .stdout(Stdio::piped())
            .stderr(Stdio::null())
            .spawn()
            .map_err(|e| format!("{}: {}", name, e))?;
        let (input, output) = (child.stdin.take().expect("a pipe"), child.stdout.take().expect("a pipe"));
        Ok(Program { name: name.to_string(), child, input, output: BufReader::new(output) })
    }

    pub fn say(&mut self, line: &str) -> Result<(), String> {
        let said = self.input.write_all(format!("{}\n", line).as_bytes());
        said.map_err(|e| format!("{} does not listen: {}", self.name, e))
    }

    pub fn hear(&mut self) -> Result<String, String> {
        let mut line = String::new();
        self.output.read_line(&mut line).map_err(|e| format!("{} cannot be heard: {}", self.name, e))?;
        match line.strip_suffix('\n') {
            Some(line) => Ok(line.to_string()),
            None => Err(format!("{} ends without a word", self.name)),
        }
    }

    pub fn ask(&mut self, line: &str) -> Result<String, String> {
        self.say(line)?;
        self.hear()
    }

    /// The status of a program that has said all, which is seen.
    pub fn end(self) -> Result<i32, String> {
        let Program { name, mut child, input, mut output } = self;
        drop(input);
        let mut more = String::new();
        output.read_to_string(&mut more).map_err(|e| format!("{} cannot be heard: {}", name, e))?;
        if !more.is_empty() {
            return Err(format!("{} goes on behind its end: {:.60}", name, more));
        }
        let status = child.wait().map_err(|e| format!("{}: {}", name, e))?;
        status.code().ok_or_else(|| format!("{} was ended by the machine", name))
    }
}
