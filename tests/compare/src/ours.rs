//! The program that is compared: one long-lived process that speaks the batch form.

use second::batch::{Case, Reply};
use std::io::{self, BufReader, BufWriter, Write};
use std::process::{Child, ChildStdin, ChildStdout, Command, Stdio};

pub struct Ours {
    command: Vec<String>,
    process: Option<Process>,
}

struct Process {
    child: Child,
    input: BufWriter<ChildStdin>,
    out: BufReader<ChildStdout>,
}

impl Ours {
    /// A program and its arguments, separated by blanks.
    pub fn new(command: &str) -> Ours {
        Ours {
            command: command.split_whitespace().map(str::to_string).collect(),
            process: None,
        }
    }

    /// The program's reply, or what went wrong. A program that failed is started anew for the
    /// next case.
    pub fn ask(&mut self, case: &Case) -> io::Result<Reply> {
        let mut process = match self.process.take() {
            Some(process) => process,
            None => Process::start(&self.command)?,
        };
        let reply = process.ask(case);
        if reply.is_ok() {
            self.process = Some(process);
        } else {
            process.kill();
        }
        reply
    }

    /// The reply of a process that is asked this case and no other.
    pub fn ask_alone(&self, case: &Case) -> io::Result<Reply> {
        let mut alone = Ours {
            command: self.command.clone(),
            process: None,
        };
        let reply = alone.ask(case)?;
        alone.finish()?;
        Ok(reply)
    }

    /// Ends the input; an error if the program then says more or fails.
    pub fn finish(&mut self) -> io::Result<()> {
        match self.process.take() {
            Some(process) => process.finish(),
            None => Ok(()),
        }
    }
}

impl Process {
    fn start(command: &[String]) -> io::Result<Process> {
        let (program, arguments) = command
            .split_first()
            .ok_or_else(|| io::Error::other("no program is named"))?;
        let mut child = Command::new(program)
            .args(arguments)
            .stdin(Stdio::piped())
            .stdout(Stdio::piped())
            .spawn()
            .map_err(|error| io::Error::new(error.kind(), format!("{program}: {error}")))?;
        let input = child.stdin.take().expect("standard input is a pipe");
        let out = child.stdout.take().expect("standard output is a pipe");
        Ok(Process {
            child,
            input: BufWriter::with_capacity(1 << 18, input),
            out: BufReader::new(out),
        })
    }

    fn ask(&mut self, case: &Case) -> io::Result<Reply> {
        case.write(&mut self.input)?;
        self.input.flush()?;
        Reply::read(&mut self.out, case.memory.len())
    }

    fn finish(mut self) -> io::Result<()> {
        drop(self.input);
        let more = io::copy(&mut self.out, &mut io::sink())?;
        let status = self.child.wait()?;
        match (more, status.success()) {
            (0, true) => Ok(()),
            (0, false) => Err(io::Error::other(format!("ended with {status}"))),
            _ => Err(io::Error::other(format!("{more} bytes too many"))),
        }
    }

    /// Ends a process that failed; that it may be gone already is no matter.
    fn kill(mut self) {
        let _ = self.child.kill();
        let _ = self.child.wait();
    }
}
