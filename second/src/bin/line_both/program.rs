//! A program of the text protocol, run beside this one.

use std::io::{BufRead, BufReader, Write};
use std::process::{self, Child, ChildStdin, ChildStdout, Command, Stdio};
use std::thread;

pub struct Program {
    pub path: String,
    commands: ChildStdin,
    replies: BufReader<ChildStdout>,
    _child: Child,
}

impl Program {
    pub fn start(path: &str) -> Program {
        let piped = Command::new(path)
            .stdin(Stdio::piped())
            .stdout(Stdio::piped())
            .spawn();
        let mut child = piped.unwrap_or_else(|error| {
            eprintln!("line_both: {path}: {error}");
            process::exit(2)
        });
        Program {
            path: path.to_string(),
            commands: child.stdin.take().expect("piped"),
            replies: BufReader::new(child.stdout.take().expect("piped")),
            _child: child,
        }
    }

    /// A reply to each command; fewer if the program ends before.
    pub fn replies(&mut self, commands: &[String]) -> Vec<String> {
        let text = commands.join("\n") + "\n";
        let (pipe, replies) = (&mut self.commands, &mut self.replies);
        thread::scope(|scope| {
            // a program that has ended shows in its replies
            scope.spawn(move || pipe.write_all(text.as_bytes()).and_then(|()| pipe.flush()));
            let lines = replies.lines().map_while(Result::ok);
            lines.take(commands.len()).collect()
        })
    }
}
