//! The archive, which is the library as built, behind a pipe: a program that reads requests and writes replies until
//! its input ends.

use crate::calls::Answer;
use crate::request::{Request, GUARD};
use std::io::{self, BufReader, Read, Write};
use std::process::{Child, ChildStdin, ChildStdout, Command, Stdio};

pub struct Archive {
    child: Child,
    requests: ChildStdin,
    replies: BufReader<ChildStdout>,
}

/// What the archive answered, and all bytes of each buffer with its guards.
pub struct Reply {
    pub answer: Answer,
    pub buffers: Vec<Vec<u8>>,
}

impl Reply {
    /// A buffer without its guards.
    pub fn content(&self, buffer: usize) -> &[u8] {
        let whole = &self.buffers[buffer];
        &whole[GUARD..whole.len() - GUARD]
    }
}

impl Archive {
    pub fn start(command: &[String]) -> io::Result<Archive> {
        let mut child = Command::new(&command[0])
            .args(&command[1..])
            .stdin(Stdio::piped())
            .stdout(Stdio::piped())
            .spawn()?;
        let requests = child.stdin.take().ok_or(io::ErrorKind::BrokenPipe)?;
        let replies = BufReader::new(child.stdout.take().ok_or(io::ErrorKind::BrokenPipe)?);
        Ok(Archive {
            child,
            requests,
            replies,
        })
    }

    pub fn send(&mut self, request: &Request) -> io::Result<()> {
        self.requests.write_all(&request.written())?;
        self.requests.flush()
    }

    /// The reply to the request; it has as many bytes as the request's buffers, whose lengths no call changes.
    pub fn receive(&mut self, request: &Request) -> io::Result<Reply> {
        let answer = Answer {
            number: self.number()?,
            place: self.number()?,
        };
        let mut buffers = Vec::new();
        for buffer in &request.buffers {
            let mut whole = vec![0; buffer.size()];
            self.replies.read_exact(&mut whole)?;
            buffers.push(whole);
        }
        Ok(Reply { answer, buffers })
    }

    fn number(&mut self) -> io::Result<u64> {
        let mut bytes = [0; 8];
        self.replies.read_exact(&mut bytes)?;
        Ok(u64::from_le_bytes(bytes))
    }

    /// Ends the archive's input and waits for its end.
    pub fn stop(mut self) -> io::Result<()> {
        drop(self.requests);
        self.child.wait().map(|_| ())
    }
}
