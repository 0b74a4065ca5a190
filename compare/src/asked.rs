//! The proved calls, asked through the C programs host/test/answer*.c, which link the archive.
//!
//! The archive is for x86-64; host/tool runs a C program on any machine that the kit supports. Questions go in batches,
//! so that the way there and back costs little.

use std::io::{Read, Write};
use std::process::{Child, Command, Stdio};

pub struct Asked {
    child: Child,
}

impl Asked {
    /// Starts a C program; the folder that this one runs in is the repository's root.
    pub fn start(program: &str) -> Result<Asked, String> {
        let child = Command::new("host/tool")
            .args(["run", program])
            .stdin(Stdio::piped())
            .stdout(Stdio::piped())
            .spawn()
            .map_err(|why| format!("host/tool run {program}: {why} (run from the repository's root)"))?;
        Ok(Asked { child })
    }

    /// Hands over a batch of questions. The C program reads all of it before it answers.
    pub fn ask(&mut self, questions: &[u8]) -> Result<(), String> {
        let input = self.child.stdin.as_mut().expect("piped");
        let length = (questions.len() as u32).to_le_bytes();
        let sent = input.write_all(&length).and_then(|()| input.write_all(questions)).and_then(|()| input.flush());
        sent.map_err(|why| self.ended(&why.to_string()))
    }

    /// The replies to the batch that was handed over last.
    pub fn replies(&mut self) -> Result<Vec<u8>, String> {
        let output = self.child.stdout.as_mut().expect("piped");
        let mut length = [0; 4];
        let mut replies = Vec::new();
        let got = output.read_exact(&mut length).and_then(|()| {
            replies.resize(u32::from_le_bytes(length) as usize, 0);
            output.read_exact(&mut replies)
        });
        got.map_err(|why| self.ended(&why.to_string())).map(|()| replies)
    }

    fn ended(&mut self, why: &str) -> String {
        match self.child.wait() {
            Ok(status) => format!("the program that calls ours ended: {status}"),
            Err(_) => format!("the program that calls ours is gone: {why}"),
        }
    }
}

impl Drop for Asked {
    fn drop(&mut self) {
        drop(self.child.stdin.take());
        let _ = self.child.wait();
    }
}

/// Replies, taken from the front.
pub struct Replies<'a> {
    bytes: &'a [u8],
}

impl<'a> Replies<'a> {
    pub fn new(bytes: &'a [u8]) -> Replies<'a> {
        Replies { bytes }
    }

    pub fn take(&mut self, length: usize) -> &'a [u8] {
        let (taken, rest) = self.bytes.split_at(length);
        self.bytes = rest;
        taken
    }

    pub fn one<T: crate::ours::Plain>(&mut self) -> T {
        crate::ours::of_bytes(self.take(size_of::<T>()))
    }

    pub fn is_empty(&self) -> bool {
        self.bytes.is_empty()
    }
}
