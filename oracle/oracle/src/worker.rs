//! Work in a process of its own, so that a file that takes too much time,
//! memory or stack ends that process and not the run.
//!
//! The program starts itself again with the argument `--worker`. The two talk
//! over pipes: a file's words go in as a frame, and a reply comes out as a
//! length and so many bytes. A process that ends instead of replying has met a
//! limit.

use std::any::Any;
use std::io::{self, BufReader, Read, Write};
use std::panic::{catch_unwind, AssertUnwindSafe};
use std::process::{exit, Child, ChildStdin, ChildStdout, Command, Stdio};
use std::sync::mpsc::{channel, Receiver, Sender};
use std::thread;
use std::time::Duration;

use files::frames;

use crate::memory;

/// The argument that starts the program as a worker.
pub const ARGUMENT: &str = "--worker";

/// The longest time that one file may take.
const MOST_TIME: Duration = Duration::from_secs(5);

/// The most memory that a worker may hold, its stack aside.
const MOST_MEMORY: usize = 1 << 30;

/// Sizes of the stack to try, for a system that refuses the first. A stack
/// takes memory only as far down as it is used.
const STACKS: [usize; 3] = [4 << 30, 1 << 30, 1 << 28];

/// The first byte of a reply: what follows is the answer, or the message of a
/// panic, which is a fault of this program or of the Rust.
const ANSWER: u8 = 0;
const PANIC: u8 = 1;

/// A process that answers one file after another.
#[derive(Default)]
pub struct Worker {
    process: Option<Process>,
    /// What the process is started with behind `ARGUMENT`.
    options: Vec<String>,
}

struct Process {
    child: Child,
    requests: ChildStdin,
    replies: BufReader<ChildStdout>,
}

impl Worker {
    pub fn with(options: &[&str]) -> Self {
        Worker {
            process: None,
            options: options.iter().map(|option| option.to_string()).collect(),
        }
    }

    /// The reply for the file `words`; `None` where the worker met a limit.
    pub fn ask(&mut self, words: &[u32]) -> io::Result<Option<Vec<u8>>> {
        let mut process = match self.process.take() {
            Some(process) => process,
            None => Process::start(&self.options)?,
        };
        let Ok(mut reply) = process.ask(words) else {
            // Dropping the process waits for its end.
            return Ok(None);
        };
        self.process = Some(process);
        match reply.remove(0) {
            ANSWER => Ok(Some(reply)),
            _ => Err(io::Error::other(format!(
                "panic: {}",
                String::from_utf8_lossy(&reply)
            ))),
        }
    }
}

impl Process {
    fn start(options: &[String]) -> io::Result<Self> {
        // A stack that overflows is announced on standard error; here it is
        // one more way to meet a limit.
        let mut child = Command::new(std::env::current_exe()?)
            .arg(ARGUMENT)
            .args(options)
            .stdin(Stdio::piped())
            .stdout(Stdio::piped())
            .stderr(Stdio::null())
            .spawn()?;
        let requests = child.stdin.take().expect("it is piped");
        let replies = BufReader::new(child.stdout.take().expect("it is piped"));
        let mut process = Process {
            child,
            requests,
            replies,
        };
        // An empty reply says that it is ready.
        match process.read_reply() {
            Ok(_) => Ok(process),
            Err(_) => Err(io::Error::other("a worker cannot start")),
        }
    }

    fn ask(&mut self, words: &[u32]) -> io::Result<Vec<u8>> {
        frames::write(&mut self.requests, words)?;
        self.requests.flush()?;
        self.read_reply()
    }

    fn read_reply(&mut self) -> io::Result<Vec<u8>> {
        let mut length = [0; 8];
        self.replies.read_exact(&mut length)?;
        let length = u64::from_le_bytes(length);
        let mut reply = Vec::new();
        self.replies.by_ref().take(length).read_to_end(&mut reply)?;
        match reply.len() as u64 == length {
            true => Ok(reply),
            false => Err(io::ErrorKind::UnexpectedEof.into()),
        }
    }
}

impl Drop for Process {
    fn drop(&mut self) {
        // It may have ended already; waiting for it leaves nothing behind.
        let _ = self.child.kill();
        let _ = self.child.wait();
    }
}

/// Serves as a worker: replies with `answer` of each file until the input
/// ends. The process ends where a limit is met.
pub fn serve(answer: fn(&[u32]) -> Vec<u8>) -> io::Result<()> {
    let thread = AnsweringThread::start(answer)?;
    memory::limit(MOST_MEMORY);
    let mut input = io::stdin().lock();
    let mut output = io::stdout().lock();
    write_reply(&mut output, &[])?;
    while let Some(words) = frames::read(&mut input)? {
        thread.files.send(words).map_err(io::Error::other)?;
        match thread.replies.recv_timeout(MOST_TIME) {
            Ok(reply) => write_reply(&mut output, &reply)?,
            Err(_) => exit(1),
        }
    }
    Ok(())
}

/// A thread with a large stack that answers files. Deep files recurse deep.
struct AnsweringThread {
    files: Sender<Vec<u32>>,
    replies: Receiver<Vec<u8>>,
}

impl AnsweringThread {
    fn start(answer: fn(&[u32]) -> Vec<u8>) -> io::Result<Self> {
        let mut result = Err(io::ErrorKind::OutOfMemory.into());
        for stack in STACKS {
            result = Self::with_stack(answer, stack);
            if result.is_ok() {
                break;
            }
        }
        result
    }

    fn with_stack(answer: fn(&[u32]) -> Vec<u8>, stack: usize) -> io::Result<Self> {
        let (files, received) = channel::<Vec<u32>>();
        let (reply, replies) = channel();
        let thread = thread::Builder::new().stack_size(stack);
        thread.spawn(move || {
            for words in received {
                if reply.send(guarded(answer, &words)).is_err() {
                    break;
                }
            }
        })?;
        Ok(AnsweringThread { files, replies })
    }
}

/// The reply for the file `words`.
fn guarded(answer: fn(&[u32]) -> Vec<u8>, words: &[u32]) -> Vec<u8> {
    let (kind, bytes) = match catch_unwind(AssertUnwindSafe(|| answer(words))) {
        Ok(answer) => (ANSWER, answer),
        Err(panic) => (PANIC, message(panic.as_ref()).into_bytes()),
    };
    let mut reply = vec![kind];
    reply.extend(bytes);
    reply
}

fn message(panic: &(dyn Any + Send)) -> String {
    if let Some(message) = panic.downcast_ref::<String>() {
        return message.clone();
    }
    let message = panic.downcast_ref::<&str>();
    message.copied().unwrap_or("no message").to_string()
}

fn write_reply(output: &mut impl Write, reply: &[u8]) -> io::Result<()> {
    output.write_all(&(reply.len() as u64).to_le_bytes())?;
    output.write_all(reply)?;
    output.flush()
}

#[cfg(test)]
mod tests {
    use super::*;

    #[test]
    fn a_panic_becomes_a_reply() {
        let mut reply = guarded(|words| panic!("{} words", words.len()), &[1, 2]);
        assert_eq!(reply.remove(0), PANIC);
        assert_eq!(reply, b"2 words");
    }

    #[test]
    fn an_answer_stands_behind_its_kind() {
        assert_eq!(guarded(|_| vec![7, 8], &[]), [ANSWER, 7, 8]);
    }
}
