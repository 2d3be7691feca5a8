//! One of the two programs: a thread feeds it a script, its answers are read one by one, and one that hangs is ended.

use std::io::{self, BufReader, BufWriter, Read, Write};
use std::process::{Child, ChildStdout, Command, Stdio};
use std::sync::atomic::{AtomicU64, Ordering};
use std::sync::mpsc::{self, RecvTimeoutError, Sender};
use std::sync::{Arc, Mutex};
use std::thread;
use std::time::Duration;

/// No answer is longer than this.
const LONGEST: usize = 1 << 24;

/// What a program writes: an answer to an entry, or the closing line with all that follows it; else it has ended.
#[derive(Clone, Copy, PartialEq, Debug)]
pub enum Frame {
    Answer(u8),
    Closing,
    Ended,
}

/// A frame and its bytes.
pub type Said = (Frame, Vec<u8>);

pub struct Side {
    child: Arc<Mutex<Child>>,
    output: BufReader<ChildStdout>,
    /// The bytes of the last answer or closing line.
    pub bytes: Vec<u8>,
    /// Odd while an answer, or the end, is awaited.
    awaited: Arc<AtomicU64>,
    _over: Sender<()>,
}

impl Side {
    /// Starts a program and feeds it. It is ended where it lets an answer be awaited for longer than `patience`.
    pub fn start(
        words: &[String],
        quiet: bool,
        patience: Duration,
        feed: impl FnOnce(&mut dyn Write) -> io::Result<()> + Send + 'static,
    ) -> Result<Side, String> {
        let mut child = Command::new(&words[0])
            .args(&words[1..])
            .stdin(Stdio::piped())
            .stdout(Stdio::piped())
            .stderr(if quiet { Stdio::null() } else { Stdio::inherit() })
            .spawn()
            .map_err(|e| format!("{} does not start: {e}", words[0]))?;
        let mut input = BufWriter::with_capacity(1 << 16, child.stdin.take().unwrap());
        let output = BufReader::with_capacity(1 << 16, child.stdout.take().unwrap());
        // A program that stops reading is no fault of the feeder: what it answered tells.
        thread::spawn(move || feed(&mut input).and_then(|()| input.flush()));

        let child = Arc::new(Mutex::new(child));
        let awaited = Arc::new(AtomicU64::new(0));
        let (_over, is_over) = mpsc::channel();
        let (watched, count) = (child.clone(), awaited.clone());
        thread::spawn(move || {
            let mut before = 0;
            while is_over.recv_timeout(patience) == Err(RecvTimeoutError::Timeout) {
                let now = count.load(Ordering::Relaxed);
                if now == before && now % 2 == 1 {
                    let _ = watched.lock().unwrap().kill();
                }
                before = now;
            }
        });
        Ok(Side { child, output, bytes: Vec::new(), awaited, _over })
    }

    /// Reads the next thing that the program writes.
    pub fn frame(&mut self) -> Frame {
        self.awaited.fetch_add(1, Ordering::Relaxed);
        let frame = self.read().unwrap_or(Frame::Ended);
        self.awaited.fetch_add(1, Ordering::Relaxed);
        if frame == Frame::Ended {
            self.bytes.clear();
        }
        frame
    }

    fn read(&mut self) -> io::Result<Frame> {
        let mut head = [0; 5];
        self.output.read_exact(&mut head[..1])?;
        self.bytes.clear();
        if head[0] == b's' {
            self.bytes.push(b's');
            (&mut self.output).take(1000).read_to_end(&mut self.bytes)?;
            return Ok(Frame::Closing);
        }
        self.output.read_exact(&mut head[1..])?;
        let length = u32::from_le_bytes([head[1], head[2], head[3], head[4]]) as usize;
        if length > LONGEST {
            return Ok(Frame::Ended);
        }
        self.bytes.resize(length, 0);
        self.output.read_exact(&mut self.bytes)?;
        Ok(Frame::Answer(head[0]))
    }

    /// What the program said, to be kept.
    pub fn said(&self, frame: Frame) -> Said {
        (frame, self.bytes.clone())
    }

    /// Waits for the program's own end, no longer than for an answer, and gives its status, or how else it ended.
    pub fn end(self) -> Result<i32, String> {
        self.awaited.fetch_add(1, Ordering::Relaxed);
        drop(self.output);
        loop {
            let ended = self.child.lock().unwrap().try_wait().map_err(|e| e.to_string())?;
            match ended {
                Some(status) => return status.code().ok_or(status.to_string()),
                None => thread::sleep(Duration::from_micros(200)),
            }
        }
    }

    /// Ends the program.
    pub fn stop(self) {
        let _ = self.child.lock().unwrap().kill();
        let _ = self.end();
    }
}
