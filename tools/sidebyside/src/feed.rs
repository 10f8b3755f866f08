// The recording as it comes in. It is read on a thread of its own, so that a feed that pauses keeps neither the running count nor the
// page waiting; what was read and not yet compared is bounded.
use std::io::{self, Read};
use std::sync::atomic::{AtomicBool, Ordering};
use std::sync::mpsc::{sync_channel, Receiver, RecvTimeoutError};
use std::thread;
use std::time::Duration;

const CHUNK: usize = 65536;
const WAITING: usize = 8;
const GLANCE: Duration = Duration::from_millis(200);

pub struct Feed {
    chunks: Receiver<io::Result<Vec<u8>>>,
    chunk: Vec<u8>,
    at: usize,
}

impl Feed {
    pub fn new(mut input: Box<dyn Read + Send>) -> Feed {
        let (send, chunks) = sync_channel(WAITING);
        thread::spawn(move || loop {
            let mut chunk = vec![0; CHUNK];
            let read = match input.read(&mut chunk) {
                Ok(0) => return,
                Ok(n) => {
                    chunk.truncate(n);
                    Ok(chunk)
                }
                Err(error) if error.kind() == io::ErrorKind::Interrupted => continue,
                Err(error) => Err(error),
            };
            let last = read.is_err();
            if send.send(read).is_err() || last {
                return;
            }
        });
        Feed {
            chunks,
            chunk: vec![],
            at: 0,
        }
    }

    // Fills the buffer as far as the input goes, and says how far. While it waits it calls `idle` now and then.
    pub fn fill(&mut self, buffer: &mut [u8], mut idle: impl FnMut()) -> io::Result<usize> {
        let mut n = 0;
        while n < buffer.len() && !stopped() {
            let ready = &self.chunk[self.at..];
            if ready.is_empty() {
                match self.chunks.recv_timeout(GLANCE) {
                    Ok(chunk) => {
                        self.chunk = chunk?;
                        self.at = 0;
                    }
                    Err(RecvTimeoutError::Timeout) => idle(),
                    Err(RecvTimeoutError::Disconnected) => break,
                }
                continue;
            }
            let some = ready.len().min(buffer.len() - n);
            buffer[n..n + some].copy_from_slice(&ready[..some]);
            n += some;
            self.at += some;
        }
        Ok(n)
    }
}

static STOP: AtomicBool = AtomicBool::new(false);

pub fn stopped() -> bool {
    STOP.load(Ordering::Relaxed)
}

const SIGINT: i32 = 2;
const SIGTERM: i32 = 15;
const DEFAULT: usize = 0;
const IGNORED: usize = 1;

extern "C" {
    fn signal(number: i32, handler: usize) -> usize;
}

// The second interrupt ends the program at once.
extern "C" fn interrupted(number: i32) {
    STOP.store(true, Ordering::Relaxed);
    unsafe { signal(number, DEFAULT) };
}

// A live feed has no end of its own: who stops it is owed the table and the page. What the caller had ignored stays ignored.
pub fn stop_when_interrupted() {
    for number in [SIGINT, SIGTERM] {
        unsafe {
            if signal(number, interrupted as extern "C" fn(i32) as usize) == IGNORED {
                signal(number, IGNORED);
            }
        }
    }
}
