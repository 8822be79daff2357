// A reader and a writer that take and give a few bytes at a time, and may fail.
use std::io::{Error, ErrorKind, Read, Result, Write};

// A reader that gives its bytes in pieces. What it does at each read stands in `steps`: 0 an interruption, 1 a failure, and from 2 on at most so many bytes less one; at their
// end as many as there is room for.
pub struct Steps {
    pub left: Vec<u8>,
    pub steps: std::vec::IntoIter<u64>,
}

impl Read for Steps {
    fn read(&mut self, buf: &mut [u8]) -> Result<usize> {
        let most = match self.steps.next() {
            Some(0) => return Err(Error::from(ErrorKind::Interrupted)),
            Some(1) => return Err(Error::from(ErrorKind::TimedOut)),
            Some(n) => n as usize - 1,
            None => usize::MAX,
        };
        let len = most.min(buf.len()).min(self.left.len());
        buf[..len].copy_from_slice(&self.left[..len]);
        self.left.drain(..len);
        Ok(len)
    }
}

// A writer with room for so many bytes, which takes a few at a time.
const PIECE: usize = 5;

pub struct Room(pub Vec<u8>, pub usize);

impl Write for Room {
    fn write(&mut self, buf: &[u8]) -> Result<usize> {
        let len = buf.len().min(PIECE);
        if self.1 == self.0.len() {
            return Ok(0);
        }
        if self.1 < self.0.len() + len {
            return Err(Error::from(ErrorKind::BrokenPipe));
        }
        self.0.extend_from_slice(&buf[..len]);
        Ok(len)
    }

    fn flush(&mut self) -> Result<()> {
        Ok(())
    }
}
