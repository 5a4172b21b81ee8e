//! Pipes and verifier processes. A verifier reads all that is written to it and ends as its digit says.

use crate::error::SysError;

/// The first descriptor that a node gives out.
const FIRST_FD: u64 = 2;

struct Verifier {
    /// The lock's end of the pipe that this verifier reads.
    write_fd: u64,
    request: Vec<u8>,
}

pub(crate) struct Verifiers {
    verdicts: Vec<u8>,
    next_fd: u64,
    /// The descriptors that the lock holds.
    open: Vec<u64>,
    /// Process i is the i-th that was spawned.
    spawned: Vec<Verifier>,
}

impl Verifiers {
    pub(crate) fn new(verdicts: &[u8]) -> Self {
        Verifiers {
            verdicts: verdicts.to_vec(),
            next_fd: FIRST_FD,
            open: Vec::new(),
            spawned: Vec::new(),
        }
    }

    /// What was written to each verifier.
    pub(crate) fn requests(self) -> Vec<Vec<u8>> {
        self.spawned.into_iter().map(|v| v.request).collect()
    }

    /// A read end and a write end, the write end being the next number.
    pub(crate) fn pipe(&mut self) -> (u64, u64) {
        let (read_fd, write_fd) = (self.next_fd, self.next_fd + 1);
        self.next_fd += 2;
        self.open.extend([read_fd, write_fd]);
        (read_fd, write_fd)
    }

    pub(crate) fn close(&mut self, fd: u64) -> Result<(), SysError> {
        let place = self.open.iter().position(|open| *open == fd);
        self.open.remove(place.ok_or(SysError::InvalidFd)?);
        Ok(())
    }

    /// Starts a verifier. What it inherits is its own and no longer the lock's; the first is what it reads.
    pub(crate) fn spawn(&mut self, inherited: &[u64]) -> Result<u64, SysError> {
        for fd in inherited {
            self.close(*fd)?;
        }
        let read_fd = inherited.first().ok_or(SysError::InvalidFd)?;
        self.spawned.push(Verifier {
            write_fd: read_fd + 1,
            request: Vec::new(),
        });
        Ok(self.spawned.len() as u64 - 1)
    }

    pub(crate) fn write(&mut self, fd: u64, bytes: &[u8]) -> Result<usize, SysError> {
        let held = self.open.contains(&fd);
        let reader = self.spawned.iter_mut().find(|v| held && v.write_fd == fd);
        reader.ok_or(SysError::InvalidFd)?.request.extend(bytes);
        Ok(bytes.len())
    }

    /// The exit status of a verifier: 0 where it approves. One that fails, or has no digit, has none.
    pub(crate) fn wait(&self, pid: u64) -> Result<i8, SysError> {
        match self.verdicts.get(pid as usize) {
            Some(0) => Ok(0),
            Some(1) => Ok(1),
            _ => Err(SysError::WaitFailure),
        }
    }
}
