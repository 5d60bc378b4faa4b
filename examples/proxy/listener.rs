//! Taking clients, also where the system has no descriptor left for one.

use crate::poll::{self, Interest};
use crate::signal::Stop;
use std::ffi::c_int;
use std::fs::File;
use std::io::{self, ErrorKind};
use std::net::{SocketAddr, TcpListener, TcpStream};
use std::os::fd::{AsRawFd, RawFd};
use std::thread;
use std::time::Duration;

// The most clients that wait to be taken; the system cuts it to its own most. std's listener has
// 128.
const QUEUE: c_int = 4096;
// How many descriptors are kept for clients that can't be served.
const RESERVE: usize = 2;
// How long to wait for a descriptor where the reserve is used up too.
const PAUSE: Duration = Duration::from_millis(100);
// Linux: the process, or the system, has as many open files as it may.
const NO_DESCRIPTOR: [c_int; 2] = [24, 23];

extern "C" {
    fn listen(file: RawFd, queue: c_int) -> c_int;
}

/// What came to a listener.
pub enum Came {
    /// A client, which is to be served.
    Client(TcpStream, SocketAddr),
    /// A client for which there is no descriptor but this one.
    TooMany(TcpStream, SocketAddr, io::Error),
    /// A client couldn't be taken.
    Failed(io::Error),
    /// SIGTERM.
    Stop,
}

/// Where clients come to.
pub struct Listener {
    socket: TcpListener,
    reserve: Vec<File>,
}

impl Listener {
    pub fn bind(address: SocketAddr) -> io::Result<Listener> {
        let socket = TcpListener::bind(address)?;
        // SAFETY: the call has no pointers.
        if unsafe { listen(socket.as_raw_fd(), QUEUE) } < 0 {
            return Err(io::Error::last_os_error());
        }
        socket.set_nonblocking(true)?;
        let mut listener = Listener { socket, reserve: Vec::new() };
        listener.fill_reserve();
        Ok(listener)
    }

    pub fn address(&self) -> io::Result<SocketAddr> {
        self.socket.local_addr()
    }

    /// Waits for the next client.
    pub fn next(&mut self, stop: &Stop) -> io::Result<Came> {
        loop {
            let files: [(&dyn AsRawFd, _); 2] =
                [(&self.socket, Interest::READ), (stop, Interest::READ)];
            if poll::wait(files, None)?[1].read {
                return Ok(Came::Stop);
            }
            match self.socket.accept() {
                Ok((socket, address)) => return Ok(Came::Client(socket, address)),
                Err(error) if is_passing(&error) => {}
                Err(error) if is_no_descriptor(&error) => return Ok(self.next_by_reserve(error)),
                Err(error) => return Ok(failed(error)),
            }
        }
    }

    /// Takes the next client by a descriptor of the reserve.
    fn next_by_reserve(&mut self, error: io::Error) -> Came {
        self.fill_reserve();
        while self.reserve.pop().is_some() {
            match self.socket.accept() {
                Ok((socket, address)) => return Came::TooMany(socket, address, error),
                Err(other) if is_no_descriptor(&other) => {}
                Err(other) => return failed(other),
            }
        }
        failed(error)
    }

    /// Opens what is missing in the reserve, as far as the system has it.
    pub fn fill_reserve(&mut self) {
        while self.reserve.len() < RESERVE {
            let Ok(file) = File::open("/dev/null") else { return };
            self.reserve.push(file);
        }
    }
}

/// Whether it is for want of a descriptor.
pub fn is_no_descriptor(error: &io::Error) -> bool {
    error.raw_os_error().is_some_and(|number| NO_DESCRIPTOR.contains(&number))
}

/// Whether no client waits, or one that did has gone.
fn is_passing(error: &io::Error) -> bool {
    matches!(
        error.kind(),
        ErrorKind::WouldBlock | ErrorKind::Interrupted | ErrorKind::ConnectionAborted
    )
}

/// A client that couldn't be taken waits a while.
fn failed(error: io::Error) -> Came {
    thread::sleep(PAUSE);
    Came::Failed(error)
}
