//! One side of a connection: its socket, and what came of it for the other.

use crate::exchange::Misread;
use crate::fault::Fault;
use crate::poll::{self, Interest, Ready};
use crate::signal::Stop;
use crate::stream::{Front, Stream};
use std::io::{self, ErrorKind, Read, Write};
use std::net::{Shutdown, TcpStream};
use std::time::{Duration, Instant};

// How long a client that is hung up on may go on sending what it began.
const LAST_WORDS: Duration = Duration::from_secs(10);
// How long it may once the proxy ends.
const LAST_MOMENT: Duration = Duration::from_secs(2);

pub struct Side {
    pub name: &'static str,
    pub socket: TcpStream,
    pub stream: Stream,
    /// It sends no more, and all that it sent was read.
    pub ended: bool,
    /// It takes no more.
    pub closed: bool,
    /// When it last took bytes after others that it didn't take at once.
    pub took: Instant,
    /// Since when it takes none of the bytes that wait for it.
    pub stalled: Option<Instant>,
    /// It sends no more than what waits in its socket, for which there was no room.
    hung_up: bool,
    /// It was told that no more comes.
    told_end: bool,
}

impl Side {
    pub fn new(name: &'static str, socket: TcpStream, limit: usize) -> Result<Side, Fault> {
        let set = socket.set_nonblocking(true).and_then(|()| socket.set_nodelay(true));
        set.map_err(|error| Fault::Io(name, error))?;
        Ok(Side {
            name,
            socket,
            stream: Stream::new(limit),
            ended: false,
            closed: false,
            took: Instant::now(),
            stalled: None,
            hung_up: false,
            told_end: false,
        })
    }

    /// Reads once, where something came and there is room for it. Whether it did. The end of this
    /// side stands after all that it sent, so nothing but a read tells it.
    pub fn hear(&mut self, ready: Ready) -> Result<bool, Fault> {
        if self.stream.is_full() {
            self.hung_up |= ready.hung_up;
            return Ok(false);
        }
        if !ready.read {
            return Ok(false);
        }
        match at_once(self.socket.read(self.stream.spare())) {
            Ok(Some(0)) => self.ended = true,
            Ok(Some(count)) => self.stream.add(count),
            Ok(None) => {}
            Err(error) if is_closed(&error) => {
                self.ended = true;
                self.close();
            }
            Err(error) => return Err(Fault::Io(self.name, error)),
        }
        Ok(true)
    }

    /// Writes as much of what waits for this side as one write takes. Whether any went.
    pub fn write(&mut self, other: &mut Stream) -> Result<bool, Fault> {
        if !self.is_awaited_by(other) {
            return Ok(false);
        }
        match at_once(self.socket.write(other.pending())) {
            Ok(Some(count)) => {
                other.sent(count);
                if self.stalled.take().is_some() {
                    self.took = Instant::now();
                }
                Ok(count > 0)
            }
            Ok(None) => {
                self.stalled.get_or_insert_with(Instant::now);
                Ok(false)
            }
            // (what it sent before that may still be read)
            Err(error) if is_closed(&error) => {
                self.close();
                Ok(false)
            }
            Err(error) => Err(Fault::Io(self.name, error)),
        }
    }

    /// Tells this side, once, that the other sends no more.
    pub fn tell_end(&mut self) -> io::Result<()> {
        if self.told_end || self.closed {
            return Ok(());
        }
        self.told_end = true;
        match self.socket.shutdown(Shutdown::Write) {
            Err(error) if error.kind() == ErrorKind::NotConnected => {
                self.close();
                Ok(())
            }
            told => told,
        }
    }

    fn close(&mut self) {
        self.closed = true;
        self.stalled = None;
    }

    /// Whether something of the other side can be written here. A side that sends no more may
    /// still read.
    pub fn is_awaited_by(&self, other: &Stream) -> bool {
        !self.closed && !other.pending().is_empty()
    }

    /// Passes what came of one packet: of the open one, or of the next, which begins only where it
    /// may, and is heard before it goes: by its front, or, where that isn't enough, once it has come
    /// whole. Whether its end passed.
    pub fn pass(
        &mut self,
        may_begin: bool,
        mut hear: impl FnMut(&mut Front) -> Result<bool, Misread>,
    ) -> Result<bool, Fault> {
        let name = self.name;
        let refused = |refusal| Fault::Wire(name, refusal);
        if !self.stream.is_between_packets() {
            return self.stream.pass().map_err(refused);
        }
        if !may_begin {
            return Ok(false);
        }
        while let Some(coming) = self.stream.coming().map_err(refused)? {
            let ended = self.stream.pass().map_err(refused)?;
            match hear(&mut self.stream.front(&coming)) {
                Ok(true) => {
                    self.stream.let_go();
                    return Ok(ended);
                }
                // (the whole may have come)
                Ok(false) => self.stream.hold_for_whole(coming),
                Err(misread) => {
                    self.stream.hold(coming);
                    return Err(Fault::Malformed(name, misread));
                }
            }
        }
        Ok(false)
    }

    /// What to wait for here. While it isn't this side's turn it may only hang up.
    pub fn interest(&self, speaks: bool, other: &Stream) -> Interest {
        let reads = speaks || !self.stream.is_between_packets();
        let is_full = self.stream.is_full();
        let is_known = self.ended || is_full && self.hung_up;
        Interest {
            read: !self.ended && reads && !is_full,
            write: self.is_awaited_by(other),
            hang_up: !reads && !is_known,
        }
    }

    /// Sends this side, the client, its last bytes, and waits until it hangs up. What it is about to
    /// send is read and dropped: as long as it writes, it doesn't read.
    pub fn say_last(mut self, mut bytes: &[u8], stop: &Stop) -> io::Result<()> {
        let (mut until, mut stopped) = (Instant::now() + LAST_WORDS, false);
        while !(self.ended && bytes.is_empty()) && Instant::now() < until {
            if bytes.is_empty() {
                self.tell_end()?;
            } else {
                let went = at_once(self.socket.write(bytes))?.unwrap_or(0);
                bytes = &bytes[went..];
                if went > 0 {
                    continue;
                }
            }
            let to_client =
                Interest { read: !self.ended, write: !bytes.is_empty(), hang_up: false };
            let to_stop = Interest { read: !stopped, ..Interest::READ };
            let left = until.saturating_duration_since(Instant::now());
            let [came, stops] =
                poll::wait([(&self.socket, to_client), (stop, to_stop)], Some(left))?;
            if stops.read {
                stopped = true;
                until = until.min(Instant::now() + LAST_MOMENT);
            }
            if came.read {
                self.ended |= at_once(self.socket.read(&mut [0; 1 << 12]))? == Some(0);
            }
        }
        Ok(())
    }
}

/// How many bytes a read or a write took, or `None` where it can't take any yet.
fn at_once(taken: io::Result<usize>) -> io::Result<Option<usize>> {
    match taken {
        Err(error) if is_for_later(&error) => Ok(None),
        taken => taken.map(Some),
    }
}

fn is_for_later(error: &io::Error) -> bool {
    matches!(error.kind(), ErrorKind::WouldBlock | ErrorKind::Interrupted)
}

fn is_closed(error: &io::Error) -> bool {
    matches!(error.kind(), ErrorKind::ConnectionReset | ErrorKind::BrokenPipe)
}
