//! The clients, each on a thread of its own.

use crate::arguments::Arguments;
use crate::fault::{self, Fault, NO_SERVER, TOO_MANY_CLIENTS};
use crate::listener::{is_no_descriptor, Came, Listener};
use crate::log::{self, ClientLog, Log};
use crate::relay::Relay;
use crate::signal::Stop;
use std::io::{self, Write};
use std::net::TcpStream;
use std::sync::mpsc::sync_channel;
use std::sync::Arc;
use std::thread;
use std::time::{Duration, Instant};

// How often it is looked whether the clients have ended.
const PAUSE: Duration = Duration::from_millis(20);

pub struct Clients {
    arguments: Arguments,
    stop: Arc<Stop>,
    log: Log,
    // Each client's thread holds one of these, so that they count the clients.
    place: Arc<()>,
    taken: u64,
}

impl Clients {
    pub fn new(arguments: Arguments, stop: Arc<Stop>, log: Log) -> Clients {
        Clients { arguments, stop, log, place: Arc::new(()), taken: 0 }
    }

    /// Takes clients until SIGTERM comes. That the system has no room for a client is logged, and
    /// ends nothing.
    pub fn take_all(&mut self, mut listener: Listener) -> io::Result<()> {
        loop {
            let (socket, address, lack) = match listener.next(&self.stop)? {
                Came::Client(socket, address) => (socket, address, None),
                Came::TooMany(socket, address, error) => (socket, address, Some(error)),
                Came::Failed(error) => {
                    self.log.say(format_args!("a client isn't taken: {error}"));
                    continue;
                }
                Came::Stop => return Ok(()),
            };
            self.taken += 1;
            let log = self.log.of_client(self.taken, address);
            match lack {
                None => self.serve(socket, log),
                Some(error) => {
                    refuse_unserved(&log, socket, &error);
                    listener.fill_reserve();
                }
            }
        }
    }

    /// Serves a client on a thread of its own, if there is a place for it.
    fn serve(&self, socket: TcpStream, log: ClientLog) {
        let place = Arc::clone(&self.place);
        // One is held here, and one by the proxy.
        if Arc::strong_count(&place) - 2 >= self.arguments.clients {
            log.say(format_args!("is one client too many"));
            return refuse(&log, socket, TOO_MANY_CLIENTS);
        }
        let (arguments, stop, own_log) = (self.arguments, Arc::clone(&self.stop), log.clone());
        // The socket follows once there is a thread: where there is none, it is needed here.
        let (hand, handed) = sync_channel(1);
        let started = thread::Builder::new().spawn(move || {
            if let Ok(socket) = handed.recv() {
                relay(&own_log, socket, &arguments, stop);
            }
            drop(place);
        });
        match started {
            // (the thread waits for it)
            Ok(_) => drop(hand.send(socket)),
            Err(error) => refuse_unserved(&log, socket, &error),
        }
    }

    /// Waits until the clients have ended their commands, as long as they may take.
    pub fn drain(self) {
        let ends = Instant::now() + self.arguments.drain;
        while Arc::strong_count(&self.place) > 1 && Instant::now() < ends {
            thread::sleep(PAUSE);
        }
        let left = Arc::strong_count(&self.place) - 1;
        self.log.say(format_args!("ends with {}", log::count(left as u64, "client")));
    }
}

/// Connects a client to the server, and relays what both say to its end.
fn relay(log: &ClientLog, client: TcpStream, arguments: &Arguments, stop: Arc<Stop>) {
    let server = match TcpStream::connect_timeout(&arguments.server, arguments.patience.login) {
        Ok(server) => server,
        Err(error) if is_no_descriptor(&error) => return refuse_unserved(log, client, &error),
        Err(error) => {
            refuse(log, client, NO_SERVER);
            return log.say(format_args!("{}", Fault::Io("server", error)));
        }
    };
    let (limit, patience) = (arguments.limit, arguments.patience);
    match Relay::new(log.clone(), (client, server), limit, patience, stop).and_then(Relay::run) {
        Ok(end) => log.say(format_args!("{end}")),
        Err(fault) => log.say(format_args!("{fault}")),
    }
}

/// Refuses a client for which the system has no descriptor or no thread.
fn refuse_unserved(log: &ClientLog, client: TcpStream, error: &io::Error) {
    log.say(format_args!("isn't served: {error}"));
    refuse(log, client, TOO_MANY_CLIENTS);
}

/// Sends a client a packet in place of the greeting.
fn refuse(log: &ClientLog, mut client: TcpStream, packet: &[u8]) {
    if let Err(error) = client.write_all(&fault::framed(0, packet)) {
        log.say(format_args!("client: {error}"));
    }
}
