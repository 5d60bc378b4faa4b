//! Passes the packets of one connection from side to side.
//!
//! One thread serves both sides: it waits until a socket can be read or written, and no call on a
//! socket blocks. So it doesn't matter who speaks first, or who hangs up when.
//!
//! How packets are numbered. The two sides of a MySQL connection share one number, which runs on
//! over the packets of both until the next command. What comes of one side goes to the other as it
//! is, number and all: both count the same packets. So the relay has one number too, and each packet
//! is held to it. It is 0 where an answer is complete and a command comes next. A master and its
//! replica begin anew at each acknowledgement, so while the binary log is sent no packet is held to it.

use crate::arguments::Patience;
use crate::exchange::Exchange;
use crate::fault::{self, Fault, Late};
use crate::log::ClientLog;
use crate::poll::{self, Interest};
use crate::side::Side;
use crate::signal::Stop;
use std::net::TcpStream;
use std::os::fd::AsRawFd;
use std::sync::Arc;
use std::time::Instant;

// The most bytes of a packet before a login.
const LOGIN_LIMIT: usize = 1 << 16;

/// A client, its server, and what they say to each other.
pub struct Relay {
    log: ClientLog,
    client: Side,
    server: Side,
    exchange: Exchange,
    limit: usize,
    patience: Patience,
    stop: Arc<Stop>,
    stopped: bool,
    began: Instant,
    /// When bytes last came.
    heard: Instant,
    /// When it last waited. Nothing between two waits takes long.
    now: Instant,
    /// Whether the server has spoken since the client did.
    answer_began: bool,
}

impl Relay {
    /// A relay of packets of at most `limit` bytes. Until the client is logged in, its own are held
    /// to less.
    pub fn new(
        log: ClientLog,
        (client, server): (TcpStream, TcpStream),
        limit: usize,
        patience: Patience,
        stop: Arc<Stop>,
    ) -> Result<Relay, Fault> {
        let now = Instant::now();
        Ok(Relay {
            client: Side::new("client", client, limit.min(LOGIN_LIMIT))?,
            server: Side::new("server", server, limit)?,
            exchange: Exchange::new(log.clone())
                .map_err(|refusal| Fault::Wire("proxy", refusal))?,
            log,
            limit,
            patience,
            stop,
            stopped: false,
            began: now,
            heard: now,
            now,
            answer_began: false,
        })
    }

    /// Passes all packets, until a side hangs up, a packet is refused, or one of both takes too
    /// long; then both sides are closed. The client gets what waits for it, and is told why, but
    /// inside a packet of the server there is no place for that.
    pub fn run(mut self) -> Result<&'static str, Fault> {
        let end = self.pass_all();
        let Relay { log, client, server, stop, .. } = self;
        drop(server.socket);
        let mut last = server.stream.pending().to_vec();
        if let Err(fault) = &end {
            let answer = fault.answer().filter(|_| server.stream.is_between_packets());
            // It stands after the client's chunk that was refused, or in the server's place.
            let behind = u8::from(fault.refuses(client.name));
            let number = client.stream.number().wrapping_add(behind);
            last.extend(answer.into_iter().flat_map(|packet| fault::framed(number, packet)));
        }
        let listens = match end {
            Err(Fault::Io(..) | Fault::Late(Late::Stalled(_))) => false,
            _ => !client.closed,
        };
        let sends = client.stream.is_held() || !client.stream.is_between_packets();
        let is_writing = sends && !client.ended;
        if listens && (is_writing || !last.is_empty()) {
            if let Err(error) = client.say_last(&last, &stop) {
                log.say(format_args!("client: {error}"));
            }
        }
        end
    }

    fn pass_all(&mut self) -> Result<&'static str, Fault> {
        loop {
            while self.pass_from_client()? || self.pass_from_server()? {}
            let wrote_to_client = self.client.write(&mut self.server.stream)?;
            if self.server.write(&mut self.client.stream)? || wrote_to_client {
                continue;
            }
            if let Some(end) = self.end()? {
                return Ok(end);
            }
            if self.client.ended && self.client.stream.is_empty() {
                self.server.tell_end().map_err(|error| Fault::Io("server", error))?;
            }
            self.wait()?;
        }
    }

    /// Passes what came of a packet of the client. Whether it ended.
    fn pass_from_client(&mut self) -> Result<bool, Fault> {
        let may_begin = self.client_may_begin();
        let Relay { client, exchange, answer_began, .. } = self;
        if exchange.is_dumping() {
            client.stream.take_coming_number();
        }
        let ended = client.pass(may_begin, |front| {
            *answer_began &= exchange.is_dumping();
            exchange.hear_client(front)
        })?;
        if ended {
            self.go_on_with(self.client.stream.number());
        }
        Ok(ended)
    }

    /// Passes what came of a packet of the server. Whether it ended.
    fn pass_from_server(&mut self) -> Result<bool, Fault> {
        let may_begin = self.server_may_begin();
        let Relay { client, server, exchange, .. } = self;
        if exchange.is_dumping() || !client.stream.is_between_packets() {
            server.stream.take_coming_number();
        }
        let ended = server.pass(may_begin, |front| exchange.hear_server(front))?;
        if ended {
            self.answer_began = true;
            self.go_on_with(self.server.stream.number());
            if self.exchange.is_logged_in() {
                self.client.stream.set_limit(self.limit);
            }
        }
        Ok(ended)
    }

    /// Whether a packet of the client may be looked at. Behind a login that isn't answered yet a
    /// command waits, which its number shows.
    fn client_may_begin(&self) -> bool {
        let Relay { client, server, exchange, .. } = self;
        let is_early = exchange.is_authenticating() && client.stream.coming_number() == Some(0);
        let is_turn = server.stream.is_between_packets() || exchange.is_dumping();
        exchange.client_speaks() && is_turn && !is_early
    }

    /// Whether a packet of the server may be looked at. One that hangs up inside a command has said
    /// why.
    fn server_may_begin(&self) -> bool {
        let Relay { client, server, exchange, .. } = self;
        let is_turn = client.stream.is_between_packets() || exchange.is_dumping() || server.ended;
        exchange.server_speaks() && is_turn
    }

    /// Gives the next packet of both sides its number, after one of either. A command's is 0.
    fn go_on_with(&mut self, number: u8) {
        let number = if self.exchange.is_between_commands() { 0 } else { number };
        for side in [&mut self.client, &mut self.server] {
            if side.stream.is_between_packets() {
                side.stream.set_number(number);
            }
        }
    }

    /// What ended, where a side hung up and nothing waits for the other. A client that sends no
    /// more still gets the answers that are due, but none is to a part of a packet.
    fn end(&self) -> Result<Option<&'static str>, Fault> {
        let Relay { client, server, exchange, .. } = self;
        let is_sent = !client.is_awaited_by(&server.stream);
        let owes = exchange.server_owes();
        if client.ended && self.client_is_inside() {
            return Err(Fault::GoneInside(client.name));
        }
        if client.closed && owes {
            return Err(Fault::Left);
        }
        if client.closed || client.ended && client.stream.is_empty() && is_sent && !owes {
            return Ok(Some("the client hung up"));
        }
        if server.ended && is_sent {
            return self.server_left().map(Some);
        }
        if self.stopped && self.rests() {
            return Err(Fault::Stopped);
        }
        Ok(None)
    }

    /// Whether the proxy may end here.
    fn rests(&self) -> bool {
        let Relay { client, server, exchange, .. } = self;
        let is_asked = !server.is_awaited_by(&client.stream);
        let is_between = [client, server].iter().all(|side| side.stream.is_between_packets());
        is_asked && is_between && exchange.rests()
    }

    /// Whether a part of a packet of the client came, and its rest has not.
    fn client_is_inside(&self) -> bool {
        let stream = &self.client.stream;
        !stream.is_between_packets() || stream.is_held() && self.client_may_begin()
    }

    /// How the server hung up: between two answers, before one, or inside it.
    fn server_left(&self) -> Result<&'static str, Fault> {
        let Relay { client, server, exchange, .. } = self;
        if !server.stream.is_between_packets() {
            Err(Fault::GoneInside(server.name))
        } else if !exchange.server_owes() {
            Ok("the server hung up")
        } else if client.ended {
            Err(Fault::Left)
        } else if self.answer_began {
            Err(Fault::HalfAnswered)
        } else {
            Err(Fault::Unanswered)
        }
    }

    /// Until when it waits, and what is late then. How long a server works is its own affair.
    fn deadline(&self) -> Option<(Instant, Late)> {
        let Relay { client, server, exchange, patience, heard, .. } = self;
        let stalled =
            |side: &Side| Some((side.stalled? + patience.stalled, Late::Stalled(side.name)));
        let own = if !exchange.is_logged_in() {
            Some((self.began + patience.login, Late::Login))
        } else if self.client_is_inside() {
            let rest = (server.took.max(*heard) + patience.stalled, Late::Rest);
            (!server.is_awaited_by(&client.stream)).then_some(rest)
        } else if !exchange.is_answering() {
            Some((*heard + patience.idle, Late::Idle))
        } else if client.ended {
            Some((*heard + patience.stalled, Late::Answer))
        } else {
            None
        };
        let all = [stalled(client), stalled(server), own];
        all.into_iter().flatten().min_by_key(|&(until, _)| until)
    }

    /// Waits for a side, and reads what came. One that hangs up is seen whoever's turn it is.
    fn wait(&mut self) -> Result<(), Fault> {
        let deadline = self.deadline();
        let Relay { client, server, exchange, stop, stopped, .. } = self;
        let to_client = client.interest(exchange.client_speaks(), &server.stream);
        let to_server = server.interest(exchange.server_speaks(), &client.stream);
        let may_stop = !*stopped && exchange.rests();
        let to_stop = Interest { read: may_stop, ..Interest::READ };
        let files: [(&dyn AsRawFd, _); 3] =
            [(&client.socket, to_client), (&server.socket, to_server), (&**stop, to_stop)];
        let left = deadline.map(|(until, _)| until.saturating_duration_since(self.now));
        let ready = poll::wait(files, left).map_err(|error| Fault::Io("poll", error))?;
        self.now = Instant::now();
        *stopped |= ready[2].read;
        for (side, ready) in [client, server].into_iter().zip(ready) {
            if side.hear(ready)? {
                self.heard = self.now;
            }
        }
        match deadline {
            Some((until, late)) if until <= self.now && self.deadline() == deadline => {
                Err(Fault::Late(late))
            }
            _ => Ok(()),
        }
    }
}
