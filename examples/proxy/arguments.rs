//! What the words of the command line ask for.

use std::net::SocketAddr;
use std::str::FromStr;
use std::time::Duration;

pub const USAGE: &str = "usage: proxy [OPTIONS] LISTEN SERVER

  LISTEN  the address for clients, such as 127.0.0.1:4306; with port 0 any free one
  SERVER  the server's address, such as 127.0.0.1:3306

  --limit BYTES        the most bytes of a packet, once a client is logged in; 67108864
  --clients COUNT      the most clients at once; 1000
  --login SECONDS      how long a login may take; 10
  --idle SECONDS       how long a client that is logged in may send nothing; 28800
  --stalled SECONDS    how long a side may take none of the bytes that wait for it, the rest of a
                       command may take, and an answer whose client sends no more; 60
  --drain SECONDS      how long clients may take to end their commands after SIGTERM; 30
  --statements         logs the fronts of statements, and not only which commands they are
  --help               prints this";

/// What a proxy does.
#[derive(Clone, Copy)]
pub struct Arguments {
    pub listen: SocketAddr,
    pub server: SocketAddr,
    pub limit: usize,
    pub clients: usize,
    pub patience: Patience,
    pub drain: Duration,
    pub logs_statements: bool,
}

/// How long is waited for whom.
#[derive(Clone, Copy)]
pub struct Patience {
    pub login: Duration,
    pub idle: Duration,
    pub stalled: Duration,
}

/// What is asked for.
pub enum Request {
    Serve(Arguments),
    Help,
}

impl Request {
    /// Reads the words after the program's name. The error is what is wrong with them.
    pub fn read(words: impl IntoIterator<Item = String>) -> Result<Request, String> {
        let mut words = words.into_iter();
        let (mut limit, mut clients, mut logs_statements) = (64 << 20, 1000, false);
        let (mut login, mut idle, mut stalled, mut drain) = (10, 28800, 60, 30);
        let mut addresses = Vec::new();
        while let Some(word) = words.next() {
            match word.as_str() {
                "--help" => return Ok(Request::Help),
                "--statements" => logs_statements = true,
                "--limit" => limit = value(&word, words.next())?,
                "--clients" => clients = value(&word, words.next())?,
                "--login" => login = value(&word, words.next())?,
                "--idle" => idle = value(&word, words.next())?,
                "--stalled" => stalled = value(&word, words.next())?,
                "--drain" => drain = value(&word, words.next())?,
                _ if word.starts_with('-') => return Err(format!("{word} is no option")),
                _ => addresses.push(value("an address", Some(word))?),
            }
        }
        let [listen, server] = addresses[..] else {
            return Err(String::from("two addresses are wanted"));
        };
        let [login, idle, stalled, drain] = [login, idle, stalled, drain].map(Duration::from_secs);
        let patience = Patience { login, idle, stalled };
        Ok(Request::Serve(Arguments {
            listen,
            server,
            limit,
            clients,
            patience,
            drain,
            logs_statements,
        }))
    }
}

fn value<T: FromStr>(name: &str, word: Option<String>) -> Result<T, String> {
    let word = word.ok_or_else(|| format!("{name} wants a value"))?;
    word.parse().map_err(|_| format!("{word} can't be {name}"))
}
