//! Lines about clients, on standard output.
//!
//! They are gathered in a text of bounded length, which a thread of its own writes: who doesn't
//! read the log stops no traffic. Lines for which there is no room are dropped, and counted in the
//! next one. The thread sleeps for a moment after each write, so that no line of many wakes it.

use std::fmt::{self, Write as _};
use std::io::{self, Write as _};
use std::mem;
use std::net::SocketAddr;
use std::sync::{Arc, Condvar, Mutex, MutexGuard, PoisonError};
use std::thread;
use std::time::{Duration, SystemTime, UNIX_EPOCH};

// The most lines that wait to be written.
const QUEUE: usize = 4096;
// How long lines are gathered.
const GATHER: Duration = Duration::from_millis(5);
// How long the last lines may take.
const LAST_LINES: Duration = Duration::from_secs(1);
// The most characters of a text in a line.
const FRONT: usize = 60;

/// Where lines go.
#[derive(Clone)]
pub struct Log {
    queue: Arc<Queue>,
    logs_statements: bool,
}

#[derive(Default)]
struct Queue {
    waiting: Mutex<Waiting>,
    /// The thread that writes has something to do.
    more: Condvar,
    /// It has written all.
    done: Condvar,
}

/// What waits to be written.
#[derive(Default)]
struct Waiting {
    text: String,
    lines: usize,
    dropped: u64,
    clock: Clock,
    /// The thread that writes has nothing to do.
    is_awaited: bool,
    /// No more is said.
    ends: bool,
    /// All is written.
    ended: bool,
}

impl Log {
    /// Starts the thread that writes.
    pub fn start(logs_statements: bool) -> io::Result<Log> {
        let log = Log { queue: Arc::default(), logs_statements };
        let queue = Arc::clone(&log.queue);
        thread::Builder::new().name(String::from("log")).spawn(move || queue.write_all())?;
        Ok(log)
    }

    /// Writes a line about the proxy.
    pub fn say(&self, line: fmt::Arguments<'_>) {
        self.queue.put("- - ", line);
    }

    /// The lines about a client.
    pub fn of_client(&self, number: u64, address: SocketAddr) -> ClientLog {
        ClientLog { log: self.clone(), client: format!("{number} {address} ") }
    }

    /// Waits until all lines are written, for a second at most.
    pub fn finish(&self) {
        let mut waiting = self.queue.lock();
        waiting.ends = true;
        self.queue.more.notify_one();
        let ended = |waiting: &mut Waiting| !waiting.ended;
        drop(self.queue.done.wait_timeout_while(waiting, LAST_LINES, ended));
    }
}

impl Queue {
    fn lock(&self) -> MutexGuard<'_, Waiting> {
        self.waiting.lock().unwrap_or_else(PoisonError::into_inner)
    }

    fn put(&self, who: &str, line: fmt::Arguments<'_>) {
        let mut waiting = self.lock();
        if waiting.lines == QUEUE {
            waiting.dropped += 1;
            return;
        }
        let dropped = mem::take(&mut waiting.dropped);
        if dropped > 0 {
            waiting.add("- - ", format_args!("{} dropped", count(dropped, "line")));
        }
        waiting.add(who, line);
        if mem::take(&mut waiting.is_awaited) {
            drop(waiting);
            self.more.notify_one();
        }
    }

    /// Writes the lines that came together by one write. That nobody reads them is no reason to
    /// stop.
    fn write_all(&self) {
        let mut text = String::new();
        loop {
            let idle = |waiting: &mut Waiting| {
                waiting.is_awaited = waiting.text.is_empty() && !waiting.ends;
                waiting.is_awaited
            };
            let waited = self.more.wait_while(self.lock(), idle);
            let mut waiting = waited.unwrap_or_else(PoisonError::into_inner);
            if waiting.text.is_empty() {
                waiting.ended = true;
                return self.done.notify_all();
            }
            mem::swap(&mut text, &mut waiting.text);
            waiting.lines = 0;
            drop(waiting);
            let _ = io::stdout().lock().write_all(text.as_bytes());
            text.clear();
            thread::sleep(GATHER);
        }
    }
}

impl Waiting {
    fn add(&mut self, who: &str, line: fmt::Arguments<'_>) {
        self.clock.write(SystemTime::now(), &mut self.text);
        self.text.push_str(who);
        let _ = self.text.write_fmt(line);
        self.text.push('\n');
        self.lines += 1;
    }
}

/// Lines that have a client's number and address in front.
#[derive(Clone)]
pub struct ClientLog {
    log: Log,
    client: String,
}

impl ClientLog {
    pub fn say(&self, line: fmt::Arguments<'_>) {
        self.log.queue.put(&self.client, line);
    }

    /// The front of a statement after a space, where statements are asked for.
    pub fn statement(&self, text: &[u8]) -> String {
        if self.log.logs_statements {
            format!(" {}", front(text))
        } else {
            String::new()
        }
    }
}

/// Writes times: of Greenwich, to the millisecond. Many lines are of the same second.
#[derive(Default)]
struct Clock {
    second: u64,
    text: String,
}

impl Clock {
    fn write(&mut self, at: SystemTime, line: &mut String) {
        let since = at.duration_since(UNIX_EPOCH).unwrap_or_default();
        if since.as_secs() != self.second || self.text.is_empty() {
            self.second = since.as_secs();
            self.text = second_text(self.second);
        }
        let _ = write!(line, "{}.{:03}Z ", self.text, since.subsec_millis());
    }
}

/// A second counted from the first of 1970, as date and time.
fn second_text(second: u64) -> String {
    let (year, month, day) = date(second / 86400);
    let (hour, minute, second) = (second / 3600 % 24, second / 60 % 60, second % 60);
    format!("{year}-{month:02}-{day:02}T{hour:02}:{minute:02}:{second:02}")
}

/// Year, month and day of a day counted from the first of 1970.
fn date(mut day: u64) -> (u64, usize, u64) {
    let is_leap = |year: u64| year % 4 == 0 && (year % 100 != 0 || year % 400 == 0);
    let mut year = 1970;
    while day >= 365 + u64::from(is_leap(year)) {
        day -= 365 + u64::from(is_leap(year));
        year += 1;
    }
    let february = 28 + u64::from(is_leap(year));
    let mut month = 1;
    for days in [31, february, 31, 30, 31, 30, 31, 31, 30, 31, 30, 31] {
        if day < days {
            break;
        }
        day -= days;
        month += 1;
    }
    (year, month, day + 1)
}

/// The front of a text, on one line. What would end the line, or turn the order of what stands
/// after it, is written as its number.
pub fn front(text: &[u8]) -> String {
    let cut = &text[..text.len().min(4 * FRONT)];
    let text = String::from_utf8_lossy(cut);
    let mut characters = text.chars();
    let mut line = String::new();
    for c in characters.by_ref().take(FRONT) {
        if is_plain(c) {
            line.push(c);
        } else {
            let _ = write!(line, "{}", c.escape_unicode());
        }
    }
    if characters.next().is_some() {
        line.push_str("..");
    }
    line
}

/// Whether a character is neither a control nor one that sets the direction of a text or ends a
/// line.
fn is_plain(c: char) -> bool {
    !c.is_control()
        && !matches!(c, '\u{61c}' | '\u{200e}' | '\u{200f}' | '\u{2028}'..='\u{202e}' | '\u{2066}'..='\u{2069}')
}

/// "1 row", "2 rows".
pub fn count(count: u64, what: &str) -> String {
    format!("{count} {what}{}", if count == 1 { "" } else { "s" })
}
