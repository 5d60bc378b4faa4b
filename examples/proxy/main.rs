//! A relay between MySQL clients and a server. It passes each packet through the packet layer, and
//! logs commands and what is answered to them.
//!
//! ```text
//! $ make -C bindings/c && cd examples/proxy
//! $ cargo run --release --offline -- --statements 127.0.0.1:4306 127.0.0.1:3306
//! ```
//!
//! What passes is plain: TLS and compression are kept out of the server's greeting, so that no
//! client asks for them. So no other than the machines of a trusted network should be able to listen.

mod answer;
mod arguments;
mod clients;
mod exchange;
mod fault;
mod listener;
mod log;
mod poll;
mod relay;
mod side;
mod signal;
mod stream;

use crate::arguments::{Arguments, Request, USAGE};
use crate::clients::Clients;
use crate::listener::Listener;
use crate::log::Log;
use crate::signal::Stop;
use std::env;
use std::io;
use std::process::ExitCode;
use std::sync::Arc;

fn main() -> ExitCode {
    let arguments = match Request::read(env::args().skip(1)) {
        Ok(Request::Serve(arguments)) => arguments,
        Ok(Request::Help) => {
            println!("{USAGE}");
            return ExitCode::SUCCESS;
        }
        Err(words) => {
            eprintln!("proxy: {words}\n{USAGE}");
            return ExitCode::from(2);
        }
    };
    match serve(arguments) {
        Ok(()) => ExitCode::SUCCESS,
        Err(error) => {
            eprintln!("proxy: {error}");
            ExitCode::FAILURE
        }
    }
}

/// Takes clients until SIGTERM comes, and lets those that it has end their commands.
fn serve(arguments: Arguments) -> io::Result<()> {
    let log = Log::start(arguments.logs_statements)?;
    let stop = Arc::new(Stop::catch()?);
    let listener = Listener::bind(arguments.listen)?;
    log.say(format_args!("listens on {}", listener.address()?));
    let mut clients = Clients::new(arguments, stop, log.clone());
    clients.take_all(listener)?;
    clients.drain();
    log.finish();
    Ok(())
}
