//! What there is to log of an answer to a command.

use crate::log::{count, ClientLog};
use mysql_wire::{Error, Fields, PacketKind, Phase};

/// The answer that comes: whether its OK says how many rows were changed, and how many rows, events or
/// fields came.
pub struct Answer {
    log: ClientLog,
    changes_rows: bool,
    came: u64,
}

impl Answer {
    pub fn new(log: ClientLog) -> Answer {
        Answer { log, changes_rows: false, came: 0 }
    }

    /// A command of this kind was sent.
    pub fn begin(&mut self, command: PacketKind) {
        self.changes_rows = matches!(command, PacketKind::Query | PacketKind::Execute);
        self.came = 0;
    }

    /// Goes past a packet of this kind that came in this phase.
    pub fn hear(&mut self, phase: Phase, kind: PacketKind, packet: &[u8]) -> Result<(), Error> {
        let mut fields = Fields::starting_at(packet, 1);
        match kind {
            PacketKind::Row | PacketKind::BinaryRow | PacketKind::BinaryLogEvent => self.came += 1,
            PacketKind::Column if phase == Phase::FieldList => self.came += 1,
            PacketKind::ColumnCount => self.came = 0,
            PacketKind::Error => self.log.say(format_args!("  error {}", fields.int(2)?)),
            PacketKind::LocalInfile => self.log.say(format_args!("  asks for a file")),
            PacketKind::Prepared => self.hear_prepared(fields)?,
            PacketKind::Eof => self.hear_end(phase),
            PacketKind::Ok if self.changes_rows => {
                let rows = fields.lenenc_int()?;
                self.log.say(format_args!("  ok, {} changed", count(rows, "row")));
            }
            PacketKind::Ok => self.log.say(format_args!("  ok")),
            _ => {}
        }
        Ok(())
    }

    fn hear_end(&self, phase: Phase) {
        let what = match phase {
            Phase::ColumnsEnd => return,
            Phase::Rows => "row",
            Phase::BinaryLog => "event",
            Phase::FieldList => "field",
            _ => return self.log.say(format_args!("  ok")),
        };
        self.log.say(format_args!("  {}", count(self.came, what)));
    }

    fn hear_prepared(&self, mut fields: Fields<'_>) -> Result<(), Error> {
        let (statement, columns, parameters) = (fields.int(4)?, fields.int(2)?, fields.int(2)?);
        self.log.say(format_args!(
            "  statement {statement}: {}, {}",
            count(parameters, "parameter"),
            count(columns, "column"),
        ));
        Ok(())
    }
}
