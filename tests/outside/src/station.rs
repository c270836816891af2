//! Where an end stands when two of them talk: in a program, or here.

use crate::dice::Dice;
use crate::link::Reply;
use crate::program::Talk;
use crate::record::Record;
use crate::script::Holder;

/// Something that answers one record with one line.
pub enum Station {
    Own(Holder),
    /// Own, with the script and the lines written down.
    Recorded {
        holder: Holder,
        script: Vec<u8>,
        lines: String,
    },
    Program(Box<Talk>),
}

impl Station {
    pub fn recorded() -> Station {
        Station::Recorded { holder: Holder::default(), script: Vec::new(), lines: String::new() }
    }

    pub fn exchange(&mut self, record: &Record<'_>, filler: &mut Dice) -> Result<Reply, String> {
        match self {
            Station::Own(holder) => Ok(holder.answer(record)),
            Station::Recorded { holder, script, lines } => {
                record.encode(script, || filler.byte());
                let reply = holder.answer(record);
                lines.push_str(&format!("{reply}\n"));
                Ok(reply)
            }
            Station::Program(talk) => {
                let mut bytes = Vec::new();
                record.encode(&mut bytes, || filler.byte());
                Reply::parse(&talk.ask(&bytes)?)
            }
        }
    }
}
