// What ours answers to a record.
use crate::{Answer, Record};
use caplattice::errorcontrol::{self, ControlKind};
use caplattice::rm3014::Verdict;
use caplattice::Refusal;

fn answer(r: &Record) -> Result<Answer, Refusal> {
    if r.kind == 5 {
        return Ok(match errorcontrol::decode_aach(r.start, &r.symbols)? {
            Verdict::Clean { data } => Answer::Field {
                verdict: "clean",
                place: 0,
                data,
            },
            Verdict::Mended { data, place } => Answer::Field {
                verdict: "mended",
                place,
                data,
            },
            Verdict::Beyond { data } => Answer::Field {
                verdict: "beyond",
                place: 0,
                data,
            },
        });
    }
    let mut trellis = [0; 288];
    let mut bits = vec![0; 274];
    let received = match r.kind {
        6 => errorcontrol::decode_tp(r.start, &r.symbols, &mut bits, &mut trellis)?,
        7 => errorcontrol::decode_tp_half(r.start, &r.symbols, &mut bits, &mut trellis)?,
        _ => {
            let kind = ControlKind::try_from(r.kind)?;
            bits = vec![0; kind.word_bits()];
            errorcontrol::decode_cp(kind, r.start, &r.symbols, &mut bits, &mut trellis)?
        }
    };
    Ok(Answer::Block {
        good: received.is_good(),
        disagreements: received.disagreements(),
        bits,
    })
}

pub fn answered(r: &Record) -> Answer {
    answer(r).unwrap_or_else(Answer::Refused)
}
