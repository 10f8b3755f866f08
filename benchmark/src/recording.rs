// Writes a mixed recording of at least so many bytes to standard output: all seven kinds, sent by the original, every second
// record damaged and every fourth with erasures. `recording BYTES`
mod inputs;

use inputs::Chance;
use original::lmac::components::errorcontrol;
use original::tmv::enums::logical_chans::LogicalChannel;
use original::tmv::TmvUnitdataReq;
use original::BitBuffer;
use std::io::Write;

fn request(channel: LogicalChannel, bits: &[u8], start: u32) -> TmvUnitdataReq {
    TmvUnitdataReq { logical_channel: channel, mac_block: BitBuffer::from_bitarr(bits), scrambling_code: start }
}

fn sent(chance: &mut Chance, kind: u8, start: u32) -> Vec<u8> {
    let (channel, data) = match kind {
        1 => (LogicalChannel::Bsch, 60),
        2 => (LogicalChannel::SchHu, 92),
        3 => (LogicalChannel::SchHd, 124),
        4 => (LogicalChannel::SchF, 268),
        5 => (LogicalChannel::Aach, 14),
        _ => (LogicalChannel::TchS, 274),
    };
    let bits = chance.bits(data);
    let block = match kind {
        5 => errorcontrol::encode_aach(BitBuffer::from_bitarr(&bits), start),
        6 => errorcontrol::encode_tp(request(channel, &bits, start), 1),
        7 => errorcontrol::encode_tp(request(channel, &bits, start), 2),
        _ => errorcontrol::encode_cp(request(channel, &bits, start)),
    };
    block.into_bitvec()
}

fn main() {
    let least: usize = std::env::args().nth(1).and_then(|word| word.parse().ok()).expect("recording BYTES");
    let mut chance = Chance::new(20);
    let mut written = Vec::with_capacity(least + 1024);
    for number in 0.. {
        if least <= written.len() {
            break;
        }
        let kind = 1 + chance.below(7) as u8;
        let start = chance.number();
        let mut air = sent(&mut chance, kind, start);
        if number % 2 == 1 {
            air = chance.damaged(air);
        }
        // The access field takes bits only.
        if number % 4 == 3 && kind != 5 {
            for symbol in &mut air {
                if chance.below(20) == 0 {
                    *symbol = 0xff;
                }
            }
        }
        written.push(kind);
        written.extend(start.to_be_bytes());
        written.extend(air);
    }
    std::io::stdout().write_all(&written).unwrap();
}
