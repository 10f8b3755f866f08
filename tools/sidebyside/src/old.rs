// What the original answers to a record. Its own chains take whole blocks of bits and say less than ours: for erasures, second
// halves and counts its parts are called in its order.
use crate::{Answer, Record};
use original::lmac::components::convenc::{self, RcpcPunctMode};
use original::lmac::components::{crc16, errorcontrol, interleaver, rm3014, scrambler, tch_reorder, viterbi};
use original::tmv::enums::logical_chans::LogicalChannel;
use original::tp::TpUnitdataInd;
use original::{BitBuffer, PhyBlockType};
use std::panic::catch_unwind;

// Channel, word, air and interleaver's a of a control kind.
fn control(kind: u8) -> (LogicalChannel, usize, usize, usize) {
    match kind {
        1 => (LogicalChannel::Bsch, 80, 120, 11),
        2 => (LogicalChannel::SchHu, 112, 168, 13),
        3 => (LogicalChannel::SchHd, 144, 216, 101),
        _ => (LogicalChannel::SchF, 288, 432, 103),
    }
}

// The original's own chain on a block of bits: its data and, but for the access field, whether the check fits.
// None where it panics.
pub fn chain(r: &Record, synchronisation: bool) -> Option<(Vec<u8>, Option<bool>)> {
    let asked = || {
        let block = BitBuffer::from_bitarr(&r.symbols);
        let (data, good) = match r.kind {
            5 => (Some(errorcontrol::decode_aach(block, r.start)), None),
            6 => {
                let (data, good) = errorcontrol::decode_tp(LogicalChannel::TchS, block, r.start);
                (data, Some(good))
            }
            kind => {
                let block_type = if synchronisation {
                    PhyBlockType::SB1
                } else {
                    PhyBlockType::Other
                };
                let (data, good) = errorcontrol::decode_cp(control(kind).0, TpUnitdataInd { block, block_type }, Some(r.start));
                (data, Some(good))
            }
        };
        (data.map(BitBuffer::into_bitvec).unwrap_or_default(), good)
    };
    catch_unwind(asked).ok()
}

fn descrambled(start: u32, symbols: &[u8]) -> Vec<u8> {
    let mut outputs = vec![0; symbols.len()];
    scrambler::tetra_scramb_get_bits(start, &mut outputs);
    symbols
        .iter()
        .zip(outputs)
        .map(|(&s, o)| if s < 2 { s ^ o } else { 0xff })
        .collect()
}

fn disagreements(sent: &[u8], symbols: &[u8]) -> usize {
    sent.iter()
        .zip(symbols)
        .filter(|(&sent, &symbol)| symbol < 2 && symbol != sent)
        .count()
}

fn control_parts(r: &Record) -> Answer {
    let (_, bits, air, a) = control(r.kind);
    let mut type3 = vec![0; air];
    interleaver::block_deinterleave(air, a, &descrambled(r.start, &r.symbols), &mut type3);
    let mut mother = vec![0xff; 4 * bits];
    convenc::tetra_rcpc_depunct(RcpcPunctMode::Rate2_3, &type3, air, &mut mother);
    let mut word = vec![0; bits];
    viterbi::dec_sb1(&mother, &mut word, bits);
    let good = crc16::crc16_ccitt_bits(&word, bits - 4) == crc16::TETRA_CRC_OK;
    let mut sent = vec![0; 4 * bits];
    convenc::ConvEncState::new().encode(&word, &mut sent);
    Answer::Block {
        good,
        disagreements: disagreements(&sent, &mother),
        bits: word,
    }
}

fn speech_parts(r: &Record) -> Answer {
    let missing = vec![0xff; 432 - r.symbols.len()];
    let mut slot = vec![0; 432];
    interleaver::matrix_deinterleave(
        24,
        18,
        &descrambled(r.start, &[missing, r.symbols.clone()].concat()),
        &mut slot,
    );
    let mut mother = vec![0xff; 552];
    convenc::tetra_rcpc_depunct(RcpcPunctMode::Rate112_168, &slot[102..270], 168, &mut mother[..336]);
    convenc::tetra_rcpc_depunct(RcpcPunctMode::Rate72_162, &slot[270..], 162, &mut mother[336..]);
    let soft: Vec<i8> = mother.iter().map(|&s| [-1, 1, 0][s.min(2) as usize]).collect();
    let word = viterbi::TetraCodecViterbiDecoder::new().decode(&soft);
    let good = errorcontrol::speech_check(&word[112..172]) == word[172..180];
    let mut channel = [0; 274];
    for (entry, &symbol) in channel.iter_mut().zip(&slot[..102]) {
        *entry = (symbol == 1) as u8;
    }
    channel[102..].copy_from_slice(&word[..172]);
    let mut sent = vec![0; 552];
    convenc::SpeechConvEncState::new().encode(&word, &mut sent);
    Answer::Block {
        good,
        disagreements: disagreements(&sent, &mother),
        bits: tch_reorder::channel_to_codec(&channel).to_vec(),
    }
}

fn field_parts(r: &Record) -> Answer {
    let word = descrambled(r.start, &r.symbols)
        .iter()
        .fold(0, |word, &bit| word << 1 | u32::from(bit));
    let data = rm3014::tetra_rm3014_decode_limited_ecc(word);
    let syndrome = rm3014::compute_syndrome(word);
    let place = rm3014::COL_SYNDROMES
        .iter()
        .position(|&column| column == syndrome)
        .map_or(0, |place| place as u8 + 1);
    let verdict = match (syndrome, place) {
        (0, _) => "clean",
        (_, 0) => "beyond",
        _ => "mended",
    };
    Answer::Field {
        verdict,
        place: if syndrome == 0 { 0 } else { place },
        data,
    }
}

// The original's parts, in its order. None where one panics.
pub fn parts(r: &Record) -> Option<Answer> {
    catch_unwind(|| match r.kind {
        5 => field_parts(r),
        6 | 7 => speech_parts(r),
        _ => control_parts(r),
    })
    .ok()
}
