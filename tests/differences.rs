// Puts to the original what a request record cannot carry, for tests/differences: a line for each question, its name and then
// what the original gives. A panic reads `panics`, after what was written before it.
use original::lmac::components::convenc::{self, RcpcPunctMode};
use original::lmac::components::errorcontrol;
use original::lmac::components::scrambler;
use original::lmac::components::viterbi::{TetraCodecViterbiDecoder, TetraViterbiDecoder, ViterbiDecoder};
use original::tmv::enums::logical_chans::LogicalChannel::{self, Aach, Bsch, SchF, TchS};
use original::tmv::TmvUnitdataReq;
use original::tp::TpUnitdataInd;
use original::{BitBuffer, PhyBlockType};
use std::panic::{catch_unwind, AssertUnwindSafe};

fn words(entries: &[u8]) -> String {
    entries.iter().map(u8::to_string).collect::<Vec<_>>().join(" ")
}

fn say(name: &str, ask: impl FnOnce() -> String) {
    println!("{name}: {}", catch_unwind(AssertUnwindSafe(ask)).unwrap_or("panics".to_string()));
}

// What stands in the target after the call, and whether the call panicked.
fn say_target(name: &str, mut target: Vec<u8>, call: impl FnOnce(&mut [u8])) {
    let end = if catch_unwind(AssertUnwindSafe(|| call(&mut target))).is_err() { ", panics" } else { "" };
    println!("{name}: {}{end}", words(&target));
}

fn sent(logical_channel: LogicalChannel, data: usize, scrambling_code: u32) -> TmvUnitdataReq {
    TmvUnitdataReq { logical_channel, mac_block: BitBuffer::new(data), scrambling_code }
}

// How many data bits come back from a block that was sent from 7, and whether its check fits.
fn control_received(channel: LogicalChannel, block_type: PhyBlockType, start: Option<u32>) -> String {
    let block = errorcontrol::encode_cp(sent(Bsch, 60, 7));
    let (data, good) = errorcontrol::decode_cp(channel, TpUnitdataInd { block, block_type }, start);
    let data = data.map_or("none".to_string(), |data| data.get_len().to_string());
    format!("{data} {}", if good { "good" } else { "bad" })
}

fn puncturing() {
    let mode = RcpcPunctMode::Rate2_3;
    say_target("puncture short", vec![7, 7], |target| convenc::get_punctured_rate(mode, &[5], target));
    say_target("depuncture short", vec![7, 7], |target| convenc::tetra_rcpc_depunct(mode, &[5], 2, target));
    say_target("depuncture room", vec![7], |target| convenc::tetra_rcpc_depunct(mode, &[5, 6], 2, target));
}

fn decoders() {
    for steps in [865, 10_922, 10_923] {
        let word = || TetraCodecViterbiDecoder::new().decode(&vec![-1; 3 * steps]);
        say(&format!("speech {steps}"), || word().iter().filter(|&&bit| bit == 1).count().to_string());
    }
    for steps in [865, 8_192, 8_193] {
        let word = || TetraViterbiDecoder::new().decode(&vec![-1; 4 * steps]);
        say(&format!("control {steps}"), || word().iter().filter(|&&bit| bit == 1).count().to_string());
    }
    for first in [1, 2] {
        let soft = [&[first, -1][..], &[0; 13]].concat();
        say(&format!("soft {first}"), || words(&TetraCodecViterbiDecoder::new().decode(&soft)));
    }
    for last in [-127, -128] {
        let soft = [&[0; 14][..], &[last]].concat();
        say(&format!("soft {last}"), || words(&TetraCodecViterbiDecoder::new().decode(&soft)));
    }
    let other = ViterbiDecoder::new_with_polynomials(&[[true, false, false, false, true]]);
    say("polynomials", || words(&other.decode(&[1, 0, 0, 0, 0])));
    say("five symbols", || TetraCodecViterbiDecoder::new().decode(&[-1; 5]).len().to_string());
}

fn chains() {
    say("speech check of 61", || words(&errorcontrol::speech_check(&[&[0; 60][..], &[1]].concat())));
    say("control received", || control_received(Bsch, PhyBlockType::Other, Some(7)));
    say("synchronisation burst", || control_received(Bsch, PhyBlockType::SB1, Some(7)));
    say("no start", || control_received(Bsch, PhyBlockType::Other, None));
    for (name, channel) in [("speech", TchS), ("access field", Aach)] {
        say(&format!("send control as {name}"), || errorcontrol::encode_cp(sent(channel, 60, 3)).get_len().to_string());
        say(&format!("receive control as {name}"), || control_received(channel, PhyBlockType::Other, Some(7)));
    }
    for block in [0, 1, 2, 255] {
        say(&format!("block number {block}"), || errorcontrol::encode_tp(sent(TchS, 274, 0), block).get_len().to_string());
    }
    say("speech as SCH/F", || {
        let mut bits = vec![0; 268];
        bits[0] = 1;
        let request = TmvUnitdataReq { logical_channel: SchF, mac_block: BitBuffer::from_bitarr(&bits), scrambling_code: 0 };
        words(&errorcontrol::encode_tp(request, 1).into_bitvec())
    });
    say("two wrong bits", || {
        let word: Vec<u8> = (0..30).map(|place| (0x3000_9b61 >> (29 - place) & 1) as u8).collect();
        let mut data = errorcontrol::decode_aach(BitBuffer::from_bitarr(&word), 0);
        format!("{} bits {:#06x}", data.get_len(), data.read_bits(14).unwrap())
    });
    say("missing symbol", || BitBuffer::from_bitarr(&[0xff]).get_len().to_string());
    say("place", || {
        let mut buffer = BitBuffer::new(2);
        buffer.seek(1);
        scrambler::tetra_scramb_bits(3, &mut buffer);
        words(&buffer.into_bitvec())
    });
}

fn main() {
    std::panic::set_hook(Box::new(|_| {}));
    puncturing();
    decoders();
    chains();
}
