//! What was sent comes back, damaged or not, and the rest of each target stays.
use caplattice::errorcontrol::{self, ControlKind, Received};
use caplattice::rm3014::Verdict;
use caplattice::{convenc, crc16, interleaver, scrambler, tch_reorder, viterbi};

// Chance that is the same at each run: a linear register of 64 bits.
struct Chance(u64);

impl Chance {
    fn bit(&mut self) -> u8 {
        self.0 ^= self.0 << 13;
        self.0 ^= self.0 >> 7;
        self.0 ^= self.0 << 17;
        (self.0 >> 40 & 1) as u8
    }

    fn bits(&mut self, n: usize) -> Vec<u8> {
        (0..n).map(|_| self.bit()).collect()
    }
}

#[test]
fn control_blocks() {
    let mut chance = Chance(1);
    for number in 1..=4 {
        let kind = ControlKind::try_from(number).unwrap();
        for round in 0..50 {
            let data = chance.bits(kind.data_bits());
            let mut air = vec![7; kind.air_bits() + 1];
            errorcontrol::encode_cp(kind, round * 0x01234567, &data, &mut air).unwrap();
            assert_eq!(air.pop(), Some(7));
            let wrong = round as usize % air.len();
            air[wrong] ^= 1;
            air[(wrong + 40) % kind.air_bits()] = 0xff;
            let (mut word, mut trellis) = (vec![7; kind.word_bits() + 1], vec![7; kind.word_bits() + 1]);
            let answer = errorcontrol::decode_cp(kind, round * 0x01234567, &air, &mut word, &mut trellis);
            assert_eq!(answer, Ok(Received::Good { disagreements: 1 }));
            assert_eq!(word[..kind.data_bits()], data);
            assert_eq!(crc16::crc16_ccitt_bits(&word, kind.word_bits() - 4), crc16::TETRA_CRC_OK);
            assert_eq!((word.pop(), trellis.pop()), (Some(7), Some(7)));
            assert!(trellis.iter().all(|&entry| entry == 0));
        }
    }
}

#[test]
fn speech_slots() {
    let mut chance = Chance(2);
    for start in 0..50 {
        let codec = chance.bits(274);
        let mut air = [0; 432];
        errorcontrol::encode_tp(start, &codec, &mut air).unwrap();
        let mut half = [0; 216];
        errorcontrol::encode_tp_half(start, &codec, &mut half).unwrap();
        assert_eq!(half, air[216..]);
        let (mut back, mut trellis) = ([0; 274], [0; 184]);
        let answer = errorcontrol::decode_tp(start, &air, &mut back, &mut trellis).unwrap();
        assert_eq!((answer.is_good(), answer.disagreements()), (true, 0));
        assert_eq!(back[..], codec);
        let answer = errorcontrol::decode_tp_half(start, &half, &mut back, &mut trellis).unwrap();
        assert_eq!(answer, Received::Good { disagreements: 0 });
    }
}

#[test]
fn access_field() {
    for data in (0..1 << 14).step_by(97) {
        let bits: Vec<u8> = (0..14).map(|place| (data >> (13 - place) & 1) as u8).collect();
        let mut air = [0; 30];
        errorcontrol::encode_aach(0x400107, &bits, &mut air).unwrap();
        assert_eq!(errorcontrol::decode_aach(0x400107, &air), Ok(Verdict::Clean { data }));
        let place = data as usize % 29;
        air[place] ^= 1;
        assert_eq!(
            errorcontrol::decode_aach(0x400107, &air),
            Ok(Verdict::Mended {
                data,
                place: place as u8 + 1
            })
        );
        air[place + 1] ^= 1;
        assert!(matches!(
            errorcontrol::decode_aach(0x400107, &air),
            Ok(Verdict::Beyond { .. })
        ));
    }
}

#[test]
fn leaves() {
    let mut chance = Chance(3);
    let source = chance.bits(432);
    let (mut there, mut back) = ([0; 432], [0; 432]);
    interleaver::block_interleave(432, 103, &source, &mut there).unwrap();
    interleaver::block_deinterleave(432, 103, &there, &mut back).unwrap();
    assert_eq!(back[..], source);
    interleaver::matrix_interleave(24, 18, &source, &mut there).unwrap();
    interleaver::matrix_deinterleave(24, 18, &there, &mut back).unwrap();
    assert_eq!(back[..], source);
    scrambler::tetra_scramb_bits(99, &mut back).unwrap();
    assert_ne!(back[..], source);
    back[0] = 9;
    scrambler::tetra_descramb_bits(99, &mut back);
    assert_eq!(back[0], 0xff);
    assert_eq!(back[1..], source[1..]);
    tch_reorder::codec_to_channel(&source, &mut there).unwrap();
    tch_reorder::channel_to_codec(&there, &mut back).unwrap();
    assert_eq!(back[..274], source[..274]);
}

#[test]
fn an_encoder_goes_on() {
    let mut chance = Chance(4);
    let bits = chance.bits(100);
    let (mut whole, mut parts) = ([0; 300], [0; 300]);
    convenc::SpeechConvEncState::new().encode(&bits, &mut whole).unwrap();
    let mut encoder = convenc::SpeechConvEncState::new();
    encoder.encode(&bits[..37], &mut parts).unwrap();
    encoder.encode(&bits[37..], &mut parts[111..]).unwrap();
    assert_eq!(parts, whole);
}

#[test]
fn decoders() {
    let mut chance = Chance(5);
    for mode in 0..=1 {
        let mode = convenc::RcpcPunctMode::try_from(mode).unwrap();
        let mut word = chance.bits(60);
        word.extend([0; 4]);
        let mut mother = [0; 256];
        convenc::ConvEncState::new().encode(&word, &mut mother).unwrap();
        let mut kept = [0; 96];
        convenc::get_punctured_rate(mode, &mother, 96, &mut kept).unwrap();
        let mut heard = [0xff; 256];
        convenc::tetra_rcpc_depunct(mode, &kept, 96, &mut heard).unwrap();
        assert_eq!(convenc::mother_memcmp(&mother, &heard), convenc::Compared::Matched(96));
        let (mut back, mut trellis) = ([0; 64], [0; 64]);
        let heard = if mode == convenc::RcpcPunctMode::Rate2_3 {
            heard
        } else {
            mother
        };
        assert_eq!(viterbi::dec_sb1(&heard, &mut back, 64, &mut trellis), Ok(0));
        assert_eq!(back[..], word);
    }
}
