//! Each refusal, and that it changes nothing.
use caplattice::convenc::{self, ConvEncState, RcpcPunctMode, SpeechConvEncState};
use caplattice::errorcontrol::{self, ControlKind};
use caplattice::{crc16, interleaver, rm3014, scrambler, tch_reorder, viterbi, Refusal};

#[test]
fn prints_number_name_and_advice() {
    for number in 1..=8 {
        let refusal = Refusal::from_number(number).unwrap();
        assert_eq!(refusal.number(), number);
        let printed = refusal.to_string();
        assert!(
            printed.starts_with(&format!("refusal {number} {}: ", refusal.name())),
            "{printed}"
        );
        assert!(printed.ends_with(refusal.advice()));
    }
    assert_eq!(Refusal::from_number(0), None);
}

#[test]
fn nine_is_retired() {
    for number in 9..=255 {
        assert_eq!(Refusal::from_number(number), None);
    }
}

#[test]
fn limit() {
    let source = vec![0; 5000];
    let mut target = vec![7; 20000];
    assert_eq!(
        interleaver::block_interleave(4097, 1, &source, &mut target),
        Err(Refusal::Limit)
    );
    assert_eq!(
        interleaver::block_deinterleave(1, 65536, &source, &mut target),
        Err(Refusal::Limit)
    );
    assert_eq!(
        interleaver::matrix_interleave(17, 241, &source, &mut target),
        Err(Refusal::Limit)
    );
    assert_eq!(
        interleaver::matrix_deinterleave(4097, 0, &source, &mut target),
        Err(Refusal::Limit)
    );
    assert_eq!(ConvEncState::new().encode(&source, &mut target), Err(Refusal::Limit));
    assert_eq!(
        convenc::get_punctured_rate(RcpcPunctMode::Rate2_3, &source, 4097, &mut target),
        Err(Refusal::Limit)
    );
    assert_eq!(
        convenc::tetra_rcpc_depunct(RcpcPunctMode::Rate2_3, &source, usize::MAX, &mut target),
        Err(Refusal::Limit)
    );
    assert_eq!(
        viterbi::dec_speech(&source, &mut target, 865, &mut [0; 865]),
        Err(Refusal::Limit)
    );
    assert!(target.iter().all(|&entry| entry == 7));
}

#[test]
fn short() {
    let mut target = [7; 432];
    let mut trellis = [7; 432];
    assert_eq!(crc16::crc16_itut_bytes(0, &[0], 9), Err(Refusal::Short));
    assert_eq!(interleaver::block_interleave(5, 1, &[0; 4], &mut target), Err(Refusal::Short));
    assert_eq!(tch_reorder::codec_to_channel(&[0; 273], &mut target), Err(Refusal::Short));
    assert_eq!(tch_reorder::channel_to_codec(&[0; 273], &mut target), Err(Refusal::Short));
    assert_eq!(
        convenc::get_punctured_rate(RcpcPunctMode::Rate2_3, &[0; 4], 3, &mut target),
        Err(Refusal::Short)
    );
    assert_eq!(viterbi::dec_sb1(&[0; 3], &mut target, 1, &mut trellis), Err(Refusal::Short));
    assert_eq!(errorcontrol::speech_crc(&[0; 59], &mut target), Err(Refusal::Short));
    assert_eq!(
        errorcontrol::encode_cp(ControlKind::Bsch, 3, &[0; 59], &mut target),
        Err(Refusal::Short)
    );
    assert_eq!(
        errorcontrol::decode_cp(ControlKind::Bsch, 3, &[0; 119], &mut target, &mut trellis),
        Err(Refusal::Short)
    );
    assert_eq!(errorcontrol::encode_tp(3, &[0; 273], &mut target), Err(Refusal::Short));
    assert_eq!(errorcontrol::encode_tp_half(3, &[0; 273], &mut target), Err(Refusal::Short));
    assert_eq!(
        errorcontrol::decode_tp(3, &[0; 431], &mut target, &mut trellis),
        Err(Refusal::Short)
    );
    assert_eq!(
        errorcontrol::decode_tp_half(3, &[0; 215], &mut target, &mut trellis),
        Err(Refusal::Short)
    );
    assert_eq!(errorcontrol::encode_aach(3, &[0; 13], &mut target), Err(Refusal::Short));
    assert_eq!(errorcontrol::decode_aach(3, &[0; 29]), Err(Refusal::Short));
    assert_eq!((target, trellis), ([7; 432], [7; 432]));
}

#[test]
fn room() {
    let mut none: [u8; 0] = [];
    assert_eq!(interleaver::matrix_interleave(1, 1, &[0], &mut none), Err(Refusal::Room));
    assert_eq!(SpeechConvEncState::new().encode(&[0], &mut [0; 2]), Err(Refusal::Room));
    assert_eq!(
        convenc::tetra_rcpc_depunct(RcpcPunctMode::Rate2_3, &[0; 3], 3, &mut [0; 4]),
        Err(Refusal::Room)
    );
    assert_eq!(viterbi::dec_sb1(&[0; 4], &mut [0; 1], 1, &mut []), Err(Refusal::Room));
    assert_eq!(
        errorcontrol::decode_tp(3, &[0; 432], &mut [0; 274], &mut [0; 183]),
        Err(Refusal::Room)
    );
    assert_eq!(errorcontrol::encode_aach(3, &[0; 14], &mut [0; 29]), Err(Refusal::Room));
}

#[test]
fn bit_leaves_the_encoder_as_it_was() {
    let mut encoder = ConvEncState::from_delayed([1, 0, 1, 1]);
    assert_eq!(encoder.encode(&[2], &mut [0; 4]), Err(Refusal::Bit));
    assert_eq!(encoder.delayed(), [1, 0, 1, 1]);
    let mut spoilt = SpeechConvEncState::from_delayed([0, 0, 0, 2]);
    assert_eq!(spoilt.encode(&[0], &mut [0; 3]), Err(Refusal::Bit));
    assert_eq!(spoilt.encode(&[], &mut []), Ok(()));
    assert_eq!(spoilt.delayed(), [0, 0, 0, 2]);
    let mut bits = [1, 2];
    assert_eq!(scrambler::tetra_scramb_bits(3, &mut bits), Err(Refusal::Bit));
    assert_eq!(bits, [1, 2]);
    assert_eq!(errorcontrol::decode_aach(3, &[0xff; 30]), Err(Refusal::Bit));
    assert_eq!(errorcontrol::encode_tp(3, &[2; 274], &mut [0; 432]), Err(Refusal::Bit));
}

#[test]
fn shuffle_word_field_kind() {
    assert_eq!(
        interleaver::block_interleave(2, 0, &[0; 2], &mut [0; 2]),
        Err(Refusal::Shuffle)
    );
    assert_eq!(rm3014::tetra_rm3014_compute(1 << 14), Err(Refusal::Word));
    assert_eq!(rm3014::tetra_rm3014_decode_naive(1 << 30), Err(Refusal::Word));
    assert_eq!(rm3014::compute_syndrome(1 << 30), Err(Refusal::Word));
    assert_eq!(rm3014::tetra_rm3014_decode_limited_ecc(1 << 30), Err(Refusal::Word));
    assert_eq!(scrambler::tetra_scramb_get_init(0, 16384, 0), Err(Refusal::Field));
    assert_eq!(scrambler::tetra_scramb_get_init(0, 0, 64), Err(Refusal::Field));
    assert_eq!(ControlKind::try_from(0), Err(Refusal::Kind));
    assert_eq!(ControlKind::try_from(5), Err(Refusal::Kind));
}
