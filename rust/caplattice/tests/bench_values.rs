//! The bench values of document 01, through this crate.
use caplattice::convenc::{get_punctured_rate, Compared, ConvEncState, RcpcPunctMode, SpeechConvEncState};
use caplattice::rm3014::Verdict;
use caplattice::{convenc, crc16, errorcontrol, interleaver, rm3014, scrambler, viterbi, Refusal};

#[test]
fn check_register() {
    assert_eq!(crc16::crc16_itut_bits(0xffff, &[], 0), 0xffff);
    assert_eq!(crc16::crc16_itut_bits(0xffff, &[0], 1), 0xefdf);
    assert_eq!(crc16::crc16_itut_bits(0xffff, &[1], 1), 0xfffe);
    assert_eq!(crc16::crc16_ccitt_bits(&[1], 1), 0xfffe);
    assert_eq!(crc16::crc16_itut_bytes(0xffff, &[0x80], 1), Ok(0xfffe));
}

#[test]
fn scrambling_outputs() {
    let mut outputs = [9; 6];
    scrambler::tetra_scramb_get_bits(3, &mut outputs);
    assert_eq!(outputs, [1, 0, 1, 1, 1, 1]);
    scrambler::tetra_scramb_get_bits(0, &mut outputs);
    assert_eq!(outputs, [0; 6]);
}

#[test]
fn scrambling_start() {
    assert_eq!(scrambler::tetra_scramb_get_init(1, 1, 1), Ok(0x400107));
    assert!(scrambler::tetra_scramb_get_init(1023, 0, 0).is_ok());
    assert_eq!(scrambler::tetra_scramb_get_init(1024, 0, 0), Err(Refusal::Field));
}

#[test]
fn mother_codes() {
    let mut control = [9; 20];
    ConvEncState::new().encode(&[1, 0, 0, 0, 0], &mut control).unwrap();
    assert_eq!(control, [1, 1, 1, 1, 1, 0, 1, 1, 0, 1, 1, 0, 0, 1, 0, 1, 1, 1, 1, 1]);
    let mut speech = [9; 15];
    SpeechConvEncState::new().encode(&[1, 0, 0, 0, 0], &mut speech).unwrap();
    assert_eq!(speech, [1, 1, 1, 1, 1, 0, 1, 0, 1, 1, 1, 0, 1, 1, 1]);
}

#[test]
fn skipped_place() {
    // Each mother entry holds its own place, counted from 1.
    let mother: Vec<u8> = (1..=177).collect();
    let mut kept = [0; 66];
    get_punctured_rate(RcpcPunctMode::Rate292_432, &mother, 66, &mut kept).unwrap();
    assert_eq!(kept[65], 177);
    assert!(!kept.contains(&173));
    get_punctured_rate(RcpcPunctMode::Rate2_3, &mother, 66, &mut kept).unwrap();
    assert!(kept.contains(&173));
}

#[test]
fn reed_muller() {
    assert_eq!(rm3014::tetra_rm3014_compute(0x2000), Ok(0x20009b60));
    assert_eq!(
        rm3014::tetra_rm3014_decode_limited_ecc(0x20009b60),
        Ok(Verdict::Clean { data: 0x2000 })
    );
    assert_eq!(
        rm3014::tetra_rm3014_decode_limited_ecc(0x20009b61),
        Ok(Verdict::Mended { data: 0x2000, place: 30 })
    );
    assert_eq!(
        rm3014::tetra_rm3014_decode_limited_ecc(0x30009b61),
        Ok(Verdict::Beyond { data: 0x3000 })
    );
}

#[test]
fn speech_check() {
    let mut data = [0; 60];
    data[0] = 1;
    let mut check = [9; 8];
    errorcontrol::speech_crc(&data, &mut check).unwrap();
    assert_eq!(check, [1, 0, 0, 1, 0, 0, 0, 1]);
}

#[test]
fn a_tie_is_broken_from_the_last_bit() {
    let mut symbols = [0xff; 24];
    symbols[4] = 1;
    let (mut word, mut trellis) = ([9; 6], [9; 6]);
    assert_eq!(viterbi::dec_sb1(&symbols, &mut word, 6, &mut trellis), Ok(0));
    assert_eq!(word, [1, 0, 0, 0, 0, 0]);
    assert_eq!(trellis, [0; 6]);
}

#[test]
fn limits() {
    let symbols = vec![0xff; 4 * 865];
    let (mut word, mut trellis) = (vec![0; 865], vec![0; 865]);
    assert!(viterbi::dec_sb1(&symbols, &mut word, 864, &mut trellis).is_ok());
    assert_eq!(viterbi::dec_sb1(&symbols, &mut word, 865, &mut trellis), Err(Refusal::Limit));
    assert!(RcpcPunctMode::try_from(6).is_ok());
    assert_eq!(RcpcPunctMode::try_from(7), Err(Refusal::Kind));
    let mut shuffled = [0; 6];
    assert!(interleaver::block_interleave(6, 5, &[1; 6], &mut shuffled).is_ok());
    assert_eq!(
        interleaver::block_interleave(6, 4, &[1; 6], &mut shuffled),
        Err(Refusal::Shuffle)
    );
    assert!(interleaver::block_interleave(1, 0, &[1], &mut shuffled).is_ok());
}

#[test]
fn mother_words_compared() {
    assert_eq!(convenc::mother_memcmp(&[0, 1, 1], &[0, 0xff, 1, 1]), Compared::Matched(2));
    assert_eq!(convenc::mother_memcmp(&[0, 1], &[0, 0]), Compared::Differs);
}
