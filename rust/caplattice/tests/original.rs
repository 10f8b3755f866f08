//! The module of the original's signatures: its tables, its answers where they have another form, and its panics.
use caplattice::errorcontrol::ControlKind;
use caplattice::original::{convenc, crc16, errorcontrol, interleaver, rm3014, scrambler, viterbi};
use std::panic::{catch_unwind, UnwindSafe};

fn panic_of(call: impl FnOnce() + UnwindSafe) -> String {
    let thrown = catch_unwind(call).expect_err("it should panic");
    thrown
        .downcast_ref::<String>()
        .cloned()
        .unwrap_or_else(|| thrown.downcast_ref::<&str>().unwrap().to_string())
}

#[test]
fn tables_are_the_librarys() {
    for row in 0..14 {
        assert_eq!(
            rm3014::RM_30_14_ROWS_PRECOMPUTED[row],
            rm3014::tetra_rm3014_compute(1 << (13 - row))
        );
        let parity = rm3014::RM_30_14_GEN[row]
            .iter()
            .fold(0, |word, &bit| word * 2 + u32::from(bit));
        assert_eq!(rm3014::RM_30_14_ROWS_PRECOMPUTED[row] & 0xffff, parity);
    }
    for column in 0..30 {
        assert_eq!(rm3014::COL_SYNDROMES[column], rm3014::compute_syndrome(1 << (29 - column)));
    }
}

#[test]
fn answers() {
    assert_eq!(crc16::get_nth_bit(&[0, 0x40], 9), 1);
    assert_eq!(crc16::get_nth_bit(&[0, 0x40], 8), 0);
    assert_eq!(interleaver::block_interl_func(120, 11, 1), 12);
    assert_eq!(rm3014::tetra_rm3014_decode_limited_ecc(0x30009b61), 0x3000);
    assert_eq!(convenc::mother_memcmp(&[1], &[0]), Err(()));
    assert_eq!(viterbi::num_states(5), 16);
    assert_eq!(scrambler::tetra_scramb_get_init(1, 1, 1), 0x400107);
}

#[test]
fn decoders_on_soft_symbols() {
    let word = [1, 1, 0, 1, 0, 0, 0, 0];
    let mut mother = [0; 24];
    convenc::SpeechConvEncState::new().encode(&word, &mut mother);
    let soft: Vec<i8> = mother.iter().map(|&bit| if bit == 1 { 1 } else { -1 }).collect();
    assert_eq!(viterbi::TetraCodecViterbiDecoder::new().decode(&soft), word);
    assert_eq!(viterbi::TetraCodecViterbiDecoder::new().decode(&soft[..5]).len(), 1);
}

#[test]
fn chains() {
    let data = vec![1; 268];
    let air = errorcontrol::encode_cp(ControlKind::SchF, &data, 77);
    assert_eq!(
        errorcontrol::decode_cp(ControlKind::SchF, &air, false, Some(77)),
        (Some(data), true)
    );
    assert_eq!(errorcontrol::decode_cp(ControlKind::SchF, &air, false, None), (None, false));
    let codec = vec![1; 274];
    let air = errorcontrol::encode_tp(&codec, 77, 1);
    assert_eq!(errorcontrol::encode_tp(&codec, 77, 2), air[216..]);
    assert_eq!(errorcontrol::decode_tp(&air, 77), (Some(codec), true));
    let field = vec![1; 14];
    assert_eq!(errorcontrol::decode_aach(&errorcontrol::encode_aach(&field, 77), 77), field);
}

// The old receive chains read the first bits of a longer buffer, and its speech sender those of a longer block.
#[test]
fn surplus_as_the_old_code_takes_it() {
    let data = vec![1; 60];
    let mut air = errorcontrol::encode_cp(ControlKind::Bsch, &data, 3);
    air.push(1);
    assert_eq!(air.len(), 121);
    assert_eq!(
        errorcontrol::decode_cp(ControlKind::Bsch, &air, true, None),
        (Some(data), true)
    );
    assert_eq!(errorcontrol::decode_cp(ControlKind::Bsch, &[], false, None), (None, false));
    let codec = vec![1; 274];
    let mut air = errorcontrol::encode_tp(&codec, 77, 1);
    assert_eq!(errorcontrol::encode_tp(&[1; 275], 77, 1), air);
    air.extend([0; 9]);
    assert_eq!(errorcontrol::decode_tp(&air, 77), (Some(codec), true));
}

#[test]
fn lengths_that_the_old_code_does_not_take() {
    assert!(panic_of(|| drop(errorcontrol::encode_cp(ControlKind::Bsch, &[0; 61], 3))).contains("a block of 60 bits is needed"));
    assert!(panic_of(|| drop(errorcontrol::decode_cp(ControlKind::Bsch, &[0; 119], true, None))).contains("at least 120 bits"));
    assert!(panic_of(|| drop(errorcontrol::decode_cp(ControlKind::Bsch, &[2; 121], true, None))).contains("bits only"));
    assert!(panic_of(|| drop(errorcontrol::decode_tp(&[0; 431], 77))).contains("at least 432 bits"));
    assert!(panic_of(|| drop(errorcontrol::encode_tp(&[0; 273], 77, 1))).contains("at least 274 bits"));
    assert!(panic_of(|| drop(errorcontrol::decode_aach(&[0; 31], 77))).contains("a block of 30 bits is needed"));
}

#[test]
fn panics_print_the_refusal() {
    assert!(panic_of(|| interleaver::block_interleave(2, 1, &[0], &mut [0; 2])).starts_with("refusal 2 SHORT"));
    assert!(panic_of(|| convenc::ConvEncState::new().encode(&[0], &mut [0; 3])).starts_with("refusal 3 ROOM"));
    assert!(panic_of(|| viterbi::dec_sb1(&[0; 4], &mut [], 1)).starts_with("refusal 3 ROOM"));
    assert!(panic_of(|| assert_eq!(crc16::crc16_itut_bytes(0, &[0], 9), 0)).starts_with("refusal 2 SHORT"));
    assert!(panic_of(|| drop(viterbi::TetraViterbiDecoder::new().decode(&[2; 4]))).starts_with("soft value 2"));
    assert!(panic_of(|| drop(errorcontrol::encode_aach(&[0; 15], 0))).contains("a block of 14 bits is needed"));
    let unknown = || {
        let _ = viterbi::ViterbiDecoder::new_with_polynomials(&[[true; 5]; 3]);
    };
    assert!(panic_of(unknown).starts_with("only the control"));
}
