// The refusal that document 01 gives for a request. Written from document 01 alone, so that a refusal of ours is held against
// the paper and not against itself.

pub const LIMIT: u8 = 1;
pub const SHORT: u8 = 2;
pub const ROOM: u8 = 3;
pub const BIT: u8 = 4;
pub const SHUFFLE: u8 = 5;
pub const WORD: u8 = 6;
pub const FIELD: u8 = 7;
pub const KIND: u8 = 8;

// Document 01's table: each number, its name, and when it is given. 9 is retired (document 02, W-208) and may never be given to anything
// else: a new refusal takes the next number from 10 on.
const REFUSALS: [(u8, &str, &str); 8] = [
    (LIMIT, "LIMIT", "a count or number exceeds its limit"),
    (SHORT, "SHORT", "the source holds fewer entries than needed"),
    (ROOM, "ROOM", "target or trellis holds fewer than needed"),
    (BIT, "BIT", "a used entry of a bits-only input exceeds 1"),
    (SHUFFLE, "SHUFFLE", "some whole number above 1 divides both k and a"),
    (WORD, "WORD", "RM data is 16,384 or more, or RM word is 2^30 or more"),
    (FIELD, "FIELD", "mcc over 1,023, mnc over 16,383 or colour over 63"),
    (KIND, "KIND", "control kind is not 1 to 4, or puncturing mode is not 0 to 6"),
];

fn refusal(number: u8) -> Option<&'static (u8, &'static str, &'static str)> {
    REFUSALS.iter().find(|refusal| refusal.0 == number)
}

pub fn name(number: u8) -> &'static str {
    refusal(number).map_or("(no such number)", |refusal| refusal.1)
}

pub fn reason(number: u8) -> &'static str {
    refusal(number).map_or("(no such number)", |refusal| refusal.2)
}

const MOST_STEPS: u64 = 864;
const MOST_ENTRIES: u64 = 4096;
const MOST_MULTIPLIER: u64 = 65535;

// Data, word and air of the control kinds 1 to 4.
pub const KINDS: [(usize, usize, usize); 4] = [(60, 80, 120), (92, 112, 168), (124, 144, 216), (268, 288, 432)];

// t, period, after how many outputs i(j) skips one (0: never), and P, of the modes 0 to 6.
const MODES: [(usize, usize, usize, &[usize]); 7] = [
    (3, 8, 0, &[1, 2, 5]),
    (6, 8, 0, &[1, 2, 3, 5, 6, 7]),
    (3, 8, 65, &[1, 2, 5]),
    (6, 8, 35, &[1, 2, 3, 5, 6, 7]),
    (3, 6, 0, &[1, 2, 4]),
    (9, 12, 0, &[1, 2, 3, 4, 5, 7, 8, 10, 11]),
    (17, 24, 0, &[1, 2, 3, 4, 5, 7, 8, 10, 11, 13, 14, 16, 17, 19, 20, 22, 23]),
];

// k(j), the mother position of output j, both counted from 1; 0 for j 0, which needs no mother entry.
fn mother_position(mode: usize, j: usize) -> usize {
    if j == 0 {
        return 0;
    }
    let (t, period, skipping, kept) = MODES[mode];
    let i = if skipping == 0 { j } else { j + (j - 1) / skipping };
    let block = (i - 1) / t;
    period * block + kept[i - t * block - 1]
}

// What a request needs once its numbers are accepted: entries of source, target and trellis, whether the used part of the
// source must be bits, and an encoder's delays, which must be bits then too.
struct Needs {
    source: usize,
    target: usize,
    trellis: usize,
    bits: bool,
    delays: [u8; 4],
}

fn slices(source: usize, target: usize) -> Needs {
    Needs { source, target, trellis: 0, bits: false, delays: [0; 4] }
}

fn bits(source: usize, target: usize) -> Needs {
    Needs { bits: true, ..slices(source, target) }
}

fn decoding(source: usize, target: usize, trellis: usize) -> Needs {
    Needs { trellis, ..slices(source, target) }
}

fn refused_if(broken: bool, number: u8) -> Result<(), u8> {
    if broken {
        Err(number)
    } else {
        Ok(())
    }
}

fn shares_a_divisor(k: u64, a: u64) -> bool {
    (2..=k).any(|divisor| k % divisor == 0 && a % divisor == 0)
}

fn block(k: u64, a: u64) -> Result<Needs, u8> {
    refused_if(k > MOST_ENTRIES || a > MOST_MULTIPLIER, LIMIT)?;
    refused_if(k >= 1 && shares_a_divisor(k, a), SHUFFLE)?;
    Ok(slices(k as usize, k as usize))
}

fn matrix(lines: u64, columns: u64) -> Result<Needs, u8> {
    refused_if(lines > MOST_ENTRIES || columns > MOST_ENTRIES || lines * columns > MOST_ENTRIES, LIMIT)?;
    Ok(slices((lines * columns) as usize, (lines * columns) as usize))
}

fn words(number: u64, most: u64) -> Result<Needs, u8> {
    refused_if(number >= most, WORD)?;
    Ok(slices(0, 0))
}

// An empty input succeeds whatever the delays are.
fn encoder(delays: u64, inputs: usize, rate: usize) -> Result<Needs, u8> {
    refused_if(inputs as u64 > MOST_ENTRIES, LIMIT)?;
    let delays = if inputs == 0 { 0 } else { delays as u32 };
    Ok(Needs { delays: delays.to_le_bytes(), ..bits(inputs, rate * inputs) })
}

fn puncturing(mode: u64, n: u64) -> Result<(usize, usize), u8> {
    refused_if(mode > 6, KIND)?;
    refused_if(n > MOST_ENTRIES, LIMIT)?;
    Ok((n as usize, mother_position(mode as usize, n as usize)))
}

fn decoder(n: u64, rate: usize) -> Result<Needs, u8> {
    refused_if(n > MOST_STEPS, LIMIT)?;
    Ok(decoding(rate * n as usize, n as usize, n as usize))
}

fn control(kind: u64) -> Result<(usize, usize, usize), u8> {
    refused_if(!(1..=4).contains(&kind), KIND)?;
    Ok(KINDS[kind as usize - 1])
}

// The refusals that come before SHORT in document 01's order, and what the others are decided by.
fn needs(entry: &str, numbers: [u64; 3], inputs: usize) -> Result<Needs, u8> {
    let [a, b, c] = numbers;
    Ok(match entry {
        "crc16_itut_bits" | "crc16_ccitt_bits" | "tetra_scramb_get_bits" | "tetra_descramb_bits" | "mother_memcmp" => slices(0, 0),
        "crc16_itut_bytes" => slices(b.div_ceil(8) as usize, 0),
        "tetra_scramb_bits" => bits(inputs, 0),
        "tetra_scramb_get_init" => {
            refused_if(a > 1023 || b > 16383 || c > 63, FIELD)?;
            slices(0, 0)
        }
        "block_interleave" | "block_deinterleave" => block(a, b)?,
        "matrix_interleave" | "matrix_deinterleave" => matrix(a, b)?,
        "tetra_rm3014_compute" => words(a, 16384)?,
        "tetra_rm3014_decode_naive" | "compute_syndrome" | "tetra_rm3014_decode_limited_ecc" => words(a, 1 << 30)?,
        "codec_to_channel" | "channel_to_codec" => slices(274, 274),
        "encode" => encoder(a, inputs, 4)?,
        "encode_rate1_3" | "encode_speech" => encoder(a, inputs, 3)?,
        "get_punctured_rate" => {
            let (kept, mother) = puncturing(a, b)?;
            slices(mother, kept)
        }
        "tetra_rcpc_depunct" => {
            let (kept, mother) = puncturing(a, b)?;
            slices(kept, mother)
        }
        "dec_sb1" => decoder(a, 4)?,
        "dec_speech" => decoder(a, 3)?,
        "speech_crc" => slices(60, 8),
        "encode_cp" => {
            let (data, _, air) = control(a)?;
            bits(data, air)
        }
        "decode_cp" => {
            let (_, word, air) = control(a)?;
            decoding(air, word, word)
        }
        "encode_tp" => bits(274, 432),
        "encode_tp_half" => bits(274, 216),
        "decode_tp" => decoding(432, 274, 184),
        "decode_tp_half" => decoding(216, 274, 184),
        "encode_aach" => bits(14, 30),
        "decode_aach" => bits(30, 0),
        _ => panic!("document 01 has no entry {entry}"),
    })
}

// The number of the refusal that is due, or 0 where the request is accepted.
pub fn due(entry: &str, numbers: [u64; 3], source: &[u8], target: usize, trellis: usize) -> u8 {
    let needs = match needs(entry, numbers, source.len()) {
        Ok(needs) => needs,
        Err(number) => return number,
    };
    let no_bit = |entries: &[u8]| entries.iter().any(|&entry| entry > 1);
    if source.len() < needs.source {
        SHORT
    } else if target < needs.target || trellis < needs.trellis {
        ROOM
    } else if needs.bits && (no_bit(&source[..needs.source]) || no_bit(&needs.delays)) {
        BIT
    } else {
        0
    }
}

// How many entries of the source an accepted request uses.
pub fn used(entry: &str, numbers: [u64; 3], inputs: usize) -> usize {
    needs(entry, numbers, inputs).map_or(0, |needs| needs.source)
}

// The numbers that an entry can give.
pub fn possible(entry: &str) -> &'static [u8] {
    match entry {
        "crc16_itut_bytes" => &[SHORT],
        "tetra_scramb_bits" => &[BIT],
        "tetra_scramb_get_init" => &[FIELD],
        "block_interleave" | "block_deinterleave" => &[LIMIT, SHUFFLE, SHORT, ROOM],
        "matrix_interleave" | "matrix_deinterleave" | "dec_sb1" | "dec_speech" => &[LIMIT, SHORT, ROOM],
        "tetra_rm3014_compute" | "tetra_rm3014_decode_naive" | "compute_syndrome" | "tetra_rm3014_decode_limited_ecc" => &[WORD],
        "codec_to_channel" | "channel_to_codec" | "speech_crc" | "decode_tp" | "decode_tp_half" => &[SHORT, ROOM],
        "encode" | "encode_rate1_3" | "encode_speech" => &[LIMIT, ROOM, BIT],
        "get_punctured_rate" | "tetra_rcpc_depunct" => &[KIND, LIMIT, SHORT, ROOM],
        "encode_cp" => &[KIND, SHORT, ROOM, BIT],
        "decode_cp" => &[KIND, SHORT, ROOM],
        "encode_tp" | "encode_tp_half" | "encode_aach" => &[SHORT, ROOM, BIT],
        "decode_aach" => &[SHORT, BIT],
        _ => &[],
    }
}
