// The original, unchanged, read at compile time from the folder that CAPLATTICE_ORIGINAL names, with thin
// stand-ins for what it leans on and what was not published with it. The parameters are document 01's.
#![allow(dead_code, unused_imports, unused_doc_comments)]

extern crate self as tetra_core;
extern crate self as tetra_saps;
extern crate self as tracing;

#[macro_export]
macro_rules! trace {
    ($($any:tt)*) => {};
}
#[macro_export]
macro_rules! debug {
    ($($any:tt)*) => {};
}
#[macro_export]
macro_rules! warn {
    ($($any:tt)*) => {};
}

pub mod pdu_parse_error {
    #[derive(Debug)]
    pub enum PduParseErr {
        BufferEnded { field: Option<&'static str> },
    }
}

pub mod bitbuffer {
    include!(concat!(env!("CAPLATTICE_ORIGINAL"), "/crates/tetra-core/src/bitbuffer.rs"));
}
pub use bitbuffer::BitBuffer;

#[derive(Clone, Copy, Debug, PartialEq, Eq)]
pub enum PhyBlockType {
    SB1,
    Other,
}

pub mod tmv {
    pub mod enums {
        pub mod logical_chans {
            #[derive(Clone, Copy, Debug, PartialEq, Eq)]
            pub enum LogicalChannel {
                Bsch,
                SchHu,
                SchHd,
                SchF,
                Aach,
                TchS,
            }

            impl LogicalChannel {
                pub fn is_control_channel(&self) -> bool {
                    *self != LogicalChannel::TchS
                }
            }
        }
    }

    pub struct TmvUnitdataReq {
        pub logical_channel: enums::logical_chans::LogicalChannel,
        pub mac_block: crate::BitBuffer,
        pub scrambling_code: u32,
    }
}

pub mod tp {
    pub struct TpUnitdataInd {
        pub block: crate::BitBuffer,
        pub block_type: crate::PhyBlockType,
    }
}

pub mod lmac {
    pub mod components {
        pub mod crc16 {
            include!(concat!(env!("CAPLATTICE_ORIGINAL"), "/crates/tetra-entities/src/lmac/components/crc16.rs"));
        }
        pub mod scrambler {
            include!(concat!(env!("CAPLATTICE_ORIGINAL"), "/crates/tetra-entities/src/lmac/components/scrambler.rs"));
        }
        pub mod interleaver {
            include!(concat!(env!("CAPLATTICE_ORIGINAL"), "/crates/tetra-entities/src/lmac/components/interleaver.rs"));
        }
        pub mod rm3014 {
            include!(concat!(env!("CAPLATTICE_ORIGINAL"), "/crates/tetra-entities/src/lmac/components/rm3014.rs"));
        }
        pub mod tch_reorder {
            include!(concat!(env!("CAPLATTICE_ORIGINAL"), "/crates/tetra-entities/src/lmac/components/tch_reorder.rs"));
        }
        pub mod convenc {
            include!(concat!(env!("CAPLATTICE_ORIGINAL"), "/crates/tetra-entities/src/lmac/components/convenc.rs"));

            // The delays are private; only a module that holds the text can set and read them.
            pub fn control_from(delayed: [u8; 4]) -> ConvEncState {
                ConvEncState { delayed }
            }
            pub fn control_delays(state: &ConvEncState) -> [u8; 4] {
                state.delayed
            }
            pub fn speech_from(delayed: [u8; 4]) -> SpeechConvEncState {
                SpeechConvEncState { delayed }
            }
            pub fn speech_delays(state: &SpeechConvEncState) -> [u8; 4] {
                state.delayed
            }
        }
        pub mod viterbi {
            include!(concat!(env!("CAPLATTICE_ORIGINAL"), "/crates/tetra-entities/src/lmac/components/viterbi.rs"));
        }
        pub mod errorcontrol_params {
            use crate::tmv::enums::logical_chans::LogicalChannel;

            pub struct Params {
                pub type1_bits: usize,
                pub type2_bits: usize,
                pub type345_bits: usize,
                pub interleave_a: usize,
                pub have_crc16: bool,
            }

            pub fn get_params(channel: LogicalChannel) -> Params {
                let (data, word, air, a) = match channel {
                    LogicalChannel::Bsch => (60, 80, 120, 11),
                    LogicalChannel::SchHu => (92, 112, 168, 13),
                    LogicalChannel::SchHd => (124, 144, 216, 101),
                    LogicalChannel::SchF => (268, 288, 432, 103),
                    LogicalChannel::Aach => (14, 30, 30, 0),
                    LogicalChannel::TchS => (274, 286, 432, 0),
                };
                Params { type1_bits: data, type2_bits: word, type345_bits: air, interleave_a: a, have_crc16: a != 0 }
            }
        }
        pub mod errorcontrol {
            include!(concat!(env!("CAPLATTICE_ORIGINAL"), "/crates/tetra-entities/src/lmac/components/errorcontrol.rs"));

            // Private in the original.
            pub fn speech_check(data: &[u8]) -> [u8; 8] {
                speech_crc(data)
            }
        }
    }
}
