// The library's answers: the number that a function returns, and the members of what it says.
use crate::convenc::Compared;
use crate::errorcontrol::Received;
use crate::raw::Answer;
use crate::rm3014::Verdict;
use crate::Refusal;

const GOOD: u64 = 1;
const BAD: u64 = 2;
const CLEAN: u64 = 3;
const MENDED: u64 = 4;
const BEYOND: u64 = 5;
const MATCHED: u64 = 6;
const DIFFERS: u64 = 7;

// Only a library of another version than this crate can answer so.
fn stranger(what: impl std::fmt::Debug) -> ! {
    panic!("libcaplattice.a answered {what:?}, which this crate does not know: they are not of one version")
}

// What a function that is done or refuses answers.
pub fn done(number: u8) -> Result<(), Refusal> {
    match (number, Refusal::from_number(number)) {
        (0, _) => Ok(()),
        (_, Some(refusal)) => Err(refusal),
        (_, None) => stranger(number),
    }
}

// What a function that has something to say answers.
pub fn said(call: impl FnOnce(&mut Answer) -> u8) -> Result<Answer, Refusal> {
    let mut answer = Answer::default();
    done(call(&mut answer))?;
    Ok(answer)
}

// The same of a function that never refuses.
pub fn always_said(call: impl FnOnce(&mut Answer) -> u8) -> Answer {
    said(call).unwrap_or_else(|refusal| stranger(refusal))
}

impl Answer {
    pub fn received(self) -> Received {
        let disagreements = self.disagreements as usize;
        match self.verdict {
            GOOD => Received::Good { disagreements },
            BAD => Received::Bad { disagreements },
            _ => stranger(self),
        }
    }

    pub fn found(self) -> Verdict {
        let data = self.value as u16;
        match self.verdict {
            CLEAN => Verdict::Clean { data },
            MENDED => Verdict::Mended {
                data,
                place: self.place as u8,
            },
            BEYOND => Verdict::Beyond { data },
            _ => stranger(self),
        }
    }

    pub fn compared(self) -> Compared {
        match self.verdict {
            MATCHED => Compared::Matched(self.value as usize),
            DIFFERS => Compared::Differs,
            _ => stranger(self),
        }
    }
}
