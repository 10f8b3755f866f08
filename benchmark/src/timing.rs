// Contestants that do the same work, called in turn many times; the best time of each stands.
use crate::ours::Answer;
use std::hint::black_box;
use std::rc::Rc;
use std::time::Instant;

const BLOCKS: usize = 12;

// What a call is lent: it is neither cleared nor filled between timed calls.
pub struct Lent {
    pub target: Vec<u8>,
    pub trellis: Vec<u16>,
    pub said: Answer,
    // Whether the answer is to be compared, and not timed.
    pub compared: bool,
}

impl Lent {
    // Something that the contestant made by itself.
    pub fn made(&mut self, bytes: &[u8]) {
        black_box(bytes);
        if self.compared {
            self.target[..bytes.len()].copy_from_slice(bytes);
        }
    }
}

enum Ask {
    // The answer to one input and the entries it leaves.
    Answer(usize),
    // All timed inputs once.
    Batch,
    // Buffers at other places in memory than before, since where they lie can cost a tenth.
    Move(usize),
}

pub struct Contestant {
    pub name: &'static str,
    run: Box<dyn FnMut(Ask) -> (u64, Vec<u8>)>,
}

pub struct Shape {
    // Inputs that a batch runs through; all inputs are compared.
    pub timed: usize,
    pub room: usize,
    // Entries of the target that are compared.
    pub seen: usize,
    pub before: u8,
}

pub fn contestant<I: 'static>(
    name: &'static str,
    inputs: &Rc<Vec<I>>,
    shape: &Shape,
    mut call: impl FnMut(&I, &mut Lent) -> u64 + 'static,
) -> Contestant {
    let inputs = inputs.clone();
    let (timed, room, seen, before) = (shape.timed, shape.room, shape.seen, shape.before);
    let mut between = vec![];
    let mut lent = Lent { target: vec![before; room], trellis: vec![0; 864], said: Answer::default(), compared: false };
    let run = move |ask: Ask| match ask {
        Ask::Answer(i) => {
            lent.compared = true;
            lent.target.fill(before);
            lent.trellis.fill(0x5555);
            let answer = call(&inputs[i], &mut lent);
            let left = lent.target[..seen].to_vec();
            lent.compared = false;
            (answer, left)
        }
        Ask::Move(block) => {
            between.push(vec![0u8; 100 + 144 * block]);
            lent.target = vec![before; room];
            between.push(vec![0u8; 100 + 80 * block]);
            lent.trellis = vec![0; 864];
            (0, vec![])
        }
        Ask::Batch => {
            for input in &inputs[..timed] {
                black_box(call(black_box(input), &mut lent));
            }
            (0, vec![])
        }
    };
    Contestant { name, run: Box::new(run) }
}

// The inputs to which a contestant answers otherwise than the first one.
pub fn disagreeing(contestants: &mut [Contestant], which: usize, inputs: usize) -> usize {
    (0..inputs).filter(|&i| (contestants[0].run)(Ask::Answer(i)) != (contestants[which].run)(Ask::Answer(i))).count()
}

// Nanoseconds of a batch: the best of each block of rounds, for each contestant.
pub struct Times {
    blocks: Vec<Vec<f64>>,
}

pub struct Ratio {
    pub value: f64,
    pub low: f64,
    pub high: f64,
}

impl Times {
    pub fn best(&self, which: usize) -> f64 {
        self.blocks.iter().map(|block| block[which]).fold(f64::INFINITY, f64::min)
    }

    // Best to best over all rounds; the spread is that of the same ratio within each block.
    pub fn ratio(&self, which: usize, to: usize) -> Ratio {
        let each = || self.blocks.iter().map(|block| block[which] / block[to]);
        Ratio {
            value: self.best(which) / self.best(to),
            low: each().fold(f64::INFINITY, f64::min),
            high: each().fold(0.0, f64::max),
        }
    }
}

pub fn interleaved(contestants: &mut [Contestant], rounds: usize) -> Times {
    let n = contestants.len();
    let mut blocks = vec![vec![f64::INFINITY; n]; BLOCKS];
    for (number, block) in blocks.iter_mut().enumerate() {
        for each in &mut *contestants {
            (each.run)(Ask::Move(number));
        }
        for round in 0..rounds {
            for turn in 0..n {
                // Each comes first, second and so on equally often.
                let which = (turn + round) % n;
                let start = Instant::now();
                (contestants[which].run)(Ask::Batch);
                let taken = start.elapsed().as_nanos() as f64;
                block[which] = block[which].min(taken);
            }
        }
    }
    Times { blocks }
}
