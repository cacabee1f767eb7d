//! Makes what the outside does to a circuit: load and input words, cycle by cycle.

use super::Random;

/// One cycle of the outside.
#[derive(Clone)]
pub struct Moment {
    /// Whether load is high.
    pub load: bool,
    /// The input words.
    pub words: Vec<u32>,
}

/// Makes a stream: load flips often, seldom or in between, and words change always or at times.
pub fn stream(random: &mut Random, width: u32, inputs: u32, cycles: usize) -> Vec<Moment> {
    let flips = random.pick(&[5, 15, 30, 50, 70]);
    let changes = random.pick(&[10, 50, 100]);
    // Small words keep counted loops short, so that a stream holds several runs.
    let small = random.chance(50);
    let mut moment = Moment { load: random.chance(50), words: random.words(width, inputs) };
    let mut stream = vec![];
    for _ in 0..cycles {
        if random.chance(flips) {
            moment.load = !moment.load;
        }
        if random.chance(changes) {
            moment.words = random.words(width, inputs);
            if small {
                moment.words.iter_mut().for_each(|word| *word &= 3);
            }
        }
        stream.push(moment.clone());
    }
    stream
}
