use calls::Answer;
use compare::cases::situation;
use compare::rng::Rng;

use crate::measure::{plain, Sides};
use crate::rows::Bench;

/// How many situations are asked for.
const SITUATIONS: usize = 4096;

/// The context census. The Rust has no such call.
pub fn benches() -> Vec<Bench> {
    vec![bench(1, "1 block"), bench(1024, "1,024 blocks")]
}

/// Varblocks of growing size.
pub fn growth() -> Vec<Bench> {
    let blocks = [(1, "1 block"), (32, "32 blocks"), (1024, "1,024 blocks")];
    blocks.map(|(blocks, shown)| bench(blocks, shown)).into()
}

fn bench(blocks: u32, shown: &str) -> Bench {
    Bench::new(format!("census, {shown}"), move || {
        let mut rng = Rng::new(6);
        let situations = (0..SITUATIONS).map(|_| situation(&mut rng, blocks));
        let situations: Vec<_> = situations.collect();
        let sum = move || -> Answer<u32> {
            let answers = situations.iter().map(|each| ours::census(each).answer);
            answers.sum()
        };
        Sides {
            ours: Some(plain(sum)),
            rust: None,
            units: (SITUATIONS, "situation"),
        }
    })
}
