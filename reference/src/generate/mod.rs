//! Case files from a seed: random boards, small or dense, and boards aimed at one border each.

mod bad;
mod case;
mod pointed;
mod random;
pub mod rng;

use std::io::Write;

use case::Case;
use rng::Rng;

/// Writes `count` boards, each under a `case` line of its own.
pub fn write(kind: &str, seed: u64, count: usize, out: &mut dyn Write) -> Result<(), String> {
    let mut rng = Rng::new(seed);
    match kind {
        "random" => write_random(kind, random::SMALL, count, &mut rng, out),
        "dense" => write_random(kind, random::DENSE, count, &mut rng, out),
        "pointed" => write_pointed(count, &mut rng, out),
        "bad" => write_bad(count, &mut rng, out),
        _ => Err(format!("KIND is '{kind}', neither random, dense, pointed nor bad")),
    }
}

fn write_random(
    kind: &str,
    size: random::Size,
    count: usize,
    rng: &mut Rng,
    out: &mut dyn Write,
) -> Result<(), String> {
    for at in 0..count {
        put(out, &random::case(format!("{kind}-{at}"), size, rng))?;
    }
    Ok(())
}

/// Round after round of all pointed boards; the large ones come at the end of the first only.
fn write_pointed(count: usize, rng: &mut Rng, out: &mut dyn Write) -> Result<(), String> {
    let mut left = count;
    let mut round = 0;
    while left > 0 {
        let mut cases = pointed::cases(rng);
        if round == 0 {
            cases.extend(pointed::large_cases());
        }
        cases.truncate(left);
        left -= cases.len();
        for case in cases {
            put(out, &case.renamed(round))?;
        }
        round += 1;
    }
    Ok(())
}

/// Only the last board has a line that cannot be read, since nothing is recorded after it.
fn write_bad(count: usize, rng: &mut Rng, out: &mut dyn Write) -> Result<(), String> {
    for at in 0..count {
        let case = random::case(format!("bad-{at}"), random::SMALL, rng);
        let case = if at + 1 == count { bad::spoiled(case, rng) } else { case };
        put(out, &case)?;
    }
    Ok(())
}

fn put(out: &mut dyn Write, case: &Case) -> Result<(), String> {
    out.write_all(case.text().as_bytes()).map_err(|error| error.to_string())
}

#[cfg(test)]
mod tests {
    use super::*;
    use crate::replay::replay;
    use crate::self_check::SelfCheck;

    fn generated(kind: &str, seed: u64, count: usize) -> String {
        let mut out = Vec::new();
        write(kind, seed, count, &mut out).expect("a known kind");
        String::from_utf8(out).expect("text")
    }

    fn both_searches_agree(cases: &str) {
        let mut check = SelfCheck::default();
        replay(cases, &mut check).expect("both searches find the same");
        assert!(check.by_both * 2 > check.questions);
    }

    #[test]
    fn both_searches_agree_on_random_boards() {
        both_searches_agree(&generated("random", 1, 300));
    }

    #[test]
    fn both_searches_agree_on_dense_boards() {
        both_searches_agree(&generated("dense", 1, 20));
    }

    #[test]
    fn both_searches_agree_on_pointed_boards() {
        let mut rng = Rng::new(1);
        let text: String = pointed::cases(&mut rng).iter().map(Case::text).collect();
        both_searches_agree(&text);
    }

    #[test]
    fn the_same_seed_gives_the_same_file() {
        assert_eq!(generated("random", 9, 20), generated("random", 9, 20));
        assert_ne!(generated("random", 9, 20), generated("random", 10, 20));
        assert_eq!(generated("pointed", 9, 20), generated("pointed", 9, 20));
    }
}
