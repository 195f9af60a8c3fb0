//! The arguments of the programs that try random inputs.

/// SEED and COUNT of `PROGRAM [--seed SEED] [--count COUNT]`. The seed is 1 where it is not given.
pub fn seed_and_count(program: &str, default_count: u64) -> Result<(u64, u64), String> {
    let (mut seed, mut count) = (1, default_count);
    let mut words = std::env::args().skip(1);
    while let Some(word) = words.next() {
        let value = words.next().and_then(|value| value.parse().ok());
        match (word.as_str(), value) {
            ("--seed", Some(value)) => seed = value,
            ("--count", Some(value)) => count = value,
            _ => return Err(format!("usage: {program} [--seed SEED] [--count COUNT]")),
        }
    }
    Ok((seed, count))
}
