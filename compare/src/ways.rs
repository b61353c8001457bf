//! How often calls meet ways that a comparison must see: `holes`, `pool`,
//! `fixed_ways` and `limit_ways` name theirs.

pub fn add<const N: usize>(all: &mut [u64; N], more: &[u64; N]) {
    all.iter_mut().zip(more).for_each(|(all, more)| *all += more);
}

/// The ways that nothing met.
pub fn never_met<const N: usize>(ways: [&'static str; N], counts: &[u64; N]) -> Vec<&'static str> {
    let never = ways.into_iter().zip(counts).filter(|(_, &count)| count == 0);
    never.map(|(way, _)| way).collect()
}
