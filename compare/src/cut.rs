//! Cuts a failing list down: leaves out records as long as it still fails.

/// A record, or the short last one.
pub type Records = Vec<Vec<u8>>;

/// `fails` tells the line in which a list first differs, counted from 0. The
/// records behind that line are mostly not needed. Then runs of records are
/// left out, long ones first, down to single ones; `may_go_on` ends it early.
pub fn cut(
    list: Records,
    mut fails: impl FnMut(&Records) -> Option<usize>,
    may_go_on: impl Fn() -> bool,
) -> Records {
    let mut kept = match fails(&list) {
        Some(line) => up_to(list, line, &mut fails),
        None => return list,
    };
    let mut run = kept.len().div_ceil(2);
    loop {
        let before = kept.len();
        let mut at = 0;
        while at < kept.len() && may_go_on() {
            let mut trial = kept.clone();
            trial.drain(at..(at + run).min(kept.len()));
            match fails(&trial) {
                Some(line) => kept = up_to(trial, line, &mut fails),
                None => at += run,
            }
        }
        if !may_go_on() || (run == 1 && kept.len() == before) {
            return kept;
        }
        run = run.div_ceil(2);
    }
}

/// Without the records after the differing line, unless they are needed: a
/// program that breaks down may lose lines that it had ready.
fn up_to(list: Records, line: usize, fails: &mut impl FnMut(&Records) -> Option<usize>) -> Records {
    if line + 1 >= list.len() {
        return list;
    }
    let shorter = list[..line + 1].to_vec();
    if fails(&shorter).is_some() {
        shorter
    } else {
        list
    }
}
