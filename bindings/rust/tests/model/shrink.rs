//! A list that fails, made shorter as long as it fails.
use crate::call::{Call, List};
use crate::session::Session;

/// Makes all calls of a list: at which one it fails, and how.
pub fn failure(list: &List) -> Option<(usize, String)> {
    let mut session = Session::new(list.sizes);
    for (k, call) in list.calls.iter().enumerate() {
        if let Err(why) = session.call(call) {
            return Some((k, why));
        }
    }
    session.contents().err().map(|why| (list.calls.len(), why))
}

pub fn shrink(mut list: List) -> List {
    let mut part = list.calls.len();
    while part > 4 {
        list = pass(list, part);
        part = part.div_ceil(2);
    }
    loop {
        let before = list.calls.len();
        for part in [4, 2, 1] {
            list = pass(list, part);
        }
        if list.calls.len() == before {
            return smaller(list);
        }
    }
}

/// Leaves out parts of that length, from the front on.
fn pass(mut list: List, part: usize) -> List {
    let mut at = 0;
    while at < list.calls.len() {
        match without(&list, at, part) {
            Some(shorter) => list = shorter,
            None => at += part,
        }
    }
    list
}

/// The list less a part, if it still fails. What a copier comes to depends on how many steps it had: so a small part is tried
/// together with a step out of each row of steps, too.
fn without(list: &List, at: usize, part: usize) -> Option<List> {
    let end = (at + part).min(list.calls.len());
    let rest = [&list.calls[..at], &list.calls[end..]].concat();
    let is_step = |k: usize| rest[k] == Call::Step;
    let steps = (0..rest.len()).filter(|&k| part <= 4 && is_step(k) && (k == 0 || !is_step(k - 1)));
    std::iter::once(None).chain(steps.map(Some)).find_map(|step| {
        let mut calls = rest.clone();
        step.map(|k| calls.remove(k));
        failing(List { sizes: list.sizes, calls })
    })
}

/// The list up to the call that fails.
fn failing(mut list: List) -> Option<List> {
    let (k, _) = failure(&list)?;
    list.calls.truncate(k + 1);
    Some(list)
}

/// Writes of fewer bytes, and bursts of fewer steps.
fn smaller(mut list: List) -> List {
    let mut k = 0;
    // a smaller call may fail earlier, and then the list ends there
    while let Some(call) = list.calls.get(k) {
        let call = match call {
            Call::Write(inode, offset, bytes) if !bytes.is_empty() => {
                Some(Call::Write(*inode, *offset, bytes[..bytes.len() / 2].to_vec()))
            }
            Call::Burst(count) if *count > 1 => Some(Call::Burst(count / 2)),
            _ => None,
        };
        let shorter = call.and_then(|call| {
            let mut calls = list.calls.clone();
            calls[k] = call;
            failing(List { sizes: list.sizes, calls })
        });
        match shorter {
            Some(shorter) => list = shorter,
            None => k += 1,
        }
    }
    list
}
