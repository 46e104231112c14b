//! Random jobs by random schedules on the second implementation alone: demand 3 as far as a test can show it, and what holds of windows at
//! every state.

use super::machine::{Machine, Status, Thread};
use super::plain::measured;
use super::watch::watch;
use super::window::Window;
use super::{Answer, PlainAnswer};
use crate::generate::{job, schedule, Case};
use crate::random::Random;

/// What was met, so that the test is not passed by runs that show nothing.
#[derive(Debug, Default)]
struct Met {
    states: u64,
    finished: u64,
    faulted: [u64; 32],
    /// finished runs whose children loaded shared words
    shared: u64,
    /// threads with a read span, counted at each state: of what the parent shares, or handed on by it
    given: u64,
    handed_on: u64,
}

fn in_order(w: &Window) -> bool {
    w.lo <= w.mark && w.mark <= w.ceiling && w.ceiling <= w.hi && w.hi <= w.from && w.from <= w.to && w.to <= 1024
}

/// Whether a thread's read span is empty, lies in what its parent shares, or is its parent's own.
fn spanned(met: &mut Met, m: &Machine, thread: &Thread) -> bool {
    let w = &thread.window;
    if w.from == w.to {
        return true;
    }
    let parent = &m.threads[thread.parent as usize & 31].window;
    let given = w.from >= parent.ceiling && w.to <= parent.hi;
    met.given += given as u64;
    met.handed_on += !given as u64;
    given || (w.from, w.to) == (parent.from, parent.to)
}

/// Whether no word may be stored by one and loaded by the other. What each may is given by its six numbers, so that if there is such a word,
/// one of them or the word before it is one.
fn apart(stores: &Window, loads: &Window) -> bool {
    let edges = |w: &Window| [w.lo, w.mark, w.ceiling, w.hi, w.from, w.to].map(u32::from);
    let mut places = edges(stores).into_iter().chain(edges(loads)).flat_map(|edge| [edge, edge.wrapping_sub(1)]);
    !places.any(|address| address >= 32 && stores.may_store(address) && loads.may_load(address))
}

/// Whether the windows of a state are sound: in order, their spans shared, and no thread may store what another may load.
fn sound(met: &mut Met, m: &Machine) -> bool {
    let used: Vec<&Thread> = m.threads.iter().filter(|thread| thread.status != Status::Free).collect();
    used.iter().all(|thread| in_order(&thread.window) && thread.window.lo >= 32 && spanned(met, m, thread))
        && used.iter().all(|one| used.iter().all(|other| std::ptr::eq(*one, *other) || apart(&one.window, &other.window)))
}

/// The states of a run by a schedule, each of which is checked, and its end against the plain run's.
fn follow(met: &mut Met, case: &Case, bytes: &[u8]) {
    let (answer, memory) = watch(case, bytes, |number, m, _| {
        if number == 0 {
            met.states += 1;
            assert!(sound(met, m), "state {} of {bytes:?}, image {:?}", met.states, case.image);
        }
    });
    ends_alike(met, case, answer, &memory);
}

/// A run that finishes ends as the plain run does, and none faults where the plain run finishes.
fn ends_alike(met: &mut Met, case: &Case, answer: Answer, memory: &[u32]) {
    let mut other = case.memory.clone();
    let (plain, measure) = measured(case.fed(), &mut other);
    match answer {
        Answer::Finished { result, units } => {
            assert_eq!((plain, &other[..]), (PlainAnswer::Finished { result, units }, memory), "image {:?}", case.image);
            met.finished += 1;
            met.shared += (measure.shared > 0) as u64;
        }
        Answer::Faulted { number, .. } => {
            assert!(!matches!(plain, PlainAnswer::Finished { .. }), "{answer:?}, image {:?}", case.image);
            met.faulted[number as usize] += 1;
        }
        _ => {}
    }
}

#[test]
fn orders_end_alike() {
    let mut met = Met::default();
    for seed in 0..20_000 {
        let mut random = Random::new(seed * 1_000_003);
        let mut case = job(&mut random);
        case.cores = random.range(1, 4) as u8;
        let bytes = schedule(&mut random, &case, 1000);
        follow(&mut met, &case, &bytes);
    }
    println!("{met:?}");
    assert!(met.states > 1_000_000 && met.finished > 4000 && met.shared > 1000);
    assert!([9, 10, 11, 12, 31].iter().all(|number| met.faulted[*number] > 100));
    assert!(met.given > 100_000 && met.handed_on > 10_000);
}
