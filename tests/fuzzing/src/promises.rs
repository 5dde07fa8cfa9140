//! What include/mavistable.h promises of several calls together. The second
//! implementation has no part in this.

use crate::answers::Told;
use crate::fault::Fault;
use crate::trial::Seen;
use second::text::{Call, Case};

/// The promises that are broken. `like_run`: the explaining call left the lists
/// as the run did; `like_fenced`: the bare run the values.
pub fn broken(case: &Case, seen: &Seen, like_run: bool, like_fenced: bool) -> Vec<Fault> {
    let Seen {
        verdict,
        answer,
        explanation,
        bare,
    } = seen;
    let by_table = |number: u32| matches!(number, 1..=9 | 16);
    let refused_by_table = answer.is_refused() && by_table(answer.number);
    let same_refusal = (verdict.number, verdict.place) == (answer.number, answer.place);
    let judged_alike = match verdict.passes() {
        true => !refused_by_table,
        false => answer.is_refused() && same_refusal,
    };
    let explained_alike = explanation.answer() == *answer && like_run;
    let reason_with_abort = answer.is_abort() == (explanation.reason != 0);
    let [length, others @ ..] = case.lengths;
    let promised = others == [length; 2] && !answer.is_abort();
    let bare_alike = *bare == *answer && like_fenced;
    let never_stuck = answer.ending != 4;
    let promises = [
        (judged_alike, Call::Check, "check and run judge otherwise"),
        (never_stuck, Call::Run, "a run with bounds is stuck"),
        (explained_alike, Call::Explain, "explained call and run differ"),
        (reason_with_abort, Call::Explain, "a reason without abort, or none with it"),
        (!bare.is_abort(), Call::Bare, "a bare run aborts"),
        (!promised || bare_alike, Call::Bare, "fenced and bare run differ"),
    ];
    let broken = promises.into_iter().filter(|(kept, ..)| !kept);
    broken
        .map(|(_, call, text)| Fault::promise(call, text, seen))
        .collect()
}
