//! A stream in every place, with the calls of the other kind; and the two kinds side by side.

use super::{other, KINDS};
use crate::judge::{Judge, Verdict};
use tikhoplav::pieces::Kind;

const AD_LENS: [usize; 4] = [0, 1, 3, 300];

/// Where the kind stands in a state.
const KIND: usize = 48;

pub fn run(judge: &mut Judge) -> Verdict {
    for ad_len in AD_LENS {
        for kind in KINDS {
            for state in judge.stages(kind, ad_len)? {
                out_of_turn(judge, other(kind), &state)?;
            }
        }
        side_by_side(judge, ad_len)?;
    }
    Ok(())
}

/// The calls of this kind are refused, empty pieces too.
fn out_of_turn(judge: &mut Judge, kind: Kind, state: &[u8]) -> Verdict {
    for length in [0, 1, 2, 70_000] {
        let calls = [judge.ad(kind, length), judge.data(kind, length)];
        for call in calls {
            judge.refuse(&call, state, 13)?;
        }
    }
    let finish = judge.finish(kind, state);
    judge.refuse(&finish, state, 13)
}

/// A checking stream on what a sealing stream gives has its state, but for the kind.
fn side_by_side(judge: &mut Judge, ad_len: usize) -> Verdict {
    let mut sealing = judge.begun(Kind::Sealing, ad_len)?;
    let mut checking = sealing.turned(judge)?;
    same_but_for_the_kind(judge, &sealing.state, &checking.state)?;
    let ad = judge.ad(Kind::Sealing, ad_len);
    sealing.accept(judge, &ad)?;
    checking.accept(judge, &ad.turned(&[]))?;
    for length in [1, 0, 40, 7] {
        let message = judge.data(Kind::Sealing, length);
        let from = sealing.given.len();
        sealing.accept(judge, &message)?;
        checking.accept(judge, &message.turned(&sealing.given[from..]))?;
        same_but_for_the_kind(judge, &sealing.state, &checking.state)?;
    }
    let from = sealing.given.len();
    let finish = judge.finish(Kind::Sealing, &sealing.state);
    sealing.accept(judge, &finish)?;
    checking.accept(judge, &finish.turned(&sealing.given[from..]))?;
    same_but_for_the_kind(judge, &sealing.state, &checking.state)
}

fn same_but_for_the_kind(judge: &mut Judge, sealing: &[u8], checking: &[u8]) -> Verdict {
    let mut turned = sealing.to_vec();
    turned[KIND] = 2;
    judge.holds(
        "the states differ in the kind alone",
        sealing[KIND] == 1 && turned == checking,
    )
}
