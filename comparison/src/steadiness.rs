//! Demand 3 on the engine: two sheets alike in every word but their samples,
//! which are at most d apart, have margins at most d apart or the same infinity.
//! Where a margin is infinite or beyond d, both verdicts are yes if it is positive
//! and both are no if it is negative.

use crate::alike::{with_samples, Alike, Point};
use crate::difference::Checked;
use crate::reached::one_way::{self, SPATIAL};
use crate::reached::Reached;
use crate::Engine;
use reference::generate::random::Random;
use reference::generate::valid;
use reference::margin::Margin;
use reference::sheet::LAST_CODE;
use reference::words;

/// What a run must have reached: pairs of sheets, a line of every code in them, and of
/// every code that goes by roads where some run one way.
pub fn labels() -> impl Iterator<Item = String> {
    let codes = (0..=LAST_CODE).map(code_label).chain(SPATIAL.map(one_way_label));
    std::iter::once(PAIR.into()).chain(codes)
}

const PAIR: &str = "steadiness of two sheets";

fn code_label(code: u32) -> String {
    format!("steadiness: code {code}")
}

fn one_way_label(code: u32) -> String {
    format!("steadiness: code {code}, roads one way")
}

/// Judges a random sheet and another whose samples are not far away.
pub fn check(engine: &dyn Engine, random: &mut Random, reached: &mut Reached) -> Checked {
    let first = valid::sheet_or_city(random, 16);
    let any = random.between(0, 1 << 27);
    let far = random.pick(&[0, 1, 1, 2, 3, 10, any]);
    let second = with_samples(&first, |_, number| {
        let any = random.between(-far, far);
        number + random.pick(&[-far, far, 0, any])
    });
    let alike = Alike::judged(engine, random, [first, second])?;
    demanded(&alike)?;
    reached.count(PAIR);
    reached.count_layout("steadiness", &alike.sheets[0]);
    let is_one_way = one_way::is_in(&alike.sheets[0]);
    for code in words::line_codes(&alike.sheets[0]) {
        reached.count(&code_label(code));
        if is_one_way && SPATIAL.contains(&code) {
            reached.count(&one_way_label(code));
        }
    }
    Ok(())
}

/// Demands that what is said to two sheets is as near as their samples allow.
pub fn demanded(alike: &Alike) -> Checked {
    let far = alike.apart();
    let what = format!("not steady for samples {far} apart");
    alike.demand_at_all(&what, |point| is_steady(point, far))
}

/// Whether two verdicts are as near as samples so far apart allow. X and Y may be
/// exchanged, so what a margin says of both verdicts is asked of either margin.
fn is_steady(point: &Point, far: i64) -> bool {
    let Point { x, y, .. } = point;
    let near = match (x.margin, y.margin) {
        (Margin::Finite(x), Margin::Finite(y)) => (x - y).abs() <= far,
        (x, y) => x == y,
    };
    let agree = |margin: Margin| match settled(margin, far) {
        Some(yes) => x.yes == yes && y.yes == yes,
        None => true,
    };
    near && agree(x.margin) && agree(y.margin)
}

/// What a margin settles for both verdicts: yes where it is beyond so much above 0
/// or plus infinity, no where it is as far below or minus infinity.
fn settled(margin: Margin, far: i64) -> Option<bool> {
    match margin {
        Margin::MinusInfinity => Some(false),
        Margin::PlusInfinity => Some(true),
        Margin::Finite(number) if number.abs() > far => Some(number > 0),
        Margin::Finite(_) => None,
    }
}

#[cfg(test)]
mod tests {
    use super::*;
    use reference::margin::Margin::{Finite, MinusInfinity, PlusInfinity};
    use reference::margin::Verdict;

    fn is_steady_for_3(x: (bool, Margin), y: (bool, Margin)) -> bool {
        let [x, y] = [x, y].map(|(yes, margin)| Verdict { yes, margin });
        let steady = is_steady(&Point { line: 0, sample: 0, place: 0, x, y }, 3);
        assert_eq!(steady, is_steady(&Point { line: 0, sample: 0, place: 0, x: y, y: x }, 3));
        steady
    }

    #[test]
    fn margins_are_near_or_the_same_infinity() {
        assert!(is_steady_for_3((true, Finite(9)), (true, Finite(6))));
        assert!(!is_steady_for_3((true, Finite(9)), (true, Finite(5))));
        assert!(is_steady_for_3((true, PlusInfinity), (true, PlusInfinity)));
        assert!(is_steady_for_3((false, MinusInfinity), (false, MinusInfinity)));
        assert!(!is_steady_for_3((true, PlusInfinity), (true, Finite(9))));
        assert!(!is_steady_for_3((true, PlusInfinity), (false, MinusInfinity)));
    }

    /// Within d of 0 verdicts may differ.
    #[test]
    fn verdicts_are_settled_beyond_d() {
        assert!(is_steady_for_3((true, Finite(3)), (false, Finite(0))));
        assert!(is_steady_for_3((false, Finite(-3)), (true, Finite(0))));
        assert!(!is_steady_for_3((true, Finite(4)), (false, Finite(1))));
        assert!(!is_steady_for_3((false, Finite(-4)), (true, Finite(-1))));
    }

    /// Two verdicts that are the same are not enough: they have to be those that
    /// the margin's sign says.
    #[test]
    fn verdicts_are_those_of_the_sign() {
        assert!(!is_steady_for_3((false, Finite(4)), (false, Finite(4))));
        assert!(!is_steady_for_3((true, Finite(-4)), (true, Finite(-4))));
        assert!(!is_steady_for_3((false, PlusInfinity), (false, PlusInfinity)));
        assert!(!is_steady_for_3((true, MinusInfinity), (true, MinusInfinity)));
    }
}
