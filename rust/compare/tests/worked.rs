//! The worked cases of document 01 that are run and not proved, I and J, and the sheets of
//! request k in `examples`.

use compare::comparison::Comparison;
use compare::sheets::mode;
use compare::tally::Tally;
use compare::wanted::Way;
use second::generate::Rng;
use second::{encode, Mode, Module, Sheet};
use tyvasuri::{judge, quick_test, Quick};

fn sheet(horizon: u16, modules: Vec<Vec<Mode>>) -> Sheet {
    Sheet { horizon, modules: modules.into_iter().map(|modes| Module { modes }).collect() }
}

/// The system of the source's Table 1.
fn table_1(horizon: u16) -> Sheet {
    sheet(
        horizon,
        vec![
            vec![
                mode(10, &[[0, 2, 6, 10], [0, 1, 5, 5]], &[[1, 10]]),
                mode(8, &[[2, 1, 2, 8]], &[]),
            ],
            vec![mode(4, &[[0, 1, 4, 4]], &[[1, 4]]), mode(8, &[[1, 1, 1, 8]], &[[0, 8]])],
            vec![mode(8, &[[2, 1, 1, 8]], &[])],
        ],
    )
}

/// The quick test is over at once at any horizon; every other call is compared.
#[test]
fn case_i() {
    let mut comparison = Comparison::default();
    for horizon in [1, 2, 3, 4, 5, 8, 10, 13, 40, 100, 500, 777, 1000, 1999, 2000] {
        let made = table_1(horizon);
        let bytes = encode(&made);
        let verdict = quick_test(&bytes, &mut [0; tyvasuri::Sheet::WORK_LEN]);
        assert!(
            matches!(verdict, Ok(Quick::Over { length: 1, demand: 2, .. })),
            "horizon {horizon}: {verdict:?}"
        );
        let way = if horizon <= 10 { Way::Literal } else { Way::Table };
        let compared = comparison.every_call(&mut Rng::new(0), &bytes, way, &made);
        assert_eq!(compared, Ok(()), "horizon {horizon}");
    }
}

/// The number and the place of the refusal, if there is one.
fn refused(sheet: &Sheet) -> Option<(u8, usize)> {
    let bytes = encode(sheet);
    let compared = Comparison::default().every_call(&mut Rng::new(0), &bytes, Way::Literal, sheet);
    assert_eq!(compared, Ok(()));
    judge(&bytes).err().map(|refusal| (refusal.number(), refusal.place))
}

#[test]
fn case_j() {
    let with_task = |task| sheet(4, vec![vec![mode(4, &[task], &[])]]);
    assert_eq!(refused(&with_task([1, 3, 3, 4])), None);
    assert_eq!(refused(&with_task([1, 1, 4, 4])), Some((5, 12)));
    let modes = vec![mode(8, &[[0, 1, 1, 8]], &[[1, 4]]), mode(8, &[], &[])];
    assert_eq!(refused(&sheet(4, vec![modes])), Some((6, 22)));
}

/// The counts of every call on a sheet of `examples`.
fn tally_of(bytes: &[u8]) -> Tally {
    let mut comparison = Comparison::default();
    let made = second::judge(bytes).unwrap();
    let compared = comparison.every_call(&mut Rng::new(0), bytes, Way::Literal, &made);
    assert_eq!(compared, Ok(()));
    comparison.tally
}

/// Request k: only by SX is the long mode left within its task period, and only where it is over
/// does a tape show it.
#[test]
fn leaving_a_mode() {
    let by_sw = tally_of(include_bytes!("../../../examples/leave_by_sw.sheet"));
    assert_eq!((by_sw.sx, by_sw.sx_alone, by_sw.left_by_sx, by_sw.exact), (0, 0, 0, [0, 1]));
    let by_sx = tally_of(include_bytes!("../../../examples/leave_by_sx.sheet"));
    assert_eq!((by_sx.sx, by_sx.sx_alone, by_sx.left_by_sx, by_sx.exact), (1, 1, 0, [1, 0]));
    let over = tally_of(include_bytes!("../../../examples/leave_by_sx_over.sheet"));
    assert_eq!((over.sx, over.sx_alone, over.left_by_sx, over.exact), (1, 1, 1, [0, 1]));
}
