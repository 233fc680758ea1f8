//! Cutting orders against two computations of the test's own: the source removal algorithm with counts and a heap, on
//! random cases; and the first of all permutations that meets the pairs, on small ones.

use pamitoye::{MAX_LANES, MAX_PAIRS, OrderError, cutting_order, cutting_order_into};
use std::cmp::Reverse;
use std::collections::{BTreeMap, BTreeSet, BinaryHeap};

#[path = "../../../oracle/src/random.rs"]
#[allow(dead_code)]
mod random;
use random::Random;

type Pairs = Vec<[usize; 2]>;

/// What every cell holds before a call.
const MARK: usize = 777;

/// The order by source removal: of the distinct pairs, how many each lane waits for, and the lanes that wait for none
/// in a heap. `None` where lanes are left over.
fn by_removal(lanes: usize, pairs: &[[usize; 2]]) -> Option<Vec<usize>> {
    let distinct: BTreeSet<[usize; 2]> = pairs.iter().copied().collect();
    let (mut waits, mut after) = (vec![0; lanes], vec![Vec::new(); lanes]);
    for [a, b] in distinct {
        waits[b] += 1;
        after[a].push(b);
    }
    let mut free: BinaryHeap<_> = (0..lanes).filter(|l| waits[*l] == 0).map(Reverse).collect();
    let mut order = Vec::new();
    while let Some(Reverse(lane)) = free.pop() {
        order.push(lane);
        for next in &after[lane] {
            waits[*next] -= 1;
            if waits[*next] == 0 {
                free.push(Reverse(*next));
            }
        }
    }
    (order.len() == lanes).then_some(order)
}

/// The number that the papers give, and the order.
fn expected(lanes: usize, pairs: &[[usize; 2]], cells: usize) -> Result<Vec<usize>, u64> {
    if lanes > 64 || pairs.len() > 1024 {
        return Err(18);
    }
    if pairs.iter().flatten().any(|lane| *lane >= lanes) {
        return Err(31);
    }
    if cells < lanes {
        return Err(19);
    }
    by_removal(lanes, pairs).ok_or(32)
}

/// The answer is the expected one, and every cell is; its number.
fn compare(lanes: usize, pairs: &[[usize; 2]], cells: usize) -> u64 {
    let mut order = vec![MARK; cells];
    let answer = cutting_order_into(lanes, pairs, &mut order);
    match expected(lanes, pairs, cells) {
        Ok(list) => {
            assert_eq!(answer, Ok(()), "{lanes} {pairs:?}");
            assert_eq!(order[..lanes], list, "{lanes} {pairs:?}");
            assert!(order[lanes..].iter().all(|cell| *cell == MARK));
            0
        }
        Err(number) => {
            assert_eq!(
                answer.map_err(|e| e.number()),
                Err(number),
                "{lanes} {pairs:?}"
            );
            assert!(order.iter().all(|cell| *cell == MARK));
            number
        }
    }
}

fn shuffled(r: &mut Random, n: usize) -> Vec<usize> {
    let mut list: Vec<usize> = (0..n).collect();
    for i in (1..n).rev() {
        list.swap(i, r.below(i + 1));
    }
    list
}

/// Pairs that the given order meets.
fn met(r: &mut Random, order: &[usize], count: usize) -> Pairs {
    let mut pair = || {
        let j = r.between(1, order.len() - 1);
        [order[r.below(j)], order[j]]
    };
    (0..count).map(|_| pair()).collect()
}

/// Lanes, pairs and the length of the slice, of one of several kinds.
fn draw(r: &mut Random) -> (usize, Pairs, usize) {
    let lanes = match r.below(4) {
        0 => r.between(2, 6),
        1 => 64,
        _ => r.between(2, 64),
    };
    let order = shuffled(r, lanes);
    let mut pairs = match r.below(8) {
        // a chain of all lanes, in any order, some of it repeated
        0 => {
            let mut chain: Pairs = order.windows(2).map(|w| [w[0], w[1]]).collect();
            for _ in 0..r.below(40) {
                chain.push(chain[r.below(lanes - 1)]);
            }
            let places = shuffled(r, chain.len());
            places.into_iter().map(|i| chain[i]).collect()
        }
        // as many as are taken
        1 => met(r, &order, 1024),
        // any pairs, for the most part rings where they are many
        2 => {
            let count = r.below(2 * lanes);
            (0..count)
                .map(|_| [r.below(lanes), r.below(lanes)])
                .collect()
        }
        3 => {
            let count = r.below(1025);
            met(r, &order, count)
        }
        _ => {
            let count = r.below(2 * lanes);
            met(r, &order, count)
        }
    };
    let place = r.below(pairs.len() + 1);
    match r.below(16) {
        // a ring through one pair turned round, or a lane before itself
        0 if place < pairs.len() => pairs.push([pairs[place][1], pairs[place][0]]),
        1 => pairs.insert(place, [order[0], order[0]]),
        2 if pairs.len() > 1 => pairs.push([order[lanes - 1], order[0]]),
        // a lane that is not there, just so or far off
        3 => pairs.insert(
            place,
            [r.pick(&[lanes, lanes + 1, 64, 1 << 32, usize::MAX]), 0],
        ),
        4 => pairs.insert(place, [0, r.pick(&[lanes, 65, usize::MAX])]),
        _ => {}
    }
    let cells = match r.below(16) {
        0 => lanes - 1,
        1 => 0,
        2 | 3 => lanes + r.below(4),
        _ => lanes,
    };
    match r.below(64) {
        0 => (r.pick(&[65, 66, usize::MAX]), pairs, cells),
        1 => (0, pairs, cells),
        2 => (lanes, vec![[0, 1]; r.pick(&[1024, 1025, 2000])], cells),
        _ => (lanes, pairs, cells),
    }
}

#[test]
fn random_cases() {
    let (mut r, mut counts) = (Random::new(14), BTreeMap::new());
    for _ in 0..100_000 {
        let (lanes, pairs, cells) = draw(&mut r);
        *counts.entry(compare(lanes, &pairs, cells)).or_insert(0) += 1;
    }
    println!("answers of 100,000 cases: {counts:?}");
    for number in [0, 18, 19, 31, 32] {
        assert!(counts.get(&number).is_some_and(|n| *n > 500), "{number}");
    }
}

/// The permutations of the lanes in lexicographic order, until one meets the pairs.
fn first_met(lanes: usize, pairs: &[[usize; 2]], order: &mut Vec<usize>) -> bool {
    if order.len() == lanes {
        let place = |lane| order.iter().position(|l| *l == lane);
        return pairs.iter().all(|[a, b]| place(*a) < place(*b));
    }
    for lane in 0..lanes {
        if !order.contains(&lane) {
            order.push(lane);
            if first_met(lanes, pairs, order) {
                return true;
            }
            order.pop();
        }
    }
    false
}

/// Every set of up to four pairs of four lanes, and random ones of up to six lanes.
#[test]
fn the_first_of_all_permutations() {
    let check = |lanes: usize, pairs: &[[usize; 2]]| {
        let mut first = Vec::new();
        let found = first_met(lanes, pairs, &mut first);
        let wanted = if found {
            Ok(first)
        } else {
            Err(OrderError::Ring)
        };
        assert_eq!(cutting_order(lanes, pairs), wanted, "{lanes} {pairs:?}");
        found
    };
    let mut given = [0, 0];
    for set in 0..1usize << 16 {
        if set.count_ones() <= 4 {
            let bits = (0..16).filter(|i| set >> i & 1 == 1);
            let pairs: Pairs = bits.map(|i| [i / 4, i % 4]).collect();
            given[usize::from(check(4, &pairs))] += 1;
        }
    }
    let mut r = Random::new(41);
    for _ in 0..3000 {
        let lanes = r.between(1, 6);
        let count = r.below(7);
        let pairs: Pairs = (0..count)
            .map(|_| [r.below(lanes), r.below(lanes)])
            .collect();
        given[usize::from(check(lanes, &pairs))] += 1;
    }
    println!("{} orders and {} rings", given[1], given[0]);
    assert!(given[0] > 1000 && given[1] > 1000);
}

#[test]
fn limits_and_empty_orders() {
    assert_eq!(cutting_order(0, &[]), Ok(vec![]));
    assert_eq!(cutting_order(0, &[[0, 0]]), Err(OrderError::NoSuchLane));
    assert_eq!(cutting_order(1, &[[0, 0]]), Err(OrderError::Ring));
    let all: Vec<usize> = (0..MAX_LANES).collect();
    assert_eq!(cutting_order(MAX_LANES, &[]), Ok(all.clone()));
    let chain: Pairs = all.windows(2).rev().map(|w| [w[1], w[0]]).collect();
    assert_eq!(
        cutting_order(MAX_LANES, &chain),
        Ok(all.into_iter().rev().collect())
    );
    assert_eq!(cutting_order(2, &[[1, 0]; MAX_PAIRS]), Ok(vec![1, 0]));
    assert_eq!(
        cutting_order(2, &[[1, 0]; MAX_PAIRS + 1]),
        Err(OrderError::AboveLimits)
    );
    assert_eq!(
        cutting_order(MAX_LANES + 1, &[]),
        Err(OrderError::AboveLimits)
    );
    assert_eq!(
        cutting_order(usize::MAX, &[[0, 0]]),
        Err(OrderError::AboveLimits)
    );
    let mut order = [MARK; 3];
    assert_eq!(
        cutting_order_into(4, &[[0, 1]], &mut order),
        Err(OrderError::ShortSlice)
    );
    assert_eq!(
        cutting_order_into(3, &[[2, 1], [1, 2]], &mut order),
        Err(OrderError::Ring)
    );
    assert_eq!(order, [MARK; 3]);
    assert_eq!(cutting_order_into(2, &[[1, 0]], &mut order), Ok(()));
    assert_eq!(order, [1, 0, MARK]);
}
