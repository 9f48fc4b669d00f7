//! The orders that are joined.

use super::{Join, fill, goals, join};
use crate::cores;
use crate::draft::{Order, Shop};

pub fn joins() -> Vec<Join> {
    let chained = cores::order(32, true);
    let cores = (cores::shop(32), chained.clone(), chained);
    vec![
        join("two orders of 2,000 rows", two_thousand_rows()),
        join("32 goals each", cores),
    ]
}

/// Two orders of 2,000 rows and 8 goals each, in a shop of 16 cores. The second
/// has 64 start rows, as many as 11 rows come in: 4,000 rows come out.
fn two_thousand_rows() -> (Shop, Order, Order) {
    let shop = cores::shop(16);
    let wide = |start: u16| {
        let mut order = goals(8, shop.atoms, true);
        order.start = (0..start).collect();
        let missing = 2_000 - order.sheet().rows.len();
        for (n, goal) in order.goals.iter_mut().enumerate() {
            fill(goal, missing / 8 + usize::from(n < missing % 8));
        }
        order
    };
    let (first, second) = (wide(0), wide(64));
    (shop, first, second)
}
