//! Well-formed sheets, and traces on them that end well or fail.

use reference::{MAX_GOALS, MAX_STEPS, Network, Rules, Run};

use crate::damage;
use crate::draft::{Order, Shop, Step};
use crate::generate::{self, Size};
use crate::random::Random;
use crate::walk::{self, Habit};
use crate::wide::{self, Most};

/// A well-formed shop and order, as words and as the reference model reads them.
pub struct Domain {
    pub draft: (Shop, Order),
    pub shop_words: Vec<u16>,
    pub order_words: Vec<u16>,
    pub shop: reference::Shop,
    pub order: Network,
}

impl Domain {
    pub fn new(shop: Shop, order: Order) -> Domain {
        let shop_words = shop.words();
        let order_words = order.words();
        let read = reference::Shop::read(&shop_words).expect("a well-formed shop");
        Domain {
            order: Network::read(&read, &order_words).expect("a well-formed order"),
            shop: read,
            draft: (shop, order),
            shop_words,
            order_words,
        }
    }

    pub fn generate(random: &mut Random, size: Size) -> Domain {
        let shop = generate::shop(random, size);
        let goals = generate::goal_count(random, size);
        let order = generate::order(random, shop.atoms, goals);
        Domain::new(shop, order)
    }

    /// One in which up to 64 goals wait and most traces end well.
    pub fn easy(random: &mut Random) -> Domain {
        let shop = generate::easy_shop(random);
        let goals = random.between(0, MAX_GOALS);
        let order = generate::easy_order(random, shop.atoms, goals);
        Domain::new(shop, order)
    }

    /// One whose goals have many rows and whose actions have few effects.
    pub fn wide(random: &mut Random, most: Most) -> Domain {
        let (shop, order) = wide::sheets(random, most);
        Domain::new(shop, order)
    }

    pub fn run(&self) -> Run<'_> {
        let start = self.order.start;
        Run::start(Rules::CALLS, &self.shop, &self.order, start).expect("at most 64 goals")
    }

    pub fn finished_walk(&self, random: &mut Random, most: usize) -> Vec<Step> {
        walk::finished_walk(random, &self.shop, &mut self.run(), most)
    }

    /// A walk, then a step that fails one of the questions, then more steps.
    pub fn failing_walk(&self, random: &mut Random, most: usize) -> Vec<Step> {
        self.walk_failing(random, most, &[25, 26, 28, 29, 30, 31, 32])
    }

    /// A walk, then a step that fails one of these questions, then more steps.
    pub fn walk_failing(&self, random: &mut Random, most: usize, questions: &[u16]) -> Vec<Step> {
        let mut run = self.run();
        let habit = Habit::random(random);
        let most = random.between(0, most);
        let mut steps = walk::walk(random, &self.shop, &mut run, habit, most);
        let question = random.pick(questions);
        if let Some(step) = walk::failing_step(random, &self.shop, &run, question) {
            steps.push(step);
            let more = walk::walk(random, &self.shop, &mut run, Habit::FINISH, 10);
            steps.extend(more);
        }
        steps
    }

    pub fn some_steps(&self, random: &mut Random, most: usize) -> Vec<Step> {
        let mut steps = match random.below(20) {
            0..10 => self.finished_walk(random, most),
            10..18 => self.failing_walk(random, most),
            _ => walk::random_steps(random, &self.shop, 10),
        };
        if random.chance(15) {
            damage::steps(random, &mut steps);
        }
        steps.truncate(usize::from(MAX_STEPS));
        steps
    }
}
