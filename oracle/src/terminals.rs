//! Two terminals on one card: pairs of lists of requests whose codes have no service number in
//! common, in several orders that keep each list's own. Whatever the order, each request is told
//! what it is told in its own list alone, and the stores end the same.

use crate::counts::Counts;
use crate::draw::{codes, requests};
use crate::random::Random;
use crate::replay::ARENA;
use crate::request::{self, Request};
use crate::texts::line::Line;
use crate::texts::served;
use crate::tree::Card;

/// How often a request is drawn for a list before it is ended.
const MOST_TRIES: usize = 400;

/// How many orders of a pair are drawn, beside the plain ones.
const DRAWN_ORDERS: usize = 3;

/// An image, the lines of two lists of requests, the lines that read every block of the card, and
/// orders of the lists.
pub struct Pair {
    image: Vec<u8>,
    lists: [Vec<Vec<u8>>; 2],
    reads: Vec<Vec<u8>>,
    orders: Vec<Order>,
}

/// Which list's turn it is, 0 or 1, from the first line to the last.
pub type Order = Vec<usize>;

/// What one order was told, ordinals left out: each list, then the reads of every block.
struct Answers {
    lists: [Vec<String>; 2],
    reads: Vec<String>,
}

impl Pair {
    /// A pair of lists on a card that has at least two service numbers.
    pub fn draw(random: &mut Random) -> Self {
        let (card, image, numbers) = loop {
            let (card, image) = served::image(random, None);
            let mut numbers: Vec<u16> = codes::services(&card).iter().map(|c| c >> 6).collect();
            numbers.sort_unstable();
            numbers.dedup();
            if numbers.len() > 1 {
                break (card, image, numbers);
            }
        };
        // The card's numbers go to the two in turn, all others by their lowest bit.
        let first = random.below(2);
        let side = |number: u16| match numbers.binary_search(&number) {
            Ok(at) => (at + first) % 2,
            Err(_) => usize::from(number % 2),
        };
        let lists = [0, 1].map(|own| list(random, &card, |code| side(code >> 6) == own));
        let orders = orders(random, [lists[0].len(), lists[1].len()]);
        let reads = every_block(&card).into_iter();
        let reads = reads.map(|read| read.bytes(random)).collect();
        Pair {
            image,
            lists,
            reads,
            orders,
        }
    }

    /// A text for each order: the image, the lists in this order, the reads of every block.
    pub fn texts(&self) -> Vec<Vec<u8>> {
        let text = |order: &Order| {
            let mut lists = self.lists.each_ref().map(|list| list.iter());
            let lines = order.iter().filter_map(|&own| lists[own].next());
            let lines: Vec<&Vec<u8>> = lines.chain(&self.reads).collect();
            let mut text = self.image.clone();
            text.extend(lines.into_iter().flatten());
            text
        };
        self.orders.iter().map(text).collect()
    }

    /// What an order was told, from what was printed for its text.
    fn answers(&self, order: &Order, printed: &str) -> Answers {
        let mut lines = printed.lines().map(|line| match line.split_once('\t') {
            Some((_, answer)) => answer.to_string(),
            None => line.to_string(),
        });
        let mut lists = [Vec::new(), Vec::new()];
        for &own in order {
            lists[own].extend(lines.next());
        }
        let reads = lines.collect();
        Answers { lists, reads }
    }

    /// Replays every order, counts what is told, and compares; gives the text of the first order
    /// that is told something else than each list alone, or leaves other stores than the rest.
    pub fn disturbed(
        &self,
        replay: impl Fn(&[u8]) -> String,
        counts: &mut Counts,
    ) -> Option<Vec<u8>> {
        let texts = self.texts();
        let told: Vec<Answers> = (self.orders.iter().zip(&texts))
            .map(|(order, text)| self.answers(order, &replay(text)))
            .collect();
        let [none, one, two, both @ ..] = told.as_slice() else {
            unreachable!("no pair has fewer orders");
        };
        count(counts, both);
        if one.reads != none.reads && two.reads != none.reads {
            counts.meet("pairs of which both lists change the stores");
        }
        let wrong = both.iter().position(|answers| {
            answers.lists[0] != one.lists[0]
                || answers.lists[1] != two.lists[1]
                || answers.reads != both[0].reads
        });
        wrong.map(|at| texts[at + 3].clone())
    }
}

/// Counts the answers in some orders of a pair.
fn count(counts: &mut Counts, orders: &[Answers]) {
    counts.meet("pairs");
    for answers in orders {
        counts.meet("orders of both lists");
        for answer in answers.lists.iter().flatten() {
            counts.meet(match answer.get(..2) {
                Some("00") => "answers: done",
                Some("!\t") => "answers: refused",
                _ => "answers: failed",
            });
        }
    }
}

/// The lines of a list of requests, all of whose codes are this terminal's own, for a card that
/// nobody else writes to.
fn list(random: &mut Random, card: &Card, own: impl Fn(u16) -> bool) -> Vec<Vec<u8>> {
    let mut card = card.clone();
    let length = 2 + random.below(10);
    let mut lines = Vec::new();
    for _ in 0..MOST_TRIES {
        if lines.len() == length {
            break;
        }
        let request = requests::request(random, &card);
        if request.codes.iter().all(|&code| own(code)) {
            let _ = request::serve(&mut card, ARENA, ARENA, &request);
            lines.push(Line::request(&request).bytes(random));
        }
    }
    lines
}

/// Reads of every block of a card, store by store.
fn every_block(card: &Card) -> Vec<Line> {
    let mut codes = codes::services(card);
    let mut seen = Vec::new();
    codes.retain(|code| {
        let new = !seen.contains(&(code >> 6));
        seen.push(code >> 6);
        new
    });
    let read = |code: u16| {
        let count = card.store(code).unwrap_or(0) as u16;
        Line::request(&Request::read_of(code, 0..count))
    };
    codes.into_iter().map(read).collect()
}

/// Orders of two lists of these lengths: neither, each alone, one after the other both ways, by
/// turns, and some at random.
fn orders(random: &mut Random, [one, two]: [usize; 2]) -> Vec<Order> {
    let alone = |own: usize, length: usize| vec![own; length];
    let mut turns = Vec::new();
    for at in 0..one.max(two) {
        turns.extend((at < one).then_some(0));
        turns.extend((at < two).then_some(1));
    }
    let mut orders = vec![
        Vec::new(),
        alone(0, one),
        alone(1, two),
        [alone(0, one), alone(1, two)].concat(),
        [alone(1, two), alone(0, one)].concat(),
        turns,
    ];
    for _ in 0..DRAWN_ORDERS {
        let mut order = alone(0, one);
        for _ in 0..two {
            order.insert(random.below(order.len() + 1), 1);
        }
        orders.push(order);
    }
    orders
}
