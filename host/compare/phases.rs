//! Phases of a run, each written against the ring as it stands: who is struck, and what the struck heads send to whom.

use generator::random::Random;
use generator::ring::{has, marks, Given, Ring};
use rules::frames::Said;
use rules::midpoint::LIMIT;
use generator::run::{any, list, value, Lies, Run};

/// Up to f heads, often those of the round before, often none of them.
fn strikes(random: &mut Random, ring: &Ring) -> Vec<usize> {
    let count = if random.chance(1, 2) { ring.f } else { random.below(ring.f + 1) };
    let again = random.some(&ring.heads(|i| has(ring.before, i)), count);
    let fresh = ring.heads(|i| !has(ring.before, i));
    match random.below(3) {
        0 => random.some(&ring.heads(|_| true), count),
        1 => random.some(&fresh, count),
        _ => [again.clone(), random.some(&fresh, count - again.len())].concat(),
    }
}

/// The marks of the listeners that are struck: none, one, some, those of the round before or none of them, or all.
fn silenced(random: &mut Random, ring: &Ring) -> u64 {
    let all: Vec<usize> = ring.listening().collect();
    if all.is_empty() {
        return 0;
    }
    let count = random.below(all.len() + 1);
    match random.below(8) {
        0 | 1 => 0,
        2 => marks(&all),
        3 => ring.before & marks(&all),
        4 => !ring.before & marks(&random.some(&all, count)),
        5 => marks(&random.some(&all, 1)),
        _ => marks(&random.some(&all, count)),
    }
}

/// One struck head's lies to all others: none, the same to all, two faces, or one for each.
fn tell(random: &mut Random, ring: &Ring, lies: &mut Lies, from: usize, struck: u64) {
    let faces = random.pick(&[0, 1, 2, ring.n]);
    let spoils = random.pick(&[0, 2, 8]);
    let said: Vec<Given> = (0..faces).map(|_| any(random, ring)).collect();
    for to in ring.receivers(|i| faces > 0 && !has(struck, i)) {
        let given = &said[random.below(faces)];
        if random.chance(spoils, 8) {
            lies.spoil(random, from, to, given);
        } else if random.chance(7, 8) {
            lies.give(from, to, given.clone());
        }
    }
}

/// A phase in which anything may happen.
pub fn liars(random: &mut Random, run: &mut Run) {
    for _ in 0..run.ring.phase_rounds() {
        let heads = strikes(random, &run.ring);
        let struck = marks(&heads) | silenced(random, &run.ring);
        let mut lies = Lies::of(&run.ring);
        for from in heads {
            tell(random, &run.ring, &mut lies, from, struck);
        }
        run.play(struck, lies);
    }
}

/// A phase without a strike on a head.
pub fn quiet(random: &mut Random, run: &mut Run) {
    for _ in 0..run.ring.phase_rounds() {
        let (lies, struck) = (Lies::of(&run.ring), silenced(random, &run.ring));
        run.play(struck, lies);
    }
}

/// Heads struck in both rounds tell a position to just so many neighbours that in confession a few lies decide whether it has the support n - f.
struct Edge {
    /// The heads struck in both rounds, each with what it tells.
    told: Vec<(usize, i32)>,
    /// The struck heads and listeners of either round.
    first: u64,
    second: u64,
    /// How many lies in confession reach the support.
    need: usize,
    /// How many of the heads that will give true lists were told something else.
    others: usize,
}

impl Edge {
    fn choose(random: &mut Random, ring: &Ring) -> Edge {
        let count = 1 + random.below(ring.f.min(3));
        let all = random.some(&ring.heads(|_| true), ring.n);
        let (both, rest) = all.split_at(count);
        let more = if random.chance(2, 3) { ring.f - count } else { random.below(ring.f - count + 1) };
        let (confessing, rest) = rest.split_at(random.below(ring.f - count + 1));
        let second = [both, &rest[..more]].concat();
        let need = 1 + random.below(second.len());
        let told = both.iter().map(|&head| (head, value(random, ring))).collect();
        let first = marks(&[both, confessing].concat()) | silenced(random, ring);
        let others = need + ring.f - second.len();
        Edge { told, first, second: marks(&second) | silenced(random, ring), need, others }
    }

    fn collect(&self, random: &mut Random, run: &mut Run) {
        let mut lies = Lies::of(&run.ring);
        let listing = run.ring.heads(|i| !has(self.first | self.second, i));
        for &(from, position) in &self.told {
            let others = random.some(&listing, self.others);
            let another = value(random, &run.ring);
            for to in run.ring.receivers(|i| !has(self.first, i)) {
                match random.below(4) {
                    _ if !others.contains(&to) => lies.say(from, to, Said::Position(position)),
                    0 => lies.say(from, to, Said::Silence),
                    1 if another != position => lies.say(from, to, Said::Position(another)),
                    2 => {}
                    _ => lies.spoil(random, from, to, &Some(Said::Position(position))),
                }
            }
        }
        run.play(self.first, lies);
    }

    fn confess(&self, random: &mut Random, run: &mut Run) {
        let mut lies = Lies::of(&run.ring);
        let liars = run.ring.heads(|i| has(self.second, i));
        let supporting = self.supporting(run);
        let short = random.below(3);
        for to in run.ring.receivers(|i| !has(self.second, i)) {
            let short = if short < 2 { short } else { random.below(2) };
            for (at, from) in random.some(&liars, liars.len()).into_iter().enumerate() {
                let edged = self.told.iter().any(|(head, _)| *head == from);
                match random.below(4) {
                    0 if at + short < self.need && !edged => lies.say(from, to, Said::Confession),
                    _ if at + short < self.need => lies.say(from, to, supporting.clone()),
                    0 => {}
                    1 => lies.say(from, to, list(random, &run.ring)),
                    2 if !edged => lies.spoil(random, from, to, &Some(Said::Confession)),
                    _ => lies.spoil(random, from, to, &Some(supporting.clone())),
                }
            }
        }
        run.play(self.second, lies);
    }

    /// A list in which each head struck twice stands at what it told most neighbours.
    fn supporting(&self, run: &Run) -> Said {
        let holder = run.ring.heads(|i| !run.ring.lists[i].is_empty())[0];
        let mut list = run.ring.lists[holder].clone();
        for &(head, position) in &self.told {
            list[head] = Some(position);
        }
        Said::List(list)
    }
}

/// A phase in which one lie decides. It needs f of 1 or more.
pub fn edge(random: &mut Random, run: &mut Run) {
    if run.ring.one_round {
        return most_nulls(random, run);
    }
    let edge = Edge::choose(random, &run.ring);
    edge.collect(random, run);
    edge.confess(random, run);
}

/// A one-round phase with as many struck heads as may be, none of them struck in the round before, whose heads are silent now: up to 2f nulls. Each
/// struck head tells one position to each half of its neighbours, or what counts as null: nothing, silence, or a frame of another kind.
fn most_nulls(random: &mut Random, run: &mut Run) {
    let ring = &run.ring;
    let heads = random.some(&ring.heads(|i| !has(ring.before, i)), ring.f);
    let struck = marks(&heads) | silenced(random, ring);
    let mut lies = Lies::of(ring);
    let nulls = random.pick(&[0, 0, 1, 2, 3, 4, 4]); // kinds of null, of the four things that are sent
    for from in heads {
        let (one, other) = (value(random, ring), value(random, ring));
        for to in ring.receivers(|i| !has(struck, i)) {
            let position = Some(Said::Position(if to % 2 == 0 { one } else { other }));
            match random.below(4) {
                kind if kind >= nulls => lies.give(from, to, position),
                0 => lies.say(from, to, Said::Silence),
                1 => lies.of_other_round(random, from, to),
                2 => lies.spoil(random, from, to, &position),
                _ => {}
            }
        }
    }
    run.play(struck, lies);
}

/// A one-round phase that keeps two camps apart as far as it goes: the struck heads, those of the middle, tell each neighbour a position of its own
/// side or beyond it.
fn torn(random: &mut Random, run: &mut Run) {
    let ring = &run.ring;
    let mut order = random.some(&ring.heads(|i| !has(ring.before, i)), ring.n);
    order.sort_by_key(|&i| ring.positions[i]);
    let middle = ring.positions[order[order.len() / 2]];
    let from = (order.len() - ring.f) / 2;
    let heads = &order[from..from + ring.f];
    let struck = marks(heads) | silenced(random, ring);
    let ((low, high), mut lies) = (ring.range(), Lies::of(ring));
    for &from in heads {
        for to in ring.receivers(|i| !has(struck, i)) {
            let below = if to < ring.n { ring.positions[to] < middle } else { to % 2 == 0 };
            let beyond = random.pick(&[0, 0, 1, LIMIT]);
            let side = if below { low - beyond } else { high + beyond };
            lies.say(from, to, Said::Position(side.clamp(-LIMIT, LIMIT)));
        }
    }
    run.play(struck, lies);
}

/// The sizes at which two positions can both have support n - f.
pub const TWOFOLD: [(usize, usize); 4] = [(22, 6), (26, 7), (29, 8), (30, 8)];

/// A phase in which one head, struck in both rounds, tells two positions, and all other struck heads confess: both can have the support.
pub fn twofold(random: &mut Random, run: &mut Run) {
    let ring = &run.ring;
    let (n, f) = (ring.n, ring.f);
    let all = random.some(&ring.heads(|_| true), n);
    let (from, healed, liars, listing) = (all[0], &all[1..f], &all[f..2 * f - 1], &all[2 * f - 1..]);
    let (one, other) = (value(random, ring), value(random, ring));
    let most = n - 3 * f + 2;
    let mut lies = Lies::of(ring);
    for (at, &to) in listing.iter().enumerate() {
        lies.say(from, to, Said::Position(if at < most { one } else { other }));
    }
    let struck = marks(healed) | 1 << from | silenced(random, ring);
    run.play(struck, lies);

    let mut lies = Lies::of(&run.ring);
    let struck = marks(liars) | 1 << from | silenced(random, &run.ring);
    let mute = random.chance(1, 8) as usize;
    for to in run.ring.receivers(|i| !has(struck, i)) {
        for &liar in &liars[mute..] {
            lies.say(liar, to, Said::Confession);
        }
        let mut list = run.ring.lists[listing[0]].clone();
        list[from] = random.pick(&[Some(one), Some(other), Some(other), None]);
        lies.say(from, to, Said::List(list));
    }
    run.play(struck, lies);
}

/// A phase that keeps two camps apart as far as it goes: heads struck in confession confess to the neighbours whose middle this moves away from
/// their own side. At (8,2) with positions 0 and 2 it keeps spread 2 for ever.
pub fn stubborn(random: &mut Random, run: &mut Run) {
    if run.ring.one_round {
        return torn(random, run);
    }
    let ring = &run.ring;
    let mut order = random.some(&ring.heads(|i| !has(ring.before, i)), ring.n);
    order.sort_by_key(|&i| ring.positions[i]);
    let first = ends(&mut order, ring.f);
    let lies = Lies::of(ring);
    let struck = marks(&first) | silenced(random, ring);
    run.play(struck, lies);

    let middle = run.ring.positions[order[order.len() / 2]];
    let second = ends(&mut order, run.ring.f);
    let struck = marks(&second) | silenced(random, &run.ring);
    let mut hearers = random.some(&run.ring.heads(|i| !has(struck, i)), run.ring.n);
    hearers.extend(run.ring.listening().filter(|&i| !has(struck, i)));
    let mut lies = Lies::of(&run.ring);
    for &from in &second {
        let low = run.ring.lists[from][from] < middle;
        for (at, &to) in hearers.iter().enumerate() {
            match random.below(3) {
                _ if (at % 2 == 0) == low => lies.say(from, to, Said::Confession),
                0 => lies.say(from, to, Said::List(run.ring.lists[from].clone())),
                1 => lies.spoil(random, from, to, &Some(Said::Confession)),
                _ => {}
            }
        }
    }
    run.play(struck, lies);
}

/// Takes `count` heads away from both ends of the order, in turn.
fn ends(order: &mut Vec<usize>, count: usize) -> Vec<usize> {
    let take = |at: usize| if at % 2 == 0 { order.remove(0) } else { order.pop().expect("heads left") };
    (0..count).map(take).collect()
}
