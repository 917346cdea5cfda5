//! What is timed: families of questions, from a fixed seed.

use bench::inputs::{self, Random};
use bench::record;
use bench::text::pack;

/// A call with its packed inputs.
#[derive(Debug)]
pub enum Question {
    Read(Vec<u8>),
    Covers(Vec<u8>, Vec<u8>),
    Witness(Vec<u8>, Vec<u8>),
    Join(Vec<u8>, Vec<u8>),
    Session(Vec<u8>),
}

use Question::*;

pub struct Family {
    pub name: &'static str,
    pub questions: Vec<Question>,
}

const SEED: u64 = 20;

pub fn families() -> Vec<Family> {
    let random = &mut Random::new(SEED);
    let mut families = Vec::new();
    let mut family = |name, questions| families.push(Family { name, questions });
    family("read: lawful records", many(5_000, || Read(pack(&inputs::mixed(random, 16, 8, 4, 3)))));
    family("read: damaged records", many(5_000, || damaged_read(random)));
    family("covers: random mounts, 1 predicate", many(3_000, || covers(random, 1, Mount::Random, 6, 10)));
    family("covers: random mounts, 2 predicates", many(3_000, || covers(random, 2, Mount::Random, 6, 10)));
    family("covers: hidden instances, 1 predicate", many(3_000, || covers(random, 1, Mount::Hidden, 6, 10)));
    family("covers: hidden instances, 2 predicates", many(3_000, || covers(random, 2, Mount::Hidden, 6, 10)));
    family("covers: random mounts of 4 to 6 constants", many(3_000, || covers(random, 1, Mount::Random, 4, 6)));
    family("covers: mixed records, nested words", many(3_000, || mixed_covers(random)));
    family("covers: grids and complete graphs", shapes().into_iter().map(|(a, b)| Covers(a, b)).collect());
    family("witness: hidden instances, 2 predicates", many(3_000, || witness(random)));
    family("join: rings, all pairs of sizes 2 to 16", rings());
    family("join: random graphs of 4 to 16 literals", many(300, || Join(any_graph(random), any_graph(random))));
    family("join: random pairs of 16 literals", many(400, || Join(sixteen_literals(random), sixteen_literals(random))));
    family("join: grids and complete graphs", shape_joins(random));
    family("join: hidden instances, 2 predicates", many(500, || hidden_join(random)));
    family("join: mixed instances, nested words", many(1_000, || mixed_join(random)));
    family("tidy: mixed records", many(2_000, || tidying(&pack(&inputs::mixed(random, 16, 10, 2, 1)))));
    family("tidy: connected records of 16 literals", many(2_000, || connected_tidying(random)));
    let sessions: Vec<Vec<u8>> = (0..200).map(|round| session(random, round)).collect();
    let damaged = sessions.iter().map(|input| Session(inputs::damaged(random, input))).collect();
    family("session: up to 200 records", sessions.into_iter().map(Session).collect());
    family("session: the same, damaged", damaged);
    families
}

/// As the number of literals grows: covering a mount of so many literals by a rule of so many, and joining two graphs.
pub fn growth_with_literals(literals: usize) -> (Vec<Question>, Vec<Question>) {
    let random = &mut Random::new(SEED + literals as u64);
    let covers = many(1_000, || {
        let rule = inputs::connected_rule(random, literals, literals / 2 + 2, 1);
        Covers(pack(&rule), pack(&inputs::random_mount(random, literals, literals / 2 + 1, 1)))
    });
    let joins = many(100, || Join(graph(random, literals), graph(random, literals)));
    (covers, joins)
}

/// Covering 16 literals by 16, as the number of the rule's variables grows.
pub fn growth_with_variables(variables: usize) -> Vec<Question> {
    let random = &mut Random::new(SEED + 100 + variables as u64);
    many(1_000, || {
        let rule = inputs::connected_rule(random, 16, variables, 2);
        Covers(pack(&rule), pack(&inputs::random_mount(random, 16, 6, 2)))
    })
}

fn many(count: usize, mut one: impl FnMut() -> Question) -> Vec<Question> {
    (0..count).map(|_| one()).collect()
}

fn damaged_read(random: &mut Random) -> Question {
    let form = pack(&inputs::mixed(random, 16, 8, 4, 3));
    Read(inputs::damaged(random, &form))
}

enum Mount {
    Random,
    Hidden,
}

/// A rule of 16 literals in 8 to 12 variables and a mount of 16 literals over so many constants.
fn sixteen(random: &mut Random, predicates: usize, mount: Mount, least: usize, most: usize) -> (Vec<u8>, Vec<u8>) {
    let variables = random.between(8, 12);
    let rule = inputs::connected_rule(random, 16, variables, predicates);
    let constants = random.between(least, most);
    let mount = match mount {
        Mount::Random => inputs::random_mount(random, 16, constants, predicates),
        Mount::Hidden => inputs::hidden_mount(random, &rule, 16, constants, predicates),
    };
    (pack(&rule), pack(&mount))
}

fn covers(random: &mut Random, predicates: usize, mount: Mount, least: usize, most: usize) -> Question {
    let (rule, mount) = sixteen(random, predicates, mount, least, most);
    Covers(rule, mount)
}

fn witness(random: &mut Random) -> Question {
    let (rule, mount) = sixteen(random, 2, Mount::Hidden, 6, 10);
    Witness(rule, mount)
}

fn mixed_covers(random: &mut Random) -> Question {
    let rule = inputs::mixed(random, 10, 6, 2, 2);
    let mount = match random.chance(50) {
        true => inputs::mixed(random, 16, 4, 2, 2),
        false => inputs::mixed_instance(random, &rule, 8),
    };
    Covers(pack(&rule), pack(&mount))
}

/// Grids and complete graphs over variables, each with such over constants.
fn shapes() -> Vec<(Vec<u8>, Vec<u8>)> {
    let mut shapes = Vec::new();
    for (wide, high) in [(2, 2), (2, 3), (3, 3), (2, 4), (2, 5), (2, 6), (3, 4), (4, 2)] {
        let grid = inputs::grid(wide, high, true);
        shapes.extend((2..=6).map(|vertices| (grid.clone(), inputs::complete(vertices, false, false))));
        shapes.extend((2..=4).map(|vertices| (grid.clone(), inputs::complete(vertices, true, false))));
        shapes.extend([(3, 3), (2, 6), (2, 4)].map(|(wide, high)| (grid.clone(), inputs::grid(wide, high, false))));
    }
    for n in 2..=6 {
        shapes.extend((2..=6).map(|m| (inputs::complete(n, false, true), inputs::complete(m, false, false))));
    }
    for n in 2..=4 {
        shapes.extend((2..=4).map(|m| (inputs::complete(n, true, true), inputs::complete(m, true, false))));
    }
    shapes.iter().map(|(first, second)| (pack(first), pack(second))).collect()
}

fn shape_joins(random: &mut Random) -> Vec<Question> {
    let shapes = shapes();
    shapes.iter().map(|(first, _)| Join(first.clone(), shapes[random.below(shapes.len())].1.clone())).collect()
}

fn rings() -> Vec<Question> {
    // without a common constant
    let apart = |n, m| Join(pack(&inputs::ring(n)), pack(&inputs::ring_from(m, 16)));
    (2..=16).flat_map(|n| (2..=16).map(move |m| apart(n, m))).collect()
}

fn graph(random: &mut Random, size: usize) -> Vec<u8> {
    let constants = random.between(4, 8);
    pack(&inputs::graph(random, size, constants))
}

fn any_graph(random: &mut Random) -> Vec<u8> {
    let size = random.between(4, 16);
    graph(random, size)
}

/// 16 literals of one predicate of two places, over constants or over variables.
fn sixteen_literals(random: &mut Random) -> Vec<u8> {
    let words = random.between(6, 16);
    match random.chance(50) {
        true => pack(&inputs::graph(random, 16, words)),
        false => pack(&inputs::connected_rule(random, 16, words, 1)),
    }
}

/// Two mounts in which the same rule is hidden.
fn hidden_join(random: &mut Random) -> Question {
    let variables = random.between(4, 8);
    let rule = inputs::connected_rule(random, 8, variables, 2);
    let mut mount = || pack(&inputs::hidden_mount(random, &rule, 14, 8, 2));
    Join(mount(), mount())
}

fn mixed_join(random: &mut Random) -> Question {
    let rule = inputs::mixed(random, 8, 4, 3, 2);
    let mut mount = || pack(&inputs::mixed_instance(random, &rule, 6));
    Join(mount(), mount())
}

/// A session of one record: what the library offers for tidying it.
fn tidying(form: &[u8]) -> Question {
    let mut input = Vec::new();
    record::put_number(&mut input, form.len() as u32);
    input.extend(form);
    Session(input)
}

fn connected_tidying(random: &mut Random) -> Question {
    let variables = random.between(8, 12);
    tidying(&pack(&inputs::connected_rule(random, 16, variables, 1)))
}

/// Records that share a rule, and in each fourth session records that need not.
fn session(random: &mut Random, round: usize) -> Vec<u8> {
    let rule = inputs::mixed(random, 6, 4, 3, 1);
    inputs::session(random, 200, |random| {
        pack(&match round % 4 {
            0 => inputs::mixed(random, 6, 4, 2, 1),
            _ => inputs::mixed_instance(random, &rule, 4),
        })
    })
}
