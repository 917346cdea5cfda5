//! Covering and witnesses: examples, and the quick engine against the slow one.

use bench::clause::*;
use bench::cover::Engine;
use bench::generalise::Workshop;
use bench::inputs::{self, Random};
use bench::slow;
use bench::text::{self, Names};

#[test]
fn examples() {
    let mut engine = Engine::default();
    for (rule, mount, covered) in [
        ("p(X), q(X)", "p(b), p(a), q(a)", true),
        ("p(X), q(X)", "p(b), q(a)", false),
        ("p(X), p(Y)", "p(a)", true),
        ("h(X), -h(g(X))", "h(X), -h(g(g(X)))", false),
        ("", "p(a)", true),
        ("", "", true),
        ("p(a)", "", false),
        ("p(X), p(f)", "p(f)", true),
        ("p(X,X,f(g(Y)))", "p(k(a),k(a),f(g(X)))", true),
        ("q(X)", "q(f)", true),
        ("q(f)", "p(f), q(f)", true),
        ("q(X), p(f), p(X)", "q(X), p(f)", false),
        ("q(f)", "q(X), p(f), p(X)", false),
        ("q(X), p(f)", "q(f)", false),
        ("p(X), p(f(h)), p(f(X))", "p(X), p(f(X))", false),
        ("mem(X,c(X,Y))", "mem(one,c(one,two))", true),
        ("p(X)", "-p(a)", false),
        ("p(X)", "p(a,b)", false),
        ("p(X,X)", "p(X,Y)", false),
        ("p(f(X),Y)", "p(f(X),f(Y))", true),
        ("p(f(X),f(Y))", "p(f(X),Y)", false),
    ] {
        let mut names = Names::default();
        let (rule, mount) = (text::clause(&mut names, rule), text::clause(&mut names, mount));
        assert_eq!(engine.covers(&rule, &mount), covered, "{rule:?} {mount:?}");
        assert_eq!(slow::covers(&rule, &mount), covered);
    }
}

fn path(size: usize) -> Clause {
    inputs::lawful(
        &(0..size as u32).map(|k| vec![predicate(false, 1, 2), variable(k), variable(k + 1)]).collect::<Vec<_>>(),
    )
}

fn round(size: usize) -> Clause {
    let n = size as u32;
    inputs::lawful(
        &(0..n).map(|k| vec![predicate(false, 1, 2), variable(k), variable((k + 1) % n)]).collect::<Vec<_>>(),
    )
}

#[test]
fn paths_and_rounds() {
    let mut engine = Engine::default();
    for n in 1..=16 {
        for m in 1..=16 {
            assert_eq!(engine.covers(&path(n), &path(m)), n <= m);
            assert_eq!(engine.covers(&round(n), &round(m)), n % m == 0, "{n} {m}");
            assert!(engine.covers(&path(n), &round(m)));
            assert!(!engine.covers(&round(n), &path(m)));
            assert_eq!(engine.covers(&round(n), &inputs::ring(m.max(2))), n % m.max(2) == 0);
        }
    }
    for n in 2..=4 {
        for m in 2..=4 {
            let (a, b) = (inputs::complete(n, true, true), inputs::complete(m, true, true));
            assert_eq!(engine.covers(&a, &b), n <= m);
        }
        assert!(engine.covers(&inputs::complete(n, true, true), &round(1)));
    }
}

#[test]
fn witness() {
    let mut engine = Engine::default();
    let mut names = Names::default();
    let rule = text::clause(&mut names, "p(X), q(X)");
    let record = text::clause(&mut names, "p(b), p(a), q(a)");
    let other = text::clause(&mut names, "p(b), q(a)");
    let mut list = [77; 3];
    assert_eq!(engine.witness(&rule, &record, &mut list), Ok(Some(1)));
    assert_eq!(list, [3, 77, 77]);
    let mut list = [77; 3];
    assert_eq!(engine.witness(&rule, &other, &mut list), Ok(None));
    assert_eq!(list, [77; 3]);
    assert_eq!(engine.witness(&rule, &record, &mut []), Err(12));
    assert_eq!(engine.witness(&rule, &other, &mut []), Err(12));
    let none = Clause::default();
    assert_eq!(engine.witness(&none, &record, &mut []), Ok(Some(0)));
}

fn compare(engine: &mut Engine, rule: &Clause, mount: &Clause) -> bool {
    let slow = slow::first_choice(rule, mount);
    assert_eq!(engine.covers(rule, mount), slow.is_some(), "{rule:?} {mount:?}");
    let mut choice = Vec::new();
    assert_eq!(engine.first_choice(rule, mount, &mut choice), slow.is_some());
    if let Some(slow) = &slow {
        assert!(choice.iter().map(|&c| c as usize).eq(slow.iter().copied()), "{rule:?} {mount:?}");
        let mut list = vec![9_999; rule.variables + 2];
        assert_eq!(engine.witness(rule, mount, &mut list), Ok(Some(rule.variables)));
        assert_eq!(list[..rule.variables], slow::meetings(rule, mount, slow)[..]);
        assert_eq!(list[rule.variables..], [9_999; 2]);
    }
    slow.is_some()
}

#[test]
fn quick_is_slow_on_mixed() {
    let mut engine = Engine::default();
    let mut random = Random::new(2);
    let mut yes = [0; 3];
    for round in 0..60_000 {
        let size = random.between(1, 8);
        let depth = random.below(3);
        let variables = random.below(5);
        let predicates = random.between(1, 3);
        let rule = inputs::mixed(&mut random, size, variables, predicates, depth);
        let size = random.below(16);
        let mount = match round % 3 {
            0 => inputs::mixed(&mut random, size, 3, predicates, depth),
            1 => inputs::mixed_instance(&mut random, &rule, 8),
            _ => inputs::mixed_instance(&mut random, &inputs::lawful(&all_but_one(&rule)), 8),
        };
        yes[round % 3] += compare(&mut engine, &rule, &mount) as u32;
    }
    println!("{yes:?}");
    assert!(yes[0] > 1_000 && yes[1] > 10_000 && yes[2] > 1_000 && yes[2] < 19_000);
}

fn all_but_one(rule: &Clause) -> Vec<Vec<Node>> {
    (1..rule.len()).map(|l| rule.literal(l).to_vec()).collect()
}

#[test]
fn quick_is_slow_on_graphs() {
    let mut engine = Engine::default();
    let mut random = Random::new(3);
    let mut yes = 0;
    let total = 30_000;
    for round in 0..total {
        let size = random.between(4, 16);
        let predicates = random.between(1, 2);
        let variables = random.between(3, (size + 1).min(10));
        if variables * variables * predicates < size {
            continue;
        }
        let rule = inputs::connected_rule(&mut random, size, variables, predicates);
        let constants = random.between(4, 8);
        let mount = if round % 2 == 0 {
            inputs::random_mount(&mut random, 16, constants, predicates)
        } else {
            inputs::hidden_mount(&mut random, &rule, 16, constants, predicates)
        };
        yes += compare(&mut engine, &rule, &mount) as u32;
    }
    println!("{yes}");
    assert!(yes > total / 3 && yes < total);
}

#[test]
fn raw_clauses() {
    // Large clauses on both sides, against the slow engine where that is quick enough.
    let mut shop = Workshop::default();
    let mut engine = Engine::default();
    let mut random = Random::new(4);
    let (mut yes, mut no) = (0, 0);
    for _ in 0..3_000 {
        let depth = random.between(0, 3);
        let a = inputs::mixed(&mut random, 16, 4, 2, depth);
        let b = inputs::mixed(&mut random, 16, 4, 2, depth);
        let raw = shop.raw(&a, &b).clone();
        assert!(raw.len() <= 256 && raw.nodes.len() <= 4_096);
        assert!(engine.covers(&raw, &a) && engine.covers(&raw, &b) && engine.covers(&raw, &raw));
        let rule = inputs::mixed(&mut random, 4, 3, 2, depth);
        let covered = engine.covers(&rule, &raw);
        assert_eq!(covered, slow::covers(&rule, &raw));
        assert_eq!(covered, engine.covers(&rule, &a) && engine.covers(&rule, &b));
        if covered {
            yes += 1
        } else {
            no += 1
        }
    }
    println!("{yes} {no}");
    assert!(yes > 100 && no > 100);
}

#[test]
fn without_supports() {
    let mut engine = Engine::without_supports();
    let mut usual = Engine::default();
    let mut random = Random::new(9);
    for round in 0..20_000 {
        let (rule, mount) = if round % 2 == 0 {
            let rule = inputs::mixed(&mut random, 6, 4, 2, 2);
            let mount = inputs::mixed_instance(&mut random, &inputs::lawful(&all_but_one(&rule)), 8);
            (rule, mount)
        } else {
            let rule = inputs::connected_rule(&mut random, 12, 8, 1);
            let mount = inputs::random_mount(&mut random, 16, 6, 1);
            (rule, mount)
        };
        compare(&mut engine, &rule, &mount);
        let (mut some, mut all) = (Vec::new(), Vec::new());
        assert!(engine.tidied(&rule, None, &mut some) && usual.tidied(&rule, None, &mut all));
        assert_eq!(some, all);
    }
}

#[test]
fn rules_larger_than_records() {
    // Raw clauses as rules over raw clauses, by what is known of them.
    let mut shop = Workshop::default();
    let mut engine = Engine::default();
    let mut plain = Engine::without_supports();
    let mut random = Random::new(10);
    for _ in 0..300 {
        let sizes = [random.between(4, 16), random.between(4, 16), random.between(4, 16)];
        let one = inputs::graph(&mut random, sizes[0], 6);
        let two = inputs::graph(&mut random, sizes[1], 6);
        let three = inputs::graph(&mut random, sizes[2], 6);
        let first = shop.raw(&one, &two).clone();
        let second = shop.raw(&two, &one).clone();
        assert!(engine.covers(&first, &second) && engine.covers(&second, &first));
        assert!(plain.covers(&first, &second));
        let other = shop.raw(&one, &three).clone();
        let covered = engine.covers(&first, &other);
        assert_eq!(covered, engine.covers(&first, &one) && engine.covers(&first, &three));
        assert_eq!(covered, plain.covers(&first, &other));
    }
}
