//! Tidying, joining and classes.

use bench::clause::*;
use bench::cover::Engine;
use bench::generalise::{Class, Refused, Workshop};
use bench::inputs::{self, Random};
use bench::slow;
use bench::text::{self, Names};

fn same(found: &Clause, wanted: &Clause) -> bool {
    found == wanted
}

#[test]
fn tidied_examples() {
    let mut shop = Workshop::default();
    for (clause, wanted) in [
        ("p(X), p(a)", "p(a)"),
        ("p(X), p(Y)", "p(Y)"),
        ("p(X,a), p(a,X)", "p(X,a), p(a,X)"),
        ("q(Y), q(X), p(f)", "q(X), p(f)"),
        ("q(X), p(f), q(f)", "p(f), q(f)"),
        ("p(X), p(Y), p(f(h)), p(f(X))", "p(X), p(f(h)), p(f(X))"),
        ("p(f(Z1),Z2), p(Z3,Z4), p(f(Z5),Z6), p(Z7,g(Z1))", "p(f(Z1),Z2), p(Z7,g(Z1))"),
        ("-occ(n1,x,P), -occ(A,x,P), -occ(B,Y,P), -occ(n2,Y,P), win(P)", "-occ(n1,x,P), -occ(n2,Y,P), win(P)"),
        ("", ""),
    ] {
        let mut names = Names::default();
        let (clause, wanted) = (text::clause(&mut names, clause), text::clause(&mut names, wanted));
        let mut found = Clause::default();
        shop.tidy(&clause, &mut found);
        // Example rows say which clause it is but for the names of variables; where two orders are right, covering decides.
        if !same(&found, &wanted) {
            assert_eq!(found.len(), wanted.len());
            assert!(slow::covers(&found, &wanted) && slow::covers(&wanted, &found), "{found:?}");
        }
        let kept = slow::tidied(&clause);
        let mut plain = Clause::default();
        plain.take_numbered(&clause, &kept, &mut Vec::new());
        assert_eq!(found, plain);
    }
}

#[test]
fn joined_examples() {
    let mut shop = Workshop::default();
    for (first, second, wanted) in [
        ("p(f(a),f(X)), p(f(X),g(a)), q(a)", "p(f(b),X), p(Y,g(b))", "p(f(X),Y), p(Z,g(X))"),
        ("q(X), p(a)", "r(b), s(f(a))", ""),
        ("p(X,X)", "p(f(Y),f(g(Z)))", "p(X,Y)"),
        ("black(c1)", "black(c2)", "black(X)"),
        ("p(f(a,g(Y)),X,g(Y))", "p(h(a,g(X)),X,g(X))", "p(U,V,g(W))"),
        ("p(X,X)", "p(f(X),f(Y))", "p(X,Y)"),
        ("p(f(X),f(X))", "p(f(X),f(Y))", "p(f(X),f(Y))"),
        ("-crow(c1), black(c1)", "-crow(c2), black(c2)", "-crow(X), black(X)"),
        (
            "-occ(n1,x,p1), -occ(n2,o,p1), win(p1)",
            "-occ(n1,x,p2), -occ(n2,x,p2), win(p2)",
            "-occ(n1,x,P), -occ(n2,Y,P), win(P)",
        ),
        ("q(f)", "q(X), p(f), p(X)", "q(X)"),
        ("p(f), q(f)", "q(X), p(f), p(X)", "p(f), p(Y), q(Y)"),
        ("p(h), p(f(h))", "p(f(h)), p(f(f(h)))", "p(X), p(f(h)), p(f(X))"),
        ("mem(one,c(one,two))", "mem(two,c(two,four))", "mem(X,c(X,Y))"),
        ("parent(ann,mary)", "-parent(ann,tom)", ""),
        ("eq(m(b,c),m(c,b))", "eq(m(c,b),m(b,c))", "eq(m(X,Y),m(Y,X))"),
        ("p(f(a,a))", "p(f(b,b))", "p(f(X,X))"),
        ("p(f(a,b))", "p(f(b,a))", "p(f(X,Y))"),
        ("", "p(a)", ""),
    ] {
        let mut names = Names::default();
        let (a, b) = (text::clause(&mut names, first), text::clause(&mut names, second));
        let wanted = text::clause(&mut names, wanted);
        let mut found = Clause::default();
        assert_eq!(shop.join(&a, &b, &mut found), Ok(()));
        assert!(same(&found, &wanted), "{first} and {second}: {found:?} is not {wanted:?}");
    }
}

#[test]
fn rings() {
    let mut shop = Workshop::default();
    let mut join = |n, m| {
        let mut found = Clause::default();
        shop.join(&inputs::ring(n), &inputs::ring(m), &mut found).map(|()| found.len())
    };
    assert_eq!(join(3, 5), Ok(15));
    assert_eq!(join(8, 16), Ok(16));
    assert_eq!(join(2, 9), Err(Refused));
    assert_eq!(join(16, 15), Err(Refused));
    for n in 2..=16 {
        for m in 2..=16 {
            let (mut a, mut b) = (n, m);
            while b > 0 {
                (a, b) = (b, a % b);
            }
            let lowest = n * m / a;
            // Equal rings share their constants, and then the join is the ring itself.
            let wanted = if lowest <= 16 { Ok(lowest) } else { Err(Refused) };
            assert_eq!(join(n, m), wanted, "{n} {m}");
        }
    }
}

#[test]
fn tidying_as_defined() {
    let mut shop = Workshop::default();
    let mut random = Random::new(5);
    let mut dropped = 0;
    for round in 0..20_000 {
        let clause = match round % 3 {
            0 => inputs::mixed(&mut random, 10, 6, 2, 1),
            1 => {
                let size = random.between(4, 12);
                let wide = random.between(4, 7);
                inputs::connected_rule(&mut random, size, wide.min(size + 1), 1)
            }
            _ => {
                let a = inputs::mixed(&mut random, 5, 4, 2, 2);
                let b = inputs::mixed(&mut random, 5, 4, 2, 2);
                shop.raw(&a, &b).clone()
            }
        };
        let kept = slow::tidied(&clause);
        dropped += clause.len() - kept.len();
        let mut wanted = Clause::default();
        wanted.take_numbered(&clause, &kept, &mut Vec::new());
        let mut found = Clause::default();
        shop.tidy(&clause, &mut found);
        assert_eq!(found, wanted, "{clause:?}");
    }
    println!("{dropped}");
    assert!(dropped > 10_000);
}

#[test]
fn joins_as_defined() {
    let mut shop = Workshop::default();
    let mut random = Random::new(6);
    let mut refused = 0;
    for round in 0..8_000 {
        let (a, b) = match round % 3 {
            0 => (inputs::mixed(&mut random, 5, 3, 2, 2), inputs::mixed(&mut random, 5, 3, 2, 2)),
            1 => {
                let rule = inputs::mixed(&mut random, 4, 3, 2, 1);
                (inputs::mixed_instance(&mut random, &rule, 1), inputs::mixed_instance(&mut random, &rule, 1))
            }
            _ => {
                let sizes = (random.between(2, 4), random.between(2, 4));
                (inputs::graph(&mut random, sizes.0, 4), inputs::graph(&mut random, sizes.1, 4))
            }
        };
        let raw = shop.raw(&a, &b).clone();
        let kept = slow::tidied(&raw);
        let mut wanted = Clause::default();
        wanted.take_numbered(&raw, &kept, &mut Vec::new());
        let mut found = a.clone();
        let answer = shop.join(&a, &b, &mut found);
        if wanted.len() > 16 || wanted.nodes.len() > 256 {
            refused += 1;
            assert_eq!(answer, Err(Refused));
            assert_eq!(found, a);
        } else {
            assert_eq!(answer, Ok(()));
            assert_eq!(found, wanted);
        }
    }
    println!("{refused}");
}

#[test]
fn classes() {
    let mut shop = Workshop::default();
    for (records, wanted) in [
        (vec!["p(f), q(f)", "p(g), q(g)"], "p(X), q(X)"),
        (vec!["p(f), q(f)", "p(h)"], "p(X)"),
        (vec!["p(f), q(f)", "p(g), q(g)", "p(h)"], "p(X)"),
        (vec!["p(f(a),g(c))", "p(f(a),h(d))", "p(f(b),X)"], "p(f(X),Y)"),
        (
            vec!["-tiger(tom), -stripes(tom), tawny(tom)", "-tiger(bob), -stripes(bob), white(bob)"],
            "-tiger(X), -stripes(X)",
        ),
    ] {
        let mut names = Names::default();
        let records: Vec<Clause> = records.iter().map(|r| text::clause(&mut names, r)).collect();
        let wanted = text::clause(&mut names, wanted);
        let mut class = Class::begin(&mut shop, &records[0]);
        for record in &records[1..] {
            assert_eq!(class.admit(&mut shop, record), Ok(()));
        }
        for record in &records {
            assert!(class.fits(&mut shop, record));
        }
        assert!(!class.fits(&mut shop, &Clause::default()));
        let issued = class.issue();
        assert_eq!(issued.rule, wanted);
        assert_eq!(issued.count as usize, records.len());
    }
    // A rejected record leaves the class as it was.
    let mut class = Class::begin(&mut shop, &inputs::ring(2));
    assert_eq!(class.admit(&mut shop, &inputs::ring(9)), Err(Refused));
    assert_eq!(*class.rule(), inputs::ring(2));
    assert_eq!(class.issue().count, 1);
}

#[test]
fn order_does_not_matter() {
    let mut shop = Workshop::default();
    let mut random = Random::new(7);
    for _ in 0..2_000 {
        let rule = inputs::mixed(&mut random, 4, 3, 2, 1);
        let mut records: Vec<Clause> = (0..5).map(|_| inputs::mixed_instance(&mut random, &rule, 2)).collect();
        let mut rules = Vec::new();
        for _ in 0..2 {
            let mut class = Class::begin(&mut shop, &records[0]);
            let all = records[1..].iter().all(|r| class.admit(&mut shop, r).is_ok());
            if all {
                rules.push(class.issue().rule);
            }
            random.shuffle(&mut records);
        }
        if let [a, b] = &rules[..] {
            assert_eq!((a.len(), a.nodes.len()), (b.len(), b.nodes.len()));
            assert!(shop.engine.covers(a, b) && shop.engine.covers(b, a));
            assert!(shop.engine.covers(&rule, a));
        }
    }
}

fn part(clause: &Clause, keep: &[u16]) -> Clause {
    let mut part = Clause::default();
    part.take_numbered(clause, keep, &mut Vec::new());
    part
}

/// Large joins, where plain backtracking takes too long: what is kept covers the whole, nothing of it can be dropped, and
/// each literal that was dropped could be, when its turn came.
#[test]
fn large_joins() {
    let mut shop = Workshop::default();
    let mut engine = Engine::default();
    let mut random = Random::new(11);
    let (mut taken, mut refused, mut dropped) = (0, 0, 0);
    for round in 0..400 {
        let one = |random: &mut Random| {
            let size = random.between(4, 16);
            let constants = random.between(4, 9);
            match round % 4 {
                0 => inputs::graph(random, size, constants),
                1 => inputs::random_mount(random, size, constants, 2),
                2 => inputs::mixed(random, 16, 4, 2, 2),
                _ => inputs::ring(size),
            }
        };
        let (a, b) = (one(&mut random), one(&mut random));
        let raw = shop.raw(&a, &b).clone();
        let mut kept = Vec::new();
        assert!(shop.engine.tidied(&raw, None, &mut kept));
        let tidy = part(&raw, &kept);
        assert!(engine.covers(&raw, &tidy));
        for l in 0..kept.len() {
            let rest: Vec<u16> = (0..kept.len() as u16).filter(|&k| k as usize != l).collect();
            assert!(!engine.covers(&tidy, &part(&tidy, &rest)));
        }
        let mut left: Vec<u16> = (0..raw.len() as u16).collect();
        for l in 0..raw.len() as u16 {
            let rest: Vec<u16> = left.iter().copied().filter(|&k| k != l).collect();
            let covered = engine.covers(&part(&raw, &left), &part(&raw, &rest));
            assert_eq!(covered, !kept.contains(&l));
            if covered {
                dropped += 1;
                left = rest;
            }
        }
        let mut found = Clause::default();
        if tidy.len() > 16 || tidy.nodes.len() > 256 {
            refused += 1;
            assert_eq!(shop.join(&a, &b, &mut found), Err(Refused));
        } else {
            taken += 1;
            assert_eq!(shop.join(&a, &b, &mut found), Ok(()));
            assert_eq!(found, tidy);
        }
    }
    println!("{taken} {refused} {dropped}");
    assert!(taken > 50 && refused > 50 && dropped > 1_000);
}
