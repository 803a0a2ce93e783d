//! Trees, tried on the Rust: what is said of marks is held to the tree read anew by its routes, on random scripts and on all short marks; and
//! the leaves of every tree part the routes.

use comparison::apart::owns;
use comparison::scripts::{Names, line, script};
use comparison::shorten::thin;
use comparison::steps::each_call;
use comparison::tree::Tree;
use comparison::trees::Found;
use reference::{Book, FILLER, Reply, Runner};

const SEED: u64 = 97;
const SCRIPTS: u64 = 3000;

/// What a call with a tree has to say and to write.
fn expected(name: &str, numbers: &[u64], lent: usize, book: &Book) -> (u64, Vec<u64>, Vec<u64>) {
    let mut list = vec![FILLER; lent];
    let marks = &numbers[usize::from(name != "leaves")..];
    let tree = match Tree::read(marks) {
        Ok(tree) => tree,
        Err((_, breach)) => return (breach.number(), vec![], list),
    };
    let items = match name {
        "leaf_for_route" => return (0, vec![tree.leaf_of(numbers[0]).shard()], list),
        "leaves" => tree.shards(),
        _ => Found::of(&tree, numbers[0], book).all(),
    };
    if items.len() > lent {
        return (9, vec![], list);
    }
    list[..items.len()].copy_from_slice(&items);
    (0, vec![items.len() as u64], list)
}

#[test]
fn trees_are_those_of_their_marks() {
    let names = Names::all();
    let mut tried = 0;
    for index in 0..SCRIPTS {
        let text = script(SEED, index, &names).text;
        each_call(&text, |step| {
            let reply = step.after.reply.as_ref().expect("the line is a call");
            let numbers = &step.after.numbers;
            let name = reply.call.name;
            if matches!(name, "leaf_for_route" | "leaves" | "counterparts_by_tree") {
                let Reply { status, lent, .. } = reply;
                let said = if *status == 0 { &reply.said[..] } else { &[] };
                let expected = expected(name, numbers, lent.len(), &step.before);
                let shown = String::from_utf8_lossy(step.line);
                assert_eq!(
                    (*status, said.to_vec(), lent.clone()),
                    expected,
                    "script {index}: {shown}"
                );
                tried += 1;
            }
        });
    }
    assert!(tried > 3000, "{tried} tried");
}

fn said(runner: &mut Runner, name: &str, numbers: &[u64], lent: Option<u64>) -> Reply {
    runner.take(line(name, numbers, lent).as_bytes(), &mut Vec::new());
    runner.reply.take().expect("the line is a call")
}

/// The leaves of the Rust own the routes between them: side by side from the first route to the last, each as many as its depth leaves.
fn part_all_routes(runner: &mut Runner, tree: &Tree) {
    let marks = tree.marks();
    let listed = said(runner, "leaves", &marks, Some(64));
    let shards = &listed.lent[..listed.said[0] as usize];
    let mut next: u128 = 0;
    for shard in shards {
        let width = 1u128 << (64 - shard.ilog2());
        for route in [next, next + width - 1] {
            let route = route as u64;
            let owner = said(
                runner,
                "leaf_for_route",
                &[&[route], &marks[..]].concat(),
                None,
            );
            assert_eq!(owner.said, [*shard], "{marks:?}");
            let owners = shards.iter().filter(|one| owns(**one, route));
            assert_eq!(owners.count(), 1, "{marks:?}");
        }
        next += width;
    }
    assert_eq!(next, 1 << 64, "{marks:?}");
}

/// All marks of 0, 1 and 2, to nine of them: accepted are as many as there are trees of so many leaves, and each parts the routes.
#[test]
fn all_short_marks_are_told_apart() {
    let mut runner = Runner::default();
    let mut accepted = [0; 10];
    for count in 0..=9 {
        for number in 0..3u64.pow(count) {
            let marks: Vec<u64> = (0..count).map(|n| number / 3u64.pow(n) % 3).collect();
            let reply = said(&mut runner, "leaves", &marks, Some(64));
            let tree = Tree::read(&marks);
            assert_eq!(reply.status, tree.as_ref().map_or(15, |_| 0), "{marks:?}");
            if let Ok(tree) = tree {
                accepted[count as usize] += 1;
                assert_eq!(tree.marks(), marks);
                part_all_routes(&mut runner, &tree);
            }
        }
    }
    assert_eq!(accepted, [0, 1, 0, 1, 0, 2, 0, 5, 0, 14]);
}

/// A path down to any depth along some routes, and one split more at 16; with as many leaves besides as there may be, and one more.
#[test]
fn deep_trees_end_at_their_limits() {
    let mut runner = Runner::default();
    for route in [0, u64::MAX, 1 << 63, (1 << 63) - 1, 0xaaaa_aaaa_aaaa_aaaa] {
        let mut tree = Tree::default();
        for depth in 0..=16 {
            tree.split_along(route, depth);
            part_all_routes(&mut runner, &tree);
        }
        let mut deeper = tree.clone();
        deeper.split_along(route, 17);
        let status = |runner: &mut Runner, tree: &Tree| {
            said(runner, "leaves", &tree.marks(), Some(64)).status
        };
        assert_eq!(status(&mut runner, &deeper), 16);
        while tree.0.len() < 32 {
            let place = tree.0.iter().position(|leaf| leaf.depth < 16);
            tree.split(place.expect("there is room"));
        }
        part_all_routes(&mut runner, &tree);
        let place = tree.0.iter().position(|leaf| leaf.depth < 16);
        tree.split(place.expect("there is room"));
        assert_eq!(status(&mut runner, &tree), 16);
    }
}

/// Of a tree of 32 leaves what is left is what makes a leaf at depth 2, and its list.
#[test]
fn a_tree_is_shortened_to_what_matters() {
    let marks = Tree::uniform(5).marks();
    let text = line("leaves", &marks, Some(40)) + "\n";
    let fourth = |text: &[u8]| {
        let mut runner = Runner::default();
        runner.take(text.strip_suffix(b"\n").unwrap_or(text), &mut Vec::new());
        let reply = runner.reply.expect("the line is a call");
        reply.status == 0 && reply.lent[0] >= 4
    };
    let short = thin(text.as_bytes(), fourth);
    assert_eq!(short, b"leaves 1 1 0 0 0 lent 40\n");
}
