//! The commands of the program `dewgoblin`: what each prints, and every way in which its file is refused.

mod common;

use common::P3_JOURNAL;
use plain::command;
use plain::terms::Rule;

const P3: &str = "modes\t2\nterm\t0\t1\nterm\t2\t3\nterm\t0\t1\t2\t3\n";
const P3_NODES: &str = "node\t1\t0\t5\t-\nnode\t0\t2\t3\t4\n";

fn asked(name: &str, file: &str, terms: &str) -> String {
    asked_with(name, "", file, terms)
}

fn asked_with(name: &str, word: &str, file: &str, terms: &str) -> String {
    let printed = command(
        name,
        word,
        Rule::Published,
        file.as_bytes(),
        terms.as_bytes(),
    );
    String::from_utf8(printed.expect("a command")).unwrap()
}

/// The number and the place by which a command on P3's terms refuses a file.
fn refused(name: &str, file: &str) -> String {
    let printed = asked_with(name, "min_weight", file, P3);
    let body = printed.strip_prefix("refused\t").expect(&printed);
    body.strip_suffix('\n').unwrap().replace('\t', " at ")
}

#[test]
fn journals() {
    assert_eq!(asked("journal", "", P3), P3_JOURNAL);
    assert_eq!(asked("continue", &P3_JOURNAL[..11], P3), P3_JOURNAL[11..]);
    let tree = "weight\t4\ntrials\t14\n".to_string() + P3_NODES;
    assert_eq!(asked("resume", "", P3), tree);
    assert_eq!(
        command("rezume", "", Rule::Published, b"", P3.as_bytes()),
        None
    );
}

/// P5: `0 0 1 4 2` is filled in, and resumed to its rows, weight and trials.
#[test]
fn p5_steered() {
    let journal = asked("steer", "0\t1\t4\n", P3);
    assert_eq!(journal, "hatt\t1\t2\t3\n0\t0\t1\t4\t2\n");
    let tree = "weight\t4\ntrials\t2\nnode\t1\t4\t5\t0\nnode\t0\t2\t3\t-\n";
    assert_eq!(asked("resume", &journal, P3), tree);
}

#[test]
fn steered_to_any_length() {
    assert_eq!(asked("steer", "", P3), P3_JOURNAL[..11]);
    assert_eq!(asked("steer", "0\t1\t2\n5\t3\t4\n", P3), P3_JOURNAL);
}

#[test]
fn merges_refused() {
    let broken = [
        "\n",
        "0\t1\n",
        "0\t1\t4\t2\n",
        "0 1 4\n",
        "0\t1\t04\n",
        "0\t1\t65536\n",
        "0\t1\t4\r\n",
        "x\ty\tz\n",
        "0\t1\t4",
        "junk",
    ];
    for text in broken {
        assert_eq!(refused("steer", text), "6 at 1", "{text:?}");
    }
    assert_eq!(refused("steer", "0\t1\t5\n"), "9 at 1");
    assert_eq!(refused("steer", "0\t1\t65535\n"), "9 at 1");
    assert_eq!(refused("steer", "0\t1\t2\n2\t3\t4\n"), "9 at 2");
    assert_eq!(refused("steer", "1\t0\t4\n"), "10 at 1");
    assert_eq!(refused("steer", "0\t2\t4\n"), "10 at 1");
    assert_eq!(refused("steer", "0\t1\t1\n"), "10 at 1");
    assert_eq!(refused("steer", "0\t1\t4\n2\t3\t5\n\n"), "12 at 3");
    // nothing that stands there is passed over, and only a complete line is 12
    assert_eq!(refused("steer", "0\t1\t4\n2\t3\t5\n0"), "6 at 3");
    // the first bad line wins
    assert_eq!(refused("steer", "0\t1\t5\nx"), "9 at 1");
}

#[test]
fn terms_refused_first() {
    for (terms, refusal) in [
        ("modes\t2", "refused\t18\t0\n"),
        ("modes\t0\n", "refused\t1\t0\n"),
        ("modes\t1\nterm\t2\n", "refused\t4\t0\n"),
    ] {
        assert_eq!(asked("steer", "x\n", terms), refusal);
        assert_eq!(asked("reason", "x\n", terms), "");
    }
}

/// P3: at step 0 the triple is 0, 1, 2, at step 1 it is 5, 3, 4, and the first term is gone then.
#[test]
fn p3_letters() {
    assert_eq!(asked_with("letters", "0", "", P3), "0\tZ\n1\tZ\n2\t-\n");
    assert_eq!(asked_with("letters", "1", "", P3), "1\tZ\n2\tZ\n");
    for no_step in ["2", "", "01", "-1", "x"] {
        assert_eq!(asked_with("letters", no_step, "", P3), "steps\t2\n");
    }
    assert_eq!(asked_with("letters", "0", "x\n", P3), "refused\t6\t0\n");
}

/// P3: the first term is gone after step 0, the other two after step 1, and a resumed run says the same.
#[test]
fn p3_drops() {
    for kept in [0, 11, P3_JOURNAL.len()] {
        assert_eq!(asked("drops", &P3_JOURNAL[..kept], P3), "0\t1\n1\t2\n");
    }
    assert_eq!(asked("drops", "x\n", P3), "refused\t6\t0\n");
}

/// "a single odd child gives its own letter, two odd children give the third letter, none or three
/// give none."
#[test]
fn eight_letters() {
    let rows: [(&[u16], char); 8] = [
        (&[4], '-'),
        (&[0], 'X'),
        (&[1], 'Y'),
        (&[2], 'Z'),
        (&[1, 2], 'X'),
        (&[0, 2], 'Y'),
        (&[0, 1], 'Z'),
        (&[0, 1, 2], '-'),
    ];
    for (row, letter) in rows {
        assert_eq!(plain::letters::letter(row, [0, 1, 2]), letter);
    }
}

/// P8 and P9, the nodes as `hatt` prints them and in the order in which they were given.
#[test]
fn p8_and_p9_assigned() {
    let one = "modes\t2\nterm\t1\n";
    let by_label = "node\t0\t2\t3\t4\nnode\t1\t0\t5\t-\n";
    for heuristic in ["min_weight", "x_first", "z_first"] {
        let p8 = "weight\t0\nnode\t0\t4\t5\t2\nnode\t1\t0\t3\t-\n";
        assert_eq!(asked_with("assign", heuristic, by_label, one), p8);
        let p9 = "weight\t2\n".to_string() + P3_NODES;
        assert_eq!(asked_with("assign", heuristic, P3_NODES, P3), p9);
    }
    assert_eq!(
        asked_with("assign", "min", P3_NODES, P3),
        "refused\t17\t0\n"
    );
}

/// P3's and P4's tree weights.
#[test]
fn weighed() {
    assert_eq!(asked("weigh", P3_NODES, P3), "weight\t4\n");
    let p4 = "modes\t2\nterm\t2\nterm\t2\n";
    let nodes = "node\t1\t4\t0\t-\nnode\t0\t2\t3\t5\n";
    assert_eq!(asked("weigh", nodes, p4), "weight\t1\n");
}

#[test]
fn strings() {
    let p3 = "0\tXX\n1\tYX\n2\tZX\n3\tIY\n";
    assert_eq!(asked("strings", P3_NODES, ""), p3);
    assert_eq!(asked("hatt_strings", "", P3), p3);
    assert_eq!(asked("strings", "node\t0\t1\t2\t-\n", ""), "0\tX\n1\tY\n");
    assert_eq!(asked("hatt_strings", "", ""), "refused\t18\t0\n");
    assert_eq!(asked("hatt_strings", "", "modes\t0\n"), "refused\t1\t0\n");
    // Jordan and Wigner's chain of three: each node is the Z child of the one before it
    let chain = "node\t0\t3\t4\t1\nnode\t1\t5\t6\t2\nnode\t2\t7\t8\t-\n";
    let letters = ["XII", "YII", "ZXI", "ZYI", "ZZX", "ZZY"];
    let lines = letters.iter().enumerate();
    let lines: String = lines
        .map(|(k, string)| format!("{k}\t{string}\n"))
        .collect();
    assert_eq!(asked("strings", chain, ""), lines);
}

#[test]
fn accepted_by_the_check() {
    assert_eq!(asked("check", P3_NODES, ""), "");
    assert_eq!(asked("check", "node\t0\t1\t2\t-\n", ""), "");
}

#[test]
fn tree_lines() {
    let texts = [
        "\n",
        "node\n",
        "node\t0\t1\t2\n",
        "node\t0\t1\t2\t-\t\n",
        "node\t0\t1\t2\t-",
        "node\t0\t1\t2\t65535\n",
        "node\t65535\t1\t2\t3\n",
        "node\t-\t1\t2\t3\n",
        "node\t0\t1\t2\t--\n",
        "node\t0\t1\t02\t-\n",
        "node\t0\t1\t2\t-\r\n",
        "node 0 1 2 -\n",
        "Node\t0\t1\t2\t-\n",
        "weight\t4\n",
        "trials\t14\n",
    ];
    for text in texts {
        for name in ["check", "weigh", "assign", "strings"] {
            assert_eq!(refused(name, text), "18 at 0", "{text:?}");
            assert_eq!(refused(name, &(P3_NODES.to_string() + text)), "18 at 2");
        }
    }
    assert_eq!(refused("check", ""), "18 at 0");
    assert_eq!(
        refused("check", &"node\t0\t1\t2\t-\n".repeat(256)),
        "15 at 0"
    );
    assert_eq!(
        refused("check", &"node\t0\t1\t2\t-\n".repeat(257)),
        "18 at 256"
    );
}

#[test]
fn trees_refused() {
    for (nodes, refusal) in [
        ("node\t1\t0\t5\t-\nnode\t0\t2\t6\t4\n", "14 at 1"),
        ("node\t1\t0\t65534\t-\nnode\t0\t2\t3\t4\n", "14 at 4"),
        // a label twice, no node's label, a code twice
        ("node\t0\t0\t5\t-\nnode\t0\t2\t3\t4\n", "15 at 0"),
        ("node\t2\t0\t5\t-\nnode\t0\t2\t3\t4\n", "15 at 0"),
        ("node\t1\t0\t5\t-\nnode\t0\t2\t3\t3\n", "15 at 0"),
        ("node\t1\t0\t5\t-\nnode\t0\t3\t2\t4\n", "16 at 0"),
        ("node\t1\t5\t0\t-\nnode\t0\t2\t3\t4\n", "16 at 1"),
    ] {
        for name in ["check", "weigh", "assign", "strings"] {
            assert_eq!(refused(name, nodes), refusal, "{nodes:?}");
        }
    }
    // "a tree of another number of nodes than the terms have modes is 13"
    let one = "node\t0\t1\t2\t-\n";
    assert_eq!(asked("check", one, ""), "");
    assert_eq!(refused("weigh", one), "13 at 0");
    assert_eq!(refused("assign", one), "13 at 0");
}

/// 18 of TREE, 18 of TERMS, 1, 13 to 16, 17, 4.
#[test]
fn order() {
    let nodes = "node\t0\t1\t2\t9\n";
    let both = |tree: &str, terms: &str| {
        let weighed = asked("weigh", tree, terms);
        assert_eq!(asked_with("assign", "no", tree, terms), weighed);
        weighed
    };
    assert_eq!(both(&(nodes.to_string() + "x"), "x"), "refused\t18\t1\n");
    assert_eq!(both(nodes, "modes\t0\nterm"), "refused\t18\t1\n");
    assert_eq!(both(nodes, "modes\t0\nterm\t9\n"), "refused\t1\t0\n");
    assert_eq!(both(nodes, "modes\t2\nterm\t9\n"), "refused\t13\t0\n");
    assert_eq!(both(nodes, "modes\t1\nterm\t9\n"), "refused\t14\t2\n");
    let good = "node\t0\t1\t2\t-\n";
    let bad_row = "modes\t1\nterm\t9\n";
    assert_eq!(
        asked_with("assign", "no", good, bad_row),
        "refused\t17\t0\n"
    );
    assert_eq!(
        asked_with("assign", "x_first", good, bad_row),
        "refused\t4\t0\n"
    );
    assert_eq!(asked("weigh", good, bad_row), "refused\t4\t0\n");
}

#[test]
fn reasons() {
    let header = &P3_JOURNAL[..11];
    for (lines, reason) in [
        ("1\t5\t3\t4\t2\n0\t0\t1\t2\t2\n", "due\t0\n"),
        ("0\t0\t1\t2\t2\n0\t0\t1\t2\t2\n", "due\t1\n"),
        ("0\t0\t1\t2\t2\n1\t4\t0\t2\t2\n", "closed\t0\n"),
        ("0\t0\t6\t5\t2\n", "closed\t6\n"),
        ("0\t0\t1\t4\t1\n", "weight\t2\n"),
        // 6, 10, 12, and none
        ("0\t0\t1\t4\n", ""),
        ("0\t0\t2\t4\t1\n", ""),
        ("0\t0\t1\t2\t2\n1\t5\t3\t4\t2\n2\t0\t0\t0\t0\n", ""),
        ("0\t0\t1\t4\t2\n1\t9", ""),
    ] {
        let journal = header.to_string() + lines;
        assert_eq!(asked("reason", &journal, P3), reason, "{lines:?}");
    }
    assert_eq!(asked("reason", "hatt\t1\t2\t4\n", P3), "");
}
