//! The program `hatt`: what it prints, and every way in which its text is malformed.

use plain::program;

fn printed(input: &str) -> String {
    String::from_utf8(program(input.as_bytes())).unwrap()
}

fn refused(input: &str) -> String {
    let printed = printed(input);
    let body = printed.strip_prefix("refused\t").expect(&printed);
    body.strip_suffix('\n').unwrap().replace('\t', " at ")
}

#[test]
fn p3() {
    let input = "modes\t2\nterm\t0\t1\nterm\t2\t3\nterm\t0\t1\t2\t3\n";
    let expected = "weight\t4\ntrials\t14\nnode\t1\t0\t5\t-\nnode\t0\t2\t3\t4\n";
    assert_eq!(printed(input), expected);
}

#[test]
fn no_term_is_allowed() {
    let expected = "weight\t0\ntrials\t2\nnode\t0\t1\t2\t-\n";
    assert_eq!(printed("modes\t1\n"), expected);
}

#[test]
fn first_line() {
    let texts = [
        "",
        "\n",
        "modes",
        "modes\n",
        "modes\t\n",
        "modes\t1",
        "modes 1\n",
        "Modes\t1\n",
        "modes\t01\n",
        "modes\t00\n",
        "modes\t65536\n",
        "modes\t100000\n",
        "modes\t1\t\n",
        "modes\t1\t1\n",
        "modes\t1\r\n",
        "modes\t+1\n",
        "modes\t-1\n",
        "\tmodes\t1\n",
        "term\t0\n",
        " modes\t1\n",
    ];
    for text in texts {
        assert_eq!(refused(text), "18 at 0", "{text:?}");
    }
}

#[test]
fn term_lines() {
    let texts = [
        "\n",
        "term\n",
        "term\t\n",
        "term\t0\t\n",
        "term\t\t0\n",
        "term\t0",
        "term",
        "t",
        "term\t0 1\n",
        "term\t00\n",
        "term\t01\n",
        "term\t65536\n",
        "term\t123456\n",
        "terms\t0\n",
        "modes\t1\n",
        "term\t0\r\n",
        "term\t0\t0\t0\t0\t0\t0\t0\t0\n",
    ];
    for text in texts {
        let input = format!("modes\t1\nterm\t0\t1\n{text}");
        assert_eq!(refused(&input), "18 at 2", "{text:?}");
    }
    let seven = "modes\t1\nterm\t0\t0\t0\t0\t0\t0\t1\n";
    assert!(printed(seven).starts_with("weight\t1\n"));
}

/// Texts that `tests/using/programs` gives the programs themselves.
#[test]
fn refused_alike_by_the_programs() {
    let texts = [
        ("", "18 at 0"),
        ("modes\t2\nt", "18 at 1"),
        ("modes\t2\nterm\n", "18 at 1"),
        ("modes\t02\n", "18 at 0"),
        ("modes\t2\nterm\t0\t0\t0\t0\t0\t0\t0\t0\n", "18 at 1"),
        ("modes\t0\n", "1 at 0"),
        ("modes\t1\nterm\t2\n", "4 at 0"),
    ];
    for (text, refusal) in texts {
        assert_eq!(refused(text), refusal, "{text:?}");
    }
}

#[test]
fn number_of_terms() {
    let most = "modes\t1\n".to_string() + &"term\t0\n".repeat(2048);
    assert!(printed(&most).starts_with("weight\t2048\ntrials\t2\n"));
    let one_more = most + "term\t0\n";
    assert_eq!(refused(&one_more), "18 at 2049");
}

/// "at the first such line and before any other number"
#[test]
fn order() {
    assert_eq!(refused("modes\t0\nterm\t9\t8\nterm\n"), "18 at 2");
    assert_eq!(refused("modes\t0\nx\nterm"), "18 at 1");
    assert_eq!(refused("modes\t0\nterm\t9\t8\n"), "1 at 0");
    assert_eq!(refused("modes\t257\n"), "1 at 0");
    assert_eq!(refused("modes\t65535\n"), "1 at 0");
    assert_eq!(refused("modes\t2\nterm\t0\nterm\t3\t2\n"), "4 at 1");
    assert_eq!(refused("modes\t2\nterm\t0\nterm\t4\n"), "4 at 1");
    assert_eq!(refused("modes\t2\nterm\t65535\n"), "4 at 0");
}

#[test]
fn any_byte_but_a_digit_is_malformed() {
    for byte in (0..=255u8).filter(|byte| !byte.is_ascii_digit()) {
        let mut input = b"modes\t1\nterm\t0".to_vec();
        input.extend([byte, b'\n']);
        // A line feed ends the line, and the empty line after it is the malformed one.
        let place = if byte == b'\n' { 2 } else { 1 };
        let expected = format!("refused\t18\t{place}\n");
        assert_eq!(program(&input), expected.into_bytes(), "byte {byte}");
    }
}
