//! What every accepted resume must satisfy, whatever journal it was given, and what every refused one must.

use crate::calls::{accepted, resume, Finished};
use crate::finished::{is_accepted, not_below_best, weighs_at_least};
use crate::judge::judge;
use crate::tally::equal;
use compare::cases::tree_of_rows;
use plain::merging::Merge;
use plain::{find_line, Refusal};

/// "With n modes and k kept merge lines a run has j(j+1)(4j-1)/3, j = n-k."
pub fn total_trials(left: usize) -> u64 {
    let left = left as u64;
    left * (left + 1) * (4 * left).saturating_sub(1) / 3
}

/// The part of a journal through its last line feed.
pub fn kept_part(read: &[u8]) -> &[u8] {
    let last = read.iter().rposition(|&byte| byte == b'\n');
    &read[..last.map_or(0, |place| place + 1)]
}

/// The first lines of a journal.
fn first_lines(journal: &[u8], lines: usize) -> &[u8] {
    let length = (0..lines).map(|line| find_line(journal, &[], line).len());
    &journal[..length.sum()]
}

fn line_count(journal: &[u8]) -> usize {
    journal.iter().filter(|&&byte| byte == b'\n').count()
}

/// The numbers of a merge line.
fn numbers(line: &[u8]) -> Vec<usize> {
    let text = String::from_utf8_lossy(line);
    let fields = text.trim_end().split('\t');
    fields
        .map(|field| field.parse().expect("a number"))
        .collect()
}

/// An accepted journal and its new lines are one whole journal, and rows, weight and trials are those of its lines.
pub fn hold(modes: usize, terms: &[u16], read: &[u8], finished: &Finished) -> Result<(), String> {
    let kept = kept_part(read);
    let done = finished.done;
    equal("kept bytes", done.kept, kept.len())?;
    let kept_merges = line_count(kept).saturating_sub(1);
    equal("trials", done.trials, total_trials(modes - kept_merges))?;
    let whole = [kept, &finished.new].concat();
    equal("lines", line_count(&whole), modes + 1)?;
    let header = format!("hatt\t1\t{modes}\t{}\n", terms.len() / 8);
    equal(
        "header",
        find_line(kept, &finished.new, 0),
        header.as_bytes(),
    )?;
    new_lines_are_greedy(modes, terms, read, finished)?;
    lines_give_the_rows(modes, kept, finished)?;
    let tree = tree_of_rows(&finished.rows);
    is_accepted(modes, &tree)?;
    weighs_at_least(modes, &tree, terms, done.weight)?;
    not_below_best(modes, &tree, terms)?;
    is_whole(modes, terms, &whole, finished)
}

/// The journal is one that the second reading accepts, and the new lines are those of greedy steps after it.
fn new_lines_are_greedy(
    modes: usize,
    terms: &[u16],
    read: &[u8],
    finished: &Finished,
) -> Result<(), String> {
    let judged = judge(modes, terms, read);
    let mut merging = judged.map_err(|refusal| format!("judged {refusal:?}"))?;
    let mut new = match finished.done.kept {
        0 => format!("hatt\t1\t{modes}\t{}\n", terms.len() / 8),
        _ => String::new(),
    };
    for step in merging.merges().len()..modes {
        merging.step();
        let Merge { triple, weight } = merging.merges()[step];
        let [x, y, z] = triple;
        new += &format!("{step}\t{x}\t{y}\t{z}\t{weight}\n");
    }
    equal("new lines", finished.new.as_slice(), new.as_bytes())
}

/// The merge lines' children are the rows' children, and their weights add up to the weight.
fn lines_give_the_rows(modes: usize, kept: &[u8], finished: &Finished) -> Result<(), String> {
    let tree = tree_of_rows(&finished.rows);
    let mut weight = 0;
    for step in 0..modes {
        let line = numbers(find_line(kept, &finished.new, step + 1));
        equal("step", line[0], step)?;
        weight += line[4] as u64;
        for (edge, &child) in line[1..4].iter().enumerate() {
            let code = match child {
                leaf if leaf < 2 * modes => leaf + modes,
                none if none == 2 * modes => 65535,
                parent => parent - 2 * modes - 1,
            };
            equal("code", usize::from(tree[3 * step + edge]), code)?;
        }
    }
    equal("weight", finished.done.weight, weight)
}

/// Resuming from the whole journal tries nothing, writes nothing new, and gives the same rows and weight.
fn is_whole(modes: usize, terms: &[u16], whole: &[u8], finished: &Finished) -> Result<(), String> {
    let again = accepted(modes, terms, whole)?;
    equal("whole journal's new", again.done.new, 0)?;
    equal("whole journal's trials", again.done.trials, 0)?;
    equal("whole journal's kept", again.done.kept, whole.len())?;
    equal(
        "whole journal's weight",
        again.done.weight,
        finished.done.weight,
    )?;
    equal("whole journal's rows", &again.rows, &finished.rows)
}

/// "the first bad journal line wins": the lines before the refused one are accepted, with it alone
/// after them the refusal is the same, and the second reading refuses alike.
pub fn is_first_bad_line(
    modes: usize,
    terms: &[u16],
    read: &[u8],
    refusal: Refusal,
) -> Result<(), String> {
    let Refusal { number, place } = refusal;
    equal("a journal's number", (6..=12).contains(&number), true)?;
    equal("7 at line 0", number == 7, number == 7 && place == 0)?;
    equal("12 after n merges", number == 12, place == modes + 1)?;
    equal("a kept line", place < line_count(read), true)?;
    accepted(modes, terms, first_lines(read, place))?;
    let with_it = resume(modes, terms, first_lines(read, place + 1))?;
    equal("alone", with_it.map(|_| ()), Err(refusal))?;
    let judged = judge(modes, terms, read);
    equal("judged", judged.map(|_| ()), Err(refusal))
}
