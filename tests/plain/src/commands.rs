//! The commands of the program `dewgoblin`, from the bytes that they read to the bytes that they print.

use crate::assign::assign;
use crate::best::best;
use crate::journal::{complete_lines, fields, obey, read_merge, resume, LINE_FEED};
use crate::journal::{read_number, read_numbers, write_header, write_merge};
use crate::letters::letter_lines;
use crate::merging::{Merge, Merging, ABSENT};
use crate::refusal::{check_modes, demand, Refusal, MOST_MODES};
use crate::strings::strings;
use crate::terms::{read_terms, work_room, Row, Rule};
use crate::text::{node_lines, print_answer, print_refusal, read_input};
use crate::tree::{check_tree, tree_weight};

/// What a command prints for its file (JOURNAL, MERGES or TREE) and the terms on standard input;
/// `word` is the heuristic of `assign` and the step of `letters`; `rule` is what `--keep` names. None where there is no such command.
pub fn command(name: &str, word: &str, rule: Rule, file: &[u8], input: &[u8]) -> Option<Vec<u8>> {
    let printed = match name {
        "journal" => go_on(rule, input, &[]).map(|run| run.new),
        "resume" => go_on(rule, input, file).map(|run| run.tree),
        "continue" => go_on(rule, input, file).map(|run| run.new),
        "steer" => steer(rule, input, file),
        "letters" => letters(rule, input, file, word),
        "drops" => go_on(rule, input, file).map(|run| run.drops),
        "assign" => assign_tree(rule, input, file, word),
        "weigh" => weigh_tree(input, file),
        "best" => best_of_terms(input),
        "check" => check_nodes(file),
        "strings" => strings_of_nodes(file),
        "hatt_strings" => go_on(rule, input, &[]).and_then(|run| strings_of_nodes(&run.nodes)),
        "reason" => Ok(reason(rule, input, file).unwrap_or_default()),
        _ => return None,
    };
    Some(printed.unwrap_or_else(print_refusal).into_bytes())
}

/// `least`, `reached`, and the merges of the first as lines by hand.
fn best_of_terms(input: &[u8]) -> Result<String, Refusal> {
    let (modes, terms) = read_input(input)?;
    let found = best(modes, &terms)?;
    let lines = found.first.iter();
    let merges: String = lines.map(|[x, y, z]| format!("{x}\t{y}\t{z}\n")).collect();
    Ok(format!(
        "least\t{}\nreached\t{}\n{merges}",
        found.least, found.reached
    ))
}

/// A run that went on from a journal: what `resume` prints of it, its `node` lines alone, the new lines, and a line for each step with what it dropped.
struct Run {
    tree: String,
    nodes: Vec<u8>,
    new: String,
    drops: String,
}

fn go_on(rule: Rule, input: &[u8], read: &[u8]) -> Result<Run, Refusal> {
    let (modes, terms) = read_input(input)?;
    let mut work = vec![0; work_room(&terms)];
    let mut rows = vec![0; 4 * modes];
    let mut journal = vec![0; 16 + 21 * modes];
    let mut drops = vec![0; modes];
    let done = resume(
        modes,
        rule as usize,
        &terms,
        read,
        &mut work,
        &mut rows,
        &mut journal,
        &mut drops,
    )?;
    journal.truncate(done.new);
    let steps = drops.iter().enumerate();
    Ok(Run {
        tree: print_answer(done, &rows),
        nodes: node_lines(&rows).into_bytes(),
        new: String::from_utf8(journal).expect("a journal is text"),
        drops: steps
            .map(|(step, count)| format!("{step}\t{count}\n"))
            .collect(),
    })
}

/// The modes and the rows of the terms, or 18, 1 or 4.
fn read_job(input: &[u8]) -> Result<(usize, Vec<Row>), Refusal> {
    let (modes, terms) = read_input(input)?;
    check_modes(modes)?;
    Ok((modes, read_terms(modes, &terms)?))
}

/// "Prints the journal of those merges, steps and true weights filled in".
fn steer(rule: Rule, input: &[u8], merges: &[u8]) -> Result<String, Refusal> {
    let (modes, rows) = read_job(input)?;
    let mut journal = Vec::new();
    write_header(&mut journal, rule, modes, rows.len());
    let mut merging = Merging::new(modes, rule, rows);
    let lines = merges.split_inclusive(|&byte| byte == LINE_FEED);
    for (before, text) in lines.enumerate() {
        // "lines counted as in the journal that it would make": its line 0 is the header.
        let merge = merge_by_hand(&merging, before + 1, text)?;
        merging.merge(merge);
        write_merge(&mut journal, before, merge);
    }
    Ok(String::from_utf8(journal).expect("a journal is text"))
}

/// "the first line that isn't lawful, by 6, 9, 10 or 12 at that line"; "A last line without LF is
/// 6", behind the last merge too, since 12 is a complete line's.
fn merge_by_hand(merging: &Merging, line: usize, text: &[u8]) -> Result<Merge, Refusal> {
    demand(text.ends_with(&[LINE_FEED]), 6, line)?;
    demand(!merging.is_finished(), 12, line)?;
    let broken = Refusal {
        number: 6,
        place: line,
    };
    let numbers = read_numbers(&fields(text)).ok_or(broken)?;
    let triple: [u16; 3] = numbers.try_into().map_err(|_| broken)?;
    demand(first_closed(merging, triple).is_none(), 9, line)?;
    demand(merging.is_lawful(triple), 10, line)?;
    let weight = merging.weigh(triple);
    Ok(Merge { triple, weight })
}

/// "the first of x, y, z that is not open".
fn first_closed(merging: &Merging, triple: [u16; 3]) -> Option<u16> {
    triple.into_iter().find(|&child| !merging.is_open(child))
}

/// What a journal's refusal by 8, 9 or 11 leaves out: the step that was due, the child that is not
/// open, the true weight.
fn reason(rule: Rule, input: &[u8], journal: &[u8]) -> Option<String> {
    let (modes, rows) = read_job(input).ok()?;
    let refusal = obey(modes, rule, rows.clone(), journal).err()?;
    let lines: Vec<&[u8]> = complete_lines(journal).collect();
    let good = lines[..refusal.place].concat();
    let merging =
        obey(modes, rule, rows, &good).expect("the lines before the first bad one are good");
    let said = read_merge(&fields(lines[refusal.place]))?;
    match refusal.number {
        8 => Some(format!("due\t{}\n", merging.merges().len())),
        9 => Some(format!(
            "closed\t{}\n",
            first_closed(&merging, said.triple)?
        )),
        11 => Some(format!("weight\t{}\n", merging.weigh(said.triple))),
        _ => None,
    }
}

/// "for a step of the run that the journal leads to …, each row that is live before it by its
/// place"; where there is no such step, how many there are.
fn letters(rule: Rule, input: &[u8], journal: &[u8], word: &str) -> Result<String, Refusal> {
    let (modes, rows) = read_job(input)?;
    let mut merging = obey(modes, rule, rows.clone(), journal)?;
    while !merging.is_finished() {
        merging.step();
    }
    let step = read_number(word.as_bytes()).map(usize::from);
    Ok(match step.filter(|&step| step < modes) {
        Some(step) => letter_lines(modes, rule, &rows, merging.merges(), step),
        None => format!("steps\t{modes}\n"),
    })
}

/// `weight` and the sum of chosen weights, then the nodes "in the order of TREE's lines".
fn assign_tree(rule: Rule, input: &[u8], tree: &[u8], heuristic: &str) -> Result<String, Refusal> {
    let nodes = read_nodes(tree)?;
    let (modes, terms) = read_input(input)?;
    let names = ["min_weight", "x_first", "z_first"];
    // "17 for another heuristic name"
    let number = names.iter().position(|&name| name == heuristic);
    let number = number.unwrap_or(names.len());
    let mut work = vec![0; work_room(&terms)];
    let mut table = vec![0; 3 * modes];
    let given = lay_out(&nodes);
    let weight = assign(
        modes,
        rule as usize,
        &given,
        number,
        &terms,
        &mut work,
        &mut table,
    )?;
    let assigned = nodes.iter().map(|&[label, ..]| {
        let first = 3 * usize::from(label);
        [label, table[first], table[first + 1], table[first + 2]]
    });
    let assigned: Vec<[u16; 4]> = assigned.collect();
    Ok(print_weight(weight) + &node_lines(assigned.as_flattened()))
}

fn weigh_tree(input: &[u8], tree: &[u8]) -> Result<String, Refusal> {
    let nodes = read_nodes(tree)?;
    let (modes, terms) = read_input(input)?;
    tree_weight(modes, &lay_out(&nodes), &terms).map(print_weight)
}

/// "nothing, or the refusal": a tree by itself has as many modes as nodes.
fn check_nodes(tree: &[u8]) -> Result<String, Refusal> {
    let nodes = read_nodes(tree)?;
    check_tree(nodes.len(), &lay_out(&nodes)).map(|()| String::new())
}

/// The strings of a tree by itself, which has as many modes as nodes.
fn strings_of_nodes(tree: &[u8]) -> Result<String, Refusal> {
    let nodes = read_nodes(tree)?;
    strings(nodes.len(), &lay_out(&nodes))
}

fn print_weight(weight: u64) -> String {
    format!("weight\t{weight}\n")
}

/// The nodes of TREE, or 18 "at the line of TREE".
fn read_nodes(tree: &[u8]) -> Result<Vec<[u16; 4]>, Refusal> {
    // "an empty TREE is 18 at line 0"
    demand(!tree.is_empty(), 18, 0)?;
    let mut nodes = Vec::new();
    let lines = tree.split_inclusive(|&byte| byte == LINE_FEED);
    for (line, text) in lines.enumerate() {
        // "a last line without LF, a 257th node line are 18 at their line"
        demand(text.ends_with(&[LINE_FEED]) && line < MOST_MODES, 18, line)?;
        nodes.push(read_node(text).ok_or(Refusal {
            number: 18,
            place: line,
        })?);
    }
    Ok(nodes)
}

/// "`node` lines as `hatt` prints them": "label, X, Y, Z codes".
fn read_node(line: &[u8]) -> Option<[u16; 4]> {
    let fields = fields(line);
    let [word, label, x, y, z] = fields[..] else {
        return None;
    };
    let codes = [
        read_below(label)?,
        read_code(x)?,
        read_code(y)?,
        read_code(z)?,
    ];
    (word == b"node").then_some(codes)
}

/// "A child's code is `-` or a number below 65535".
fn read_code(field: &[u8]) -> Option<u16> {
    if field == b"-" {
        return Some(ABSENT);
    }
    read_below(field)
}

/// "a label a number below 65535".
fn read_below(field: &[u8]) -> Option<u16> {
    read_number(field).filter(|&number| number < ABSENT)
}

/// "The tree table gives X, Y, Z of node 0..n-1, three codes a node", wherever a node's line stands.
/// A node without a line has no child, so that a label which is missing, doubled or no node's leaves
/// more than "one absent child".
fn lay_out(nodes: &[[u16; 4]]) -> Vec<u16> {
    let mut table = vec![ABSENT; 3 * nodes.len()];
    for [label, children @ ..] in nodes {
        let first = 3 * usize::from(*label);
        if let Some(place) = table.get_mut(first..first + 3) {
            place.copy_from_slice(children);
        }
    }
    table
}
