//! Inputs and answers as text for a reader.

use crate::cases::{Call, Case, Direction, Edit, History, Lent, Pair, Renumbering, WalkCase};

/// Words in hexadecimal; of many words, those that are not 0.
pub fn words(words: &[u64]) -> String {
    if words.len() <= 8 {
        let shown: Vec<String> = words.iter().map(|word| format!("{word:#x}")).collect();
        return format!("[{}]", shown.join(", "));
    }
    let shown: Vec<String> = words.iter().enumerate().filter(|(_, word)| **word != 0).map(|(k, word)| format!("{k}: {word:#x}")).take(12).collect();
    format!("[{} words, not 0: {}]", words.len(), shown.join(", "))
}

/// Numbers in decimal.
pub fn numbers(numbers: &[u64]) -> String {
    let shown: Vec<String> = numbers.iter().take(40).map(|n| if *n == u64::MAX { "none".into() } else { n.to_string() }).collect();
    format!("[{}]", shown.join(", "))
}

/// Each of a list; of many, the first.
fn list<T>(list: &[T], each: impl Fn(&T) -> String) -> String {
    let shown: Vec<String> = list.iter().take(40).map(each).collect();
    let more = if list.len() > shown.len() { format!(", .., {} in all", list.len()) } else { String::new() };
    format!("[{}{more}]", shown.join(", "))
}

fn positions(positions: &[u64]) -> String {
    list(positions, u64::to_string)
}

fn pairs(pairs: &[Pair]) -> String {
    list(pairs, |pair| format!("{} to {}", pair.old, pair.new))
}

pub fn answers(answers: &[Option<usize>]) -> String {
    let shown: Vec<String> = answers.iter().take(40).map(|answer| answer.map_or("none".into(), |p| p.to_string())).collect();
    format!("[{}]", shown.join(", "))
}

fn lent(name: &str, lent: &Lent) -> String {
    format!("{name}: length {}, words {}", lent.length, words(&lent.words))
}

pub fn case(case: &Case) -> String {
    let second = if case.call == Call::InsertAll { format!("positions: {}", positions(&case.b.words)) } else { lent("b", &case.b) };
    format!("{:?}\n  {}\n  {second}\n  out: {}", case.call, lent("a", &case.a), words(&case.out))
}

pub fn renumbering(case: &Renumbering) -> String {
    let call = match case.direction {
        Direction::Forward => "renumber",
        Direction::Back => "renumber_back",
        Direction::ForwardAndBack => "renumber_and_back",
    };
    let buffers = format!("out: {}\n  again: {}", words(&case.out), words(&case.again));
    format!("{call}, new length {}\n  pairs: {}\n  {}\n  {buffers}", case.bits, pairs(&case.pairs), lent("set", &case.set))
}

pub fn walk(case: &WalkCase) -> String {
    let steps: Vec<String> = case.steps.iter().map(|step| format!("{step:?}").to_lowercase()).collect();
    format!("{:?}, steps {}\n  {}\n  {}", case.walk, steps.join(" "), lent("a", &case.a), lent("b", &case.b))
}

fn call(edit: Edit) -> String {
    match edit {
        Edit::InsertAll(list) => format!("InsertAll({})", positions(list)),
        edit => format!("{edit:?}"),
    }
}

pub fn history(history: &History) -> String {
    let mut text = format!(
        "history: A of {} bits in words {}, B of {} bits in words {}\n",
        history.a_bits,
        words(&history.a_words),
        history.b_bits,
        words(&history.b_words)
    );
    for five in history.calls.chunks(5) {
        match (five[0], Edit::of_five(&history.positions, five)) {
            (0, Some(edit)) => text.push_str(&format!("  A: {}\n", call(edit))),
            (1, Some(edit)) => text.push_str(&format!("  B: {}\n", call(edit))),
            _ => text.push_str(&format!("  no call: {five:?}\n")),
        }
    }
    if !history.positions.is_empty() {
        text.push_str(&format!("  positions {}\n", positions(&history.positions)));
    }
    text.push_str(&format!("  walk {}, steps {:?}, room for {} answers", history.walk, history.steps, history.out.len()));
    text
}
