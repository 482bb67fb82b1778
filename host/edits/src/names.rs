//! The names of goals and facts follow the words of the conditions in the code, and an edit of a
//! condition changes them: an answer that has an old one is refused whatever the edit means. So such
//! a proof is tried under the new names, each old name as each of them.

use std::collections::BTreeSet;

use crate::log::Whole;
use crate::source::Source;

/// What stands before the words of a condition.
const BEFORE: [&str; 7] = [
    "if-",
    "returns-then-",
    "returns-else-",
    "then-",
    "else-",
    "Then-",
    "Else-",
];

/// The crate with the new names in a function's answers, once for each way to give them, where a
/// check says that these have names that are gone.
pub fn renamed(path: &str, answers: &str, edited: &Source, log: &Whole) -> Vec<Source> {
    let Some(text) = edited.text(answers) else {
        return Vec::new();
    };
    let (gone, there) = log.names(path, answers);
    let (had, there) = (conditions(text), conditions(&there));
    let gone = conditions(&gone);
    let gone: Vec<&str> = gone.difference(&there).copied().collect();
    let new: Vec<&str> = there.difference(&had).copied().collect();
    if gone.is_empty() || gone.len() != new.len() || gone.len() > 3 {
        return Vec::new();
    }
    let ways = orders(&new).into_iter().map(|new| {
        let mut source = edited.clone();
        source.set(answers, exchanged(text, &gone, &new));
        source
    });
    ways.collect()
}

/// The words of the conditions that the names in a text have.
fn conditions(text: &str) -> BTreeSet<&str> {
    let names = text.split(|c: char| !in_name(c));
    names.filter_map(condition).collect()
}

/// The words of the condition that a name has.
fn condition(name: &str) -> Option<&str> {
    BEFORE.iter().find_map(|before| name.strip_prefix(before))
}

fn in_name(c: char) -> bool {
    c.is_alphanumeric() || c == '_' || c == '-'
}

/// A text in which each name has the new words for the old.
fn exchanged(text: &str, old: &[&str], new: &[&str]) -> String {
    let mut found = String::new();
    for piece in text.split_inclusive(|c: char| !in_name(c)) {
        let name = piece.trim_end_matches(|c: char| !in_name(c));
        let at = condition(name).and_then(|words| old.iter().position(|old| *old == words));
        match at {
            Some(at) => {
                let before = name.len() - old[at].len();
                found += &name[..before];
                found += new[at];
                found += &piece[name.len()..];
            }
            None => found += piece,
        }
    }
    found
}

/// Every order of some words.
fn orders<'a>(words: &[&'a str]) -> Vec<Vec<&'a str>> {
    if words.is_empty() {
        return vec![Vec::new()];
    }
    let mut found = Vec::new();
    for at in 0..words.len() {
        let mut rest = words.to_vec();
        let first = rest.remove(at);
        let more = orders(&rest).into_iter();
        found.extend(more.map(|more| [vec![first], more].concat()));
    }
    found
}

#[cfg(test)]
mod tests {
    use super::*;

    const PATH: &str = "float::order::total_cmp";
    const FILE: &str = "proofs/order/total_cmp/Answers.antt";
    const ANSWERS: &str = "pub returns-then-x-y : goal.returns-then-x-y\n\
        returns-then-x-y c = c.if-x-y.true\n\n\
        pub returns-then-minus_x-minus_y : goal.returns-then-minus_x-minus_y\n\n\
        pub returns : goal.returns\n\
        returns c = c.if-minus_x-minus_y.false c.if-minus_x-minus_y-2.false\n";

    /// As `rt check` printed it, cut short.
    const LOG: &str = "./proofs/order/total_cmp/Answers.antt:20:38: error: `returns-then-minus_x-minus_y-2`: `goal.returns-then-minus_x-minus_y-2`: module `Rattle.float.proofs.order.total_cmp.Goals` has no `returns-then-minus_x-minus_y-2` that can be named from here (names in it that begin alike: `returns-then-x-y`, `returns`)
./proofs/order/total_cmp/Answers.antt:34:6: error: `returns`: record `Rattle.float.proofs.order.total_cmp.Lts.Else4` has no field `if-minus_x-minus_y` (nearest: .if-minus_y, .if-minus_x, .if-x-y)
  the fields that can be named here are `before`, `if-minus_y`, `if-minus_x`, `is_negative-minus_y`, `if-x-y`, `args`
./proofs/order/max/Answers.antt:34:6: error: `returns`: record `Rattle.float.proofs.order.max.Lts.Else` has no field `if-z` (nearest: .if-w)
  the fields that can be named here are `if-w`
crate float: modules loaded=435 checked=53
logic=not-proved
";

    #[test]
    fn a_proof_is_tried_under_each_new_name() {
        let edited = Source::new("float", [(FILE.into(), ANSWERS.into())].into());
        let log = Whole::new("float", LOG.to_string()).unwrap();
        let ways = renamed(PATH, FILE, &edited, &log);
        let texts: Vec<&str> = ways.iter().filter_map(|way| way.text(FILE)).collect();
        assert_eq!(texts.len(), 2);
        assert!(texts[0].contains("goal.returns-then-minus_x\n"));
        assert!(texts[0].ends_with("= c.if-minus_x.false c.if-minus_y.false\n"));
        assert!(texts[1].ends_with("= c.if-minus_y.false c.if-minus_x.false\n"));
        assert!(texts.iter().all(|text| text.starts_with(&ANSWERS[..80])));
    }

    /// As `rt check` printed it, cut short.
    const JOIN: &str = "./proofs/push/Answers.antt:10:68: error: module `Rattle.page.proofs.push.Goals` has no `then-pen-count+else-all_close` that can be named from here (names in it that begin alike: `Then-points-count`)
struct page::Pen: proved
fn page::flush: not proved
help: `Goals` has no `returns-then-count-start-lt2`; rattle asks for `returns-then-count-start-lt1`, `returns-then-starts-lines`
fn page::push: not proved
help: `Goals` has no `then-pen-count+else-all_close`; its ways into a join: `then-pen-count+else-all_close-andfalse`, `else-pen-count`; a `use` line of it can name these places: `Then-all_close-andfalse`, `Then-pen-count` and 11 more
crate page: modules loaded=435 checked=53
logic=not-proved
";

    #[test]
    fn so_is_the_name_of_a_way_into_a_join() {
        let text = "use G.{Joined-pen-count, then-pen-count+else-all_close}\nfar w = w.if-all_close.false w.all_close\n";
        let file = "proofs/push/Answers.antt";
        let edited = Source::new("page", [(file.into(), text.into())].into());
        let log = Whole::new("page", JOIN.to_string()).unwrap();
        let ways = renamed("page::push", file, &edited, &log);
        let texts: Vec<&str> = ways.iter().filter_map(|way| way.text(file)).collect();
        let new = "use G.{Joined-pen-count, then-pen-count+else-all_close-andfalse}\nfar w = w.if-all_close-andfalse.false w.all_close\n";
        assert_eq!(texts, [new]);
    }

    #[test]
    fn and_not_where_no_name_is_gone() {
        let edited = Source::new("float", [(FILE.into(), ANSWERS.into())].into());
        let text = "crate float: modules loaded=435\nlogic=not-proved\n".to_string();
        let log = Whole::new("float", text).unwrap();
        assert!(renamed(PATH, FILE, &edited, &log).is_empty());
        assert!(renamed(PATH, "proofs/none/Answers.antt", &edited, &log).is_empty());
    }
}
