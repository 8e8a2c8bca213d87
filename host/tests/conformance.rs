//! The conformance pack: that it is what the oracle writes, and that the library gives every list its answers.

use std::fs;
use std::path::Path;
use std::sync::LazyLock;

use vizturel::conformance::{List, STORES, Shelf, lists, text};
use vizturel::differential::library::Library;

static LISTS: LazyLock<Vec<List>> = LazyLock::new(lists::all);

fn pack(list: &List, extension: &str) -> String {
    let folder = Path::new(env!("CARGO_MANIFEST_DIR")).join("../conformance").join(list.shelf.folder());
    let path = folder.join(list.name).with_extension(extension);
    fs::read_to_string(&path).unwrap_or_else(|why| panic!("{}: {why}", path.display()))
}

#[test]
fn the_lists_are_the_oracles() {
    for list in &*LISTS {
        let name = Path::new(list.shelf.folder()).join(list.name);
        assert!(pack(list, "calls") == list.calls, "{}.calls: 'make conformance' writes others", name.display());
        assert!(pack(list, "answers") == list.answers, "{}.answers: 'make conformance' writes others", name.display());
    }
}

#[test]
fn the_library_answers_every_list() {
    let mut count = 0;
    for list in &*LISTS {
        let (calls, answers) = (pack(list, "calls"), pack(list, "answers"));
        let name = Path::new(list.shelf.folder()).join(list.name);
        assert_eq!(calls.lines().count(), answers.lines().count(), "{}", name.display());
        let mut library = Library { stores: vec![Vec::new(); STORES] };
        let mut asked = calls.lines();
        let mut right = answers.lines();
        let mut line = 1;
        while asked.clone().next().is_some() {
            let rest = asked.clone();
            let at = format!("{}.calls, line {line}: {:?}", name.display(), rest.clone().next());
            let call = text::read(&mut asked).unwrap_or_else(|| panic!("{at}"));
            let lines = rest.clone().count() - asked.clone().count();
            // A pattern is not found again in what it stands for.
            if list.shelf != Shelf::Large {
                assert_eq!(text::write(&call), rest.take(lines).collect::<Vec<_>>().join("\n"), "{at}");
            }
            let due = right.by_ref().take(lines).collect::<Vec<_>>().join("\n");
            let refused = due.starts_with("refused");
            let before = if refused { library.stores.clone() } else { Vec::new() };
            let answer = text::keep(&call, &library.answer(&call));
            assert_eq!(answer, due, "{at}");
            assert!(!refused || library.stores == before, "{at}: refused, and changed words");
            line += lines;
        }
        count += line - 1;
    }
    assert!(count > 30_000, "only {count} lines");
}
