//! The case files with answers: VECTORS names the directory with `reckon` and `play`.
use std::path::Path;

fn agree(kind: &str, cases: usize, answer: fn(&[u8]) -> String) {
    let root = std::env::var("VECTORS").expect("VECTORS names the directory of the case files");
    let mut met = 0;
    for entry in std::fs::read_dir(Path::new(&root).join(kind)).unwrap() {
        let file = entry.unwrap().path();
        if file.extension().is_some_and(|end| end == "in") {
            let text = answer(&std::fs::read(&file).unwrap());
            assert_eq!(text, std::fs::read_to_string(file.with_extension("out")).unwrap(), "{}", file.display());
            met += 1;
        }
    }
    println!("{kind}: {met} cases agree");
    assert!(met >= cases);
}

#[test]
#[ignore = "needs VECTORS"]
fn reckon() {
    agree("reckon", 120, plain::reckon_text);
}

#[test]
#[ignore = "needs VECTORS"]
fn play() {
    agree("play", 72, plain::play_text);
}

/// The case files of crates/cases: the plain Rust prints for each what the crate's expected text has.
#[test]
fn cases() {
    let root = Path::new(env!("CARGO_MANIFEST_DIR")).join("../crates/cases");
    let names = std::fs::read_to_string(root.join("args")).unwrap();
    let expected = std::fs::read_to_string(root.join("stdout")).unwrap();
    let mut text = String::new();
    for name in names.lines() {
        let bytes = std::fs::read(root.join("data").join(name)).unwrap();
        let answer = if name.starts_with("play/") { plain::play_text(&bytes) } else { plain::reckon_text(&bytes) };
        text.push_str(&format!("{name}\n{answer}"));
    }
    assert!(names.lines().count() >= 192);
    assert_eq!(text, expected);
}
