//! Texts to time.
use peer::LANDED;

/// Scripts that run for more steps than are timed: integers, arrays, sets, calls with arguments (`texts/calls.lua` is Lua's peer of the last).
pub const LOOPS: [(&str, &[u8]); 4] = [
    ("loops: integers", include_bytes!("../texts/loops.txt")),
    ("sieve: arrays", include_bytes!("../texts/sieve.txt")),
    ("sets", include_bytes!("../texts/sets.txt")),
    ("calls: arguments", include_bytes!("../texts/calls.txt")),
];

/// A loop that copies a record of 16 fields and an array of 256 elements: in its four steps a round 272 cells.
pub const COPIES: &[u8] = include_bytes!("../texts/copies.txt");

/// The examples of the repository.
pub fn examples() -> Vec<Vec<u8>> {
    let folder = concat!(env!("CARGO_MANIFEST_DIR"), "/../../../examples");
    let entries = std::fs::read_dir(folder).expect("the folder examples");
    let scripts = entries.map(|entry| entry.expect("a file").path()).filter(|path| path.extension().is_some_and(|e| e == "txt"));
    scripts.map(|path| std::fs::read(path).expect("a script")).collect()
}

/// So many generated texts that the peer accepts, or refuses.
pub fn generated(count: usize, accepted: bool) -> Vec<Vec<u8>> {
    let texts = (0..).map(|seed| peer::gen::text(LANDED, seed));
    texts.filter(|text| peer::verdict(LANDED, text, drive::WORK).is_ok() == accepted).take(count).collect()
}

/// A text of nearly 32,768 bytes and 4,096 nodes.
pub fn full() -> Vec<u8> {
    let name = "v_123456789_123456789";
    let part = format!(" (:= {name} (+ 1 {name}))");
    format!("(var {name} integer)\n(main{}{})\n", part.repeat(484), " (raise 1)".repeat(73)).into_bytes()
}

/// So many enum names in types of 256, each used as a label.
pub fn enum_names(count: usize) -> Vec<u8> {
    let (mut lines, mut cases) = (String::new(), String::new());
    for start in (0..count).step_by(256) {
        let names: Vec<String> = (start..count.min(start + 256)).map(|i| format!("n{i}")).collect();
        let names = names.join(" ");
        lines += &format!("(type t{start} (enum {names}))\n(var v{start} t{start})\n");
        cases += &format!(" (case v{start} (arm {names} (begin)))");
    }
    format!("{lines}(main{cases})\n").into_bytes()
}

/// A loop whose rounds pass a part of some 4,000 nodes, which is not done.
pub fn passing() -> Vec<u8> {
    let part = " (:= a (+ a 1))".repeat(580);
    format!("(var a integer)\n(main (while true (if false (begin{part}))))\n").into_bytes()
}

/// A loop whose rounds make a set of the first of so many enum names, named as often.
pub fn first_name(count: usize) -> Vec<u8> {
    let name = |i: usize| format!("n{i:06}");
    let types = (1..count).step_by(256).map(|start| {
        let names: Vec<String> = (start..count.min(start + 256)).map(name).collect();
        format!("(type t{start} (enum {}))\n", names.join(" "))
    });
    let first = name(0);
    let lines = format!("(type t (enum {first}))\n(type s (setof t))\n(var v s)\n") + &types.collect::<String>();
    let parts = format!(" {first}").repeat(count);
    format!("{lines}(main (while true (:= v (members s{parts}))))\n").into_bytes()
}

/// So many enum names of several types, all labels of one case; only the marking machine takes it.
pub fn mixed_labels(count: usize) -> Vec<u8> {
    let names: Vec<String> = (0..count).map(|i| format!("n{i}")).collect();
    let types = names.chunks(256).enumerate().map(|(i, names)| format!("(type t{i} (enum {}))\n", names.join(" ")));
    format!("{}(main (case 1 (arm {} (begin))))\n", types.collect::<String>(), names.join(" ")).into_bytes()
}
