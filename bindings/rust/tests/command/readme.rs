//! The commands of README.md.

use crate::Folder;

#[test]
fn the_commands_of_the_readme() {
    let folder = Folder::new("readme");
    let lines = |line: fn(usize) -> String| (1..=384).map(line).collect::<String>();
    let head = "%%MatrixMarket matrix coordinate real general\n384 384 384\n";
    folder.write(
        "FACTOR.mtx",
        head.to_string() + &lines(|cell| format!("{cell} {cell} 2\n")),
    );
    folder.write(
        "Q.mtx",
        head.replace("general", "symmetric") + &lines(|cell| format!("{cell} {cell} 4\n")),
    );
    folder.write("ORDER.txt", lines(|cell| format!("{}\n", 385 - cell)));
    folder.write("CELLS.txt", "1 1\n2 1\n");
    let readme = include_str!("../../README.md");
    let (_, section) = readme.split_once("\n## The command\n").unwrap();
    let (section, _) = section.split_once("\n## ").unwrap();
    let rows = section.lines().filter_map(|line| line.strip_prefix("| `"));
    let commands = rows.filter_map(|row| row.split_once('`').map(|(command, _)| command));
    let commands = commands.collect::<Vec<_>>();
    assert_eq!(commands.len(), 4);
    for command in commands {
        // Q is factorised where the command is built with CHOLMOD.
        if command.starts_with("--precision") && !cfg!(cholmod) {
            continue;
        }
        folder.prints(&command.split(' ').collect::<Vec<_>>());
    }
    assert!(folder.read("map.html").contains("384 of 384 cells computed"));
    assert_eq!(
        folder.read("COVARIANCES.mtx"),
        "%%MatrixMarket matrix coordinate real symmetric\n384 384 2\n1 1 0.25\n2 1 -0.0\n"
    );
    // A refusal that it has.
    let head = "%%MatrixMarket matrix coordinate real general\n4 4 5\n";
    let diagonal = (1..=4).map(|cell| format!("{cell} {cell} 2\n")).collect::<String>();
    folder.write("FACTOR.mtx", head.to_string() + &diagonal + "3 2 NaN\n");
    let message = folder.fails(&["FACTOR.mtx"], 28);
    assert!(section.contains(&format!("`{message}`")), "{message}");
}
