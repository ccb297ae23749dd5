//! What a terminal is shown: colours where they are wanted, help pages that fit.

#[path = "support/folder.rs"]
mod folder;

use folder::Folder;

#[test]
fn colours_are_put_where_they_are_wanted() {
    let folder = Folder::new("color");
    let file =
        folder.write("r.c", "void f(array_ptr<unsigned> p : count(n), unsigned n)\n{\n    n = n - 1;\n}\n");
    let said = |more: &[&str], is_terminal| {
        folder.command(&[&["check", &file], more].concat()).shown(is_terminal).err
    };
    let plain = said(&[], false);
    assert!(plain.contains(": error: refused 8: ") && !plain.contains('\u{1b}'), "{plain}");
    let always = said(&["--color", "always"], false);
    assert!(always.contains("\u{1b}[1;31merror:\u{1b}[0m refused 8: "), "{always}");
    assert!(always.contains("\n    \u{1b}[1;32m^\u{1b}[0m\n"), "{always}");
    assert!(
        always.contains("\n\u{1b}[1;34mnote:\u{1b}[0m known here: ")
            && always.contains("\n\u{1b}[1;32mhelp:\u{1b}[0m "),
        "{always}"
    );
    let unmarked = ["\u{1b}[0m", "\u{1b}[1;31m", "\u{1b}[1;32m", "\u{1b}[1;34m"];
    assert_eq!(unmarked.iter().fold(always.clone(), |text, mark| text.replace(mark, "")), plain);
    assert_eq!(said(&["--color=never"], true), plain);
    // Where NO_COLOR is not set a terminal has colours.
    if std::env::var_os("NO_COLOR").is_none() {
        assert_eq!(said(&["--color=auto"], true), always);
    }
    let wrong = folder.command(&["check", "--color", "green", &file]);
    assert_eq!((wrong.err.as_str(), wrong.status), ("error: --color wants auto, always or never\n", 2));
}

#[test]
fn help_pages_fit_a_terminal() {
    let folder = Folder::new("help");
    let help = folder.command(&["--help"]).out;
    let commands = help
        .lines()
        .filter_map(|line| line.strip_prefix("    mizzengrape "))
        .map(|line| line.split(' ').next().unwrap());
    let mut pages = vec![help.clone()];
    pages.extend(commands.map(|command| folder.command(&[command, "--help"]).out));
    assert!(pages.len() > 8);
    for page in pages {
        assert!(page.starts_with("mizzengrape"), "{page}");
        for line in page.lines() {
            assert!(line.chars().count() <= 80, "{line}");
        }
    }
}
