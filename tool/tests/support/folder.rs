//! A folder of its own for the files of one test.

use mizzengrape_tool::command::{call, Output};
use std::fs;
use std::path::PathBuf;

pub struct Folder(pub PathBuf);

impl Folder {
    pub fn new(name: &str) -> Folder {
        let path = std::env::temp_dir().join(format!("mizzengrape-{name}-{}", std::process::id()));
        fs::create_dir_all(&path).expect("a folder");
        Folder(path)
    }

    pub fn path(&self, name: &str) -> String {
        self.0.join(name).to_string_lossy().into_owned()
    }

    pub fn write(&self, name: &str, content: impl AsRef<[u8]>) -> String {
        fs::write(self.path(name), content).expect("a file");
        self.path(name)
    }

    /// A command over files of the folder; its name is taken out of what is printed.
    pub fn command(&self, arguments: &[&str]) -> Output {
        let arguments: Vec<String> = arguments.iter().map(|argument| argument.to_string()).collect();
        let prefix = format!("{}/", self.0.to_string_lossy());
        let Output { err, out, end, status, color } = call(&arguments);
        let [err, out, end] = [err, out, end].map(|text| text.replace(&prefix, ""));
        Output { err, out, end, status, color }
    }

    /// A command over a routine and an image.
    #[allow(dead_code)] // not every test has both
    pub fn call(&self, command: &[&str], routine: &str, image: &str) -> Output {
        let files = [self.write("routine.c", routine), self.write("image", image)];
        let files: Vec<&str> = files.iter().map(String::as_str).collect();
        self.command(&[command, &files[..]].concat())
    }
}

impl Drop for Folder {
    fn drop(&mut self) {
        let _ = fs::remove_dir_all(&self.0);
    }
}
