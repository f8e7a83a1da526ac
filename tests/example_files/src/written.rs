//! The files of an example, as they are made and as they stand in examples/.

use std::path::PathBuf;

/// Each file's name and bytes.
pub type Files = Vec<(&'static str, Vec<u8>)>;

/// An example by the name of its folder.
#[derive(Clone, Copy)]
pub struct Example(pub &'static str);

impl Example {
    fn path(self, name: &str) -> PathBuf {
        let Example(folder) = self;
        PathBuf::from(env!("CARGO_MANIFEST_DIR")).join("../../examples").join(folder).join(name)
    }

    pub fn write(self, files: Files) -> std::io::Result<()> {
        files.into_iter().try_for_each(|(name, bytes)| std::fs::write(self.path(name), bytes))
    }

    /// A file, as it stands there.
    pub fn file(self, name: &str) -> Vec<u8> {
        let path = self.path(name);
        std::fs::read(&path).unwrap_or_else(|error| panic!("{}: {error}", path.display()))
    }

    pub fn text(self, name: &str) -> String {
        String::from_utf8(self.file(name)).expect("text")
    }

    /// The files are as they are made.
    pub fn assert_made(self, files: Files) {
        for (name, bytes) in files {
            let made = self.file(name) == bytes;
            assert!(made, "{name}: 'cargo run -p example_files' in tests/ writes it");
        }
    }
}

/// Four bytes a word, low byte first.
pub fn bytes(words: &[u32]) -> Vec<u8> {
    words.iter().flat_map(|word| word.to_le_bytes()).collect()
}
