//! The built listing program on folders of files, compared with the reference
//! implementation byte for byte.

use std::fs;
use std::path::PathBuf;
use std::process::{Command, Stdio};
use std::sync::atomic::{AtomicU64, Ordering};

use crate::compare::Counts;
use crate::programs::program;

const FILE: &str = "listing_main";

/// The numbers of a refusal's line.
const REFUSAL_NUMBERS: usize = 5;

/// What listings were.
#[derive(Clone, Debug, Default)]
pub struct Listings {
    pub accepted: u64,
    pub refused: u64,
    /// The accepted ones that had no line.
    pub empty: u64,
    /// How many lines had so many goals above.
    depths: Counts,
    /// How often each number was told.
    pub refusals: Counts,
}

impl Listings {
    pub fn add(&mut self, other: &Listings) {
        self.accepted += other.accepted;
        self.refused += other.refused;
        self.empty += other.empty;
        self.depths.add(&other.depths);
        self.refusals.add(&other.refusals);
    }

    /// How many lines had so many goals above, or more.
    pub fn deeper(&self, least: u32) -> u64 {
        let depths = self.depths.numbers().filter(|&depth| depth >= least);
        depths.map(|depth| self.depths.of(depth)).sum()
    }

    /// How many lines had just so many goals above.
    pub fn deep(&self, depth: u32) -> u64 {
        self.depths.of(depth)
    }

    pub fn print(&self) {
        println!(
            "listings: {} accepted, {} of them empty, {} refused",
            self.accepted, self.empty, self.refused
        );
        println!("lines by goals above: {:?}", self.depths);
        println!("refusals: {:?}", self.refusals);
    }

    fn count(&mut self, text: &str) {
        let first = text.lines().next().unwrap_or("");
        if first.split(' ').count() == REFUSAL_NUMBERS && !first.starts_with(' ') {
            let number = first.split(' ').next().and_then(|word| word.parse().ok());
            self.refusals.count(number.expect("a number"), 1);
            self.refused += 1;
            return;
        }
        self.accepted += 1;
        self.empty += u64::from(text.is_empty());
        for line in text.lines() {
            let blanks = line.len() - line.trim_start_matches(' ').len();
            self.depths.count(blanks as u32 / 2, 1);
        }
    }
}

/// The bytes of the three files; one that has none may be missing.
#[derive(Clone, Debug, Default)]
pub struct Files {
    pub shop: Vec<u8>,
    pub order: Vec<u8>,
    pub trace: Vec<u8>,
    /// Files without bytes are not there.
    pub missing: bool,
}

impl Files {
    pub fn of_words(shop: &[u16], order: &[u16], trace: &[u16]) -> Files {
        let bytes = |words: &[u16]| words.iter().flat_map(|word| word.to_le_bytes()).collect();
        Files {
            shop: bytes(shop),
            order: bytes(order),
            trace: bytes(trace),
            missing: false,
        }
    }

    pub fn each(&mut self) -> [&mut Vec<u8>; 3] {
        [&mut self.shop, &mut self.order, &mut self.trace]
    }
}

/// A folder with files, which goes away with it.
struct Folder(PathBuf);

impl Folder {
    fn new(files: &Files) -> Folder {
        static NEXT: AtomicU64 = AtomicU64::new(0);
        let number = NEXT.fetch_add(1, Ordering::Relaxed);
        let name = format!("liropuva-listing-{}-{number}", std::process::id());
        let folder = Folder(std::env::temp_dir().join(name));
        fs::create_dir(&folder.0).expect("a new folder");
        let named = [
            ("shop", &files.shop),
            ("order", &files.order),
            ("trace", &files.trace),
        ];
        for (name, bytes) in named {
            if !(files.missing && bytes.is_empty()) {
                fs::write(folder.0.join(name), bytes).expect("a new file");
            }
        }
        folder
    }
}

impl Drop for Folder {
    fn drop(&mut self) {
        // What is left behind, where it can't go away, harms no case.
        let _ = fs::remove_dir_all(&self.0);
    }
}

/// Runs the program on the files: it prints what the reference implementation says,
/// and nothing on standard error. Gives the text.
pub fn compare(listings: &mut Listings, files: &Files) -> String {
    let folder = Folder::new(files);
    let mut command = Command::new(program(FILE));
    command.current_dir(&folder.0).stdin(Stdio::null());
    let output = command.output().expect("the program runs");
    let wanted = reference::printed_listing(&files.shop, &files.order, &files.trace);
    let said = String::from_utf8_lossy(&output.stderr);
    assert_eq!(said, "", "standard error is empty\n{files:?}");
    assert!(output.status.success(), "{}\n{files:?}", output.status);
    if output.stdout != wanted {
        let [printed, wanted] = [&output.stdout, &wanted].map(|text| String::from_utf8_lossy(text));
        panic!("printed:\n{printed}\nwanted:\n{wanted}\n{files:?}");
    }
    let text = String::from_utf8(wanted).expect("digits and blanks");
    listings.count(&text);
    text
}
