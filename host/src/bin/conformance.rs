//! Writes the lists of the conformance pack, each as NAME.calls and NAME.answers, into the folder that is given and its folders.

use std::path::{Path, PathBuf};
use std::process::ExitCode;
use std::{env, fs, io};

use vizturel::conformance::{List, lists};

fn put(folder: &Path, list: &List) -> io::Result<()> {
    let folder = folder.join(list.shelf.folder());
    fs::create_dir_all(&folder)?;
    fs::write(folder.join(list.name).with_extension("calls"), &list.calls)?;
    fs::write(folder.join(list.name).with_extension("answers"), &list.answers)
}

fn main() -> ExitCode {
    let Some(folder) = env::args_os().nth(1).map(PathBuf::from) else {
        eprintln!("usage: conformance FOLDER");
        return ExitCode::from(2);
    };
    for list in lists::all() {
        if let Err(why) = put(&folder, &list) {
            eprintln!("{}: {why}", folder.display());
            return ExitCode::FAILURE;
        }
        let path = Path::new(list.shelf.folder()).join(list.name);
        println!("{}: {} lines", path.display(), list.calls.lines().count());
    }
    ExitCode::SUCCESS
}
