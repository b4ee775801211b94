//! Writes the files of the example season into the folder that is named.

use herd_testing::season;
use std::env;
use std::path::PathBuf;

fn main() -> std::io::Result<()> {
    let folder = env::args_os().nth(1).map(PathBuf::from);
    season::write(&folder.expect("the name of a folder"))
}
