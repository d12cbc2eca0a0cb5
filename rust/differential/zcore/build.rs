//! Lays the original sources and the stand-ins of `beside/` into one module
//! tree under target/. Originals go in byte for byte. ipc/socket.rs goes in
//! twice: as it is, and with its constant capacity as a function of the pair's
//! capacity.

use std::path::{Path, PathBuf};
use std::{env, fs};

/// The original's sockets.
const SOCKET: &str = "zircon-object/src/ipc/socket.rs";

/// (place under the source folder, place in the module tree)
const ORIGINALS: [(&str, &str); 10] = [
    ("zircon-object/src/error.rs", "error.rs"),
    ("zircon-object/src/object/mod.rs", "object/mod.rs"),
    ("zircon-object/src/object/signal.rs", "object/signal.rs"),
    ("zircon-object/src/object/handle.rs", "object/handle.rs"),
    (SOCKET, "untouched/socket.rs"),
    ("zircon-object/src/signal/port.rs", "signal/port.rs"),
    ("zircon-object/src/signal/port_packet.rs", "signal/port_packet.rs"),
    ("zircon-object/src/task/process.rs", "task/process.rs"),
    ("zircon-syscall/src/socket.rs", "syscall/socket.rs"),
    ("zircon-syscall/src/user_memory.rs", "user_memory.rs"),
];

/// The original object/mod.rs wants these files beside it.
const BESIDE: [&str; 3] = ["object/clock.rs", "object/counter.rs", "object/rights.rs"];

/// Where `src/` looks for the tree. It is not OUT_DIR, because a module's path
/// has to be written out and the originals do not compile through `include!`
/// (a glob import in object/mod.rs would be ambiguous).
const TREE: &str = "../target/zcore";

/// The constant that holds the capacity, its declaration, and how often its
/// name stands in the file, the declaration included.
const CONSTANT: &str = "SOCKET_SIZE";
const DECLARATION: &str = "const SOCKET_SIZE: usize = 128 * 2048;";
const PLACES: usize = 13;

fn main() {
    println!("cargo:rerun-if-env-changed=ZCORE_SRC");
    let source = source_folder();
    let tree = Path::new(TREE);
    for (from, to) in ORIGINALS {
        lay(tree, to, &read(&source.join(from)));
    }
    for name in BESIDE {
        lay(tree, name, &read(&Path::new("beside").join(name)));
    }
    let socket = read(&source.join(SOCKET));
    lay(tree, "ipc/socket.rs", &with_capacity_as_function(&socket));
}

/// The folder given in ZCORE_SRC, else shared/docs/src beside the checkout.
fn source_folder() -> PathBuf {
    let given = env::var("ZCORE_SRC").ok().filter(|path| !path.is_empty());
    let folder = match given {
        Some(path) => PathBuf::from(path),
        None => Path::new("../../../../shared/docs/src").to_path_buf(),
    };
    assert!(
        folder.is_dir(),
        "no sources of zCore at {}: set ZCORE_SRC to the folder with zircon-object and zircon-syscall",
        folder.display()
    );
    folder
}

fn read(path: &Path) -> String {
    println!("cargo:rerun-if-changed={}", path.display());
    fs::read_to_string(path).unwrap_or_else(|error| panic!("{}: {error}", path.display()))
}

fn lay(tree: &Path, name: &str, text: &str) {
    let path = tree.join(name);
    fs::create_dir_all(path.parent().unwrap()).unwrap();
    fs::write(path, text).unwrap();
}

fn with_capacity_as_function(socket: &str) -> String {
    let places = socket.matches(CONSTANT).count();
    assert_eq!(places, PLACES, "{CONSTANT} stands {places} times in ipc/socket.rs");
    assert_eq!(socket.matches(DECLARATION).count(), 1, "no line `{DECLARATION}`");
    socket.replace(DECLARATION, "use crate::capacity::socket_size;").replace(CONSTANT, "socket_size()")
}
