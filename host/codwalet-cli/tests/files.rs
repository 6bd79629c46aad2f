//! Files are written whole or left as they were, and told apart by what they are and not by their names.

mod common;

use codwalet_cli::files::{Identity, write};
use common::{empty_folder, files_in, folder_with};
use std::fs::{self, Permissions};
use std::os::unix::fs::{PermissionsExt, symlink};

#[test]
fn files_are_made_and_replaced() {
    let folder = folder_with("files-written", &[("old", b"longer than what follows")]);
    fs::set_permissions(folder.join("old"), Permissions::from_mode(0o640)).expect("the file's permissions are set");
    for name in ["old", "new"] {
        write(&folder.join(name), b"text").expect("the file is written");
        assert_eq!(fs::read(folder.join(name)).expect("the file is read"), b"text");
    }
    let mode = fs::metadata(folder.join("old")).expect("the file is there").permissions().mode();
    assert_eq!((mode & 0o777, files_in(&folder)), (0o640, vec!["new".to_string(), "old".to_string()]));
}

#[test]
fn a_file_that_is_open_keeps_what_it_had() {
    let folder = folder_with("files-open", &[("it", b"before")]);
    let open = fs::File::open(folder.join("it")).expect("the file is opened");
    write(&folder.join("it"), b"after").expect("the file is written");
    assert_eq!(std::io::read_to_string(open).expect("the file is read"), "before");
    assert_eq!(fs::read(folder.join("it")).expect("the file is read"), b"after");
}

#[test]
fn links_are_written_through() {
    let folder = folder_with("files-links", &[("it", b"before")]);
    for (link, target) in [("link", "it"), ("second", "link"), ("dangling", "other")] {
        symlink(target, folder.join(link)).expect("a link is made");
    }
    for (link, file) in [("link", "it"), ("second", "it"), ("dangling", "other")] {
        write(&folder.join(link), link.as_bytes()).expect("the file is written");
        assert_eq!(fs::read(folder.join(file)).expect("the file is read"), link.as_bytes());
        assert!(fs::symlink_metadata(folder.join(link)).is_ok_and(|found| found.is_symlink()), "{link}");
    }
}

#[test]
fn what_is_no_plain_file_is_written_into() {
    write("/dev/null".as_ref(), b"text").expect("the device is written");
    assert!(fs::metadata("/dev/null").is_ok_and(|found| !found.is_file()));
}

#[test]
fn a_failure_leaves_nothing_behind() {
    let folder = empty_folder("files-failed");
    fs::create_dir(folder.join("sub")).expect("a folder is made");
    symlink("loop", folder.join("loop")).expect("a link is made");
    for name in ["sub", "sub/", "none/it", "it/", "loop"] {
        assert!(write(&folder.join(name), b"text").is_err(), "{name}");
    }
    assert_eq!(files_in(&folder), ["loop", "sub"]);
}

#[test]
fn one_file_has_one_identity() {
    let folder = folder_with("files-identity", &[("it", b""), ("other", b"")]);
    fs::create_dir(folder.join("sub")).expect("a folder is made");
    symlink("it", folder.join("link")).expect("a link is made");
    symlink("missing", folder.join("dangling")).expect("a link is made");
    symlink("loop", folder.join("loop")).expect("a link is made");
    let identity = |name: &str| Identity::of(&folder.join(name));
    for (one, same) in
        [("it", "./it"), ("it", "sub/../it"), ("it", "link"), ("missing", "sub/../missing"), ("missing", "dangling")]
    {
        assert_eq!(identity(one), identity(same), "{one} and {same}");
    }
    for (one, other) in
        [("it", "other"), ("it", "missing"), ("missing", "sub/missing"), ("none/it", "none/other"), ("loop", "it")]
    {
        assert_ne!(identity(one), identity(other), "{one} and {other}");
    }
}

#[test]
fn as_many_links_are_followed_as_the_system_follows() {
    let folder = empty_folder("files-chain");
    symlink("missing", folder.join("1")).expect("a link is made");
    for number in 2..=41 {
        symlink((number - 1).to_string(), folder.join(number.to_string())).expect("a link is made");
    }
    let identity = |name: &str| Identity::of(&folder.join(name));
    assert_eq!((identity("40") == identity("missing"), identity("41") == identity("missing")), (true, false));
    assert!(write(&folder.join("41"), b"text").is_err());
    write(&folder.join("40"), b"text").expect("the file is written");
    assert_eq!(fs::read(folder.join("missing")).expect("the file is read"), b"text");
}
