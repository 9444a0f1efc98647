//! The crate on one small image: what each call answers, and each error.

use romtool::{CheckError, Error, Fault, Format, Image, Kind, Node, OwnedImage, StableBytes, WrongNumbers};
use std::borrow::Cow;
use std::ffi::{OsStr, OsString};
use std::io::{BufRead, ErrorKind, Read, Seek, SeekFrom};
use std::path::{Path, PathBuf};
use std::rc::Rc;
use std::sync::Arc;

const SMALL: &[u8] = include_bytes!("small.romfs");

fn image() -> Image<'static> {
    Image::check(SMALL).expect("a good image")
}

#[test]
fn what_an_image_is() {
    let image = image();
    assert_eq!((image.format(), image.size() as usize), (Format::Romfs, SMALL.len()));
    assert_eq!((image.references(), image.depth()), (9, 2));
    assert_eq!(image.as_bytes().as_ptr(), SMALL.as_ptr());
    let copy = image;
    assert_eq!(copy.lookup("/etc"), image.lookup("/etc/."));
}

#[test]
fn descriptions() {
    let (image, numbers) = (image(), image().numbers());
    assert_eq!((&numbers[..8], numbers[12]), (b"romtool\0".as_slice(), 1));
    let again = unsafe { Image::from_numbers(SMALL, &numbers) }.unwrap();
    assert_eq!((again.format(), again.size(), again.references()), (image.format(), image.size(), image.references()));
    assert_eq!((again.depth(), again.root(), again.numbers()), (image.depth(), image.root(), numbers));
    assert_eq!(again.open("/etc/motd").unwrap().as_bytes(), Ok(b"hello\n".as_slice()));
    for at in [0, 8, 16, 40] {
        let mut changed = numbers;
        changed[at] ^= 1;
        assert_eq!(unsafe { Image::from_numbers(SMALL, &changed) }.unwrap_err(), WrongNumbers);
    }
    assert_eq!(unsafe { Image::from_numbers(&SMALL[1..], &numbers) }.unwrap_err(), WrongNumbers);
    assert_eq!(WrongNumbers.to_string(), "not the numbers of this image");
}

#[test]
fn names_and_parents() {
    let image = image();
    let (root, etc) = (image.root(), image.lookup("/etc").unwrap());
    assert_eq!((root.parent(), etc.parent()), (Ok(root), Ok(root)));
    assert_eq!(image.lookup("/null").unwrap().parent(), Err(Error::NotADirectory));
    assert_eq!((root.links(), etc.links(), image.lookup("/etc/motd").unwrap().links()), (1, 1, 1));
    assert_eq!(image.volume(), &SMALL[16..16 + image.volume().len()]);
    assert_eq!(SMALL[16 + image.volume().len()], 0);
}

#[test]
fn numbers_of_all_names() {
    let image = image();
    let mut wanted = vec![image.root().offset()];
    wanted.extend(image.walk().map(|found| found.entry().node().offset()));
    wanted.sort_unstable();
    let mut numbers = vec![7; wanted.len() + 1];
    assert_eq!(image.node_numbers(&mut numbers[..2]), wanted.len() as u64);
    assert_eq!(numbers, vec![7; wanted.len() + 1]);
    assert_eq!(image.node_numbers(&mut numbers), wanted.len() as u64);
    assert_eq!((&numbers[..wanted.len()], numbers[wanted.len()]), (wanted.as_slice(), 7));
}

#[test]
fn reads_at_a_position() {
    let mut file = image().open("/etc/motd").unwrap();
    let mut buffer = [b'-'; 4];
    file.set_position(2).unwrap();
    assert_eq!((file.read_at(1, &mut buffer), &buffer), (Ok(4), b"ello"));
    assert_eq!((file.read_at(4, &mut buffer), &buffer), (Ok(2), b"o\nlo"));
    assert_eq!((file.read_at(u64::MAX, &mut buffer), file.position()), (Ok(0), 2));
}

#[test]
fn what_paths_lead_to() {
    let image = image();
    let root = image.metadata("/").unwrap();
    assert!(root.is_dir() && root.ino == image.lookup("/").unwrap().offset());
    let null = image.metadata("/null").unwrap();
    assert_eq!((null.kind, null.major, null.minor, null.mode), (Kind::Character, 1, 3, 0o600));
    assert!(image.symlink_metadata("/message").unwrap().is_symlink());
    let led = image.metadata("/message").unwrap();
    assert!(led.is_file() && led.size == 6 && led.ino == image.lookup("/etc/motd").unwrap().offset());
    assert_eq!(image.read_link("/message"), Ok(b"etc/motd".as_slice()));
}

#[test]
fn errors_of_paths() {
    let image = image();
    assert_eq!(image.lookup("/none"), Err(Error::NotFound));
    assert_eq!(image.lookup(""), Err(Error::NotFound));
    assert_eq!(image.lookup("etc"), Err(Error::Invalid));
    assert_eq!(image.lookup("/etc/motd/x"), Err(Error::NotADirectory));
    assert_eq!(image.lookup([b"/".as_slice(), &[b'x'; 256]].concat()), Err(Error::NameTooLong));
    assert_eq!(image.lookup([b'/'; 4096]), Err(Error::NameTooLong));
    // `/etc` is the first of three names, `motd` the first of its directory; a name that is missing is compared with all
    let mut budget = 2;
    assert_eq!(image.lookup_within("/etc/motd", &mut budget), image.lookup("/etc/motd"));
    assert_eq!(budget, 0);
    assert_eq!(image.lookup_within("/", &mut budget), image.lookup("/"));
    assert_eq!(image.lookup_within("/etc", &mut budget), Err(Error::OverBudget));
    budget = 7;
    assert_eq!((image.lookup_within("/none", &mut budget), budget), (Err(Error::NotFound), 4));
    assert_eq!(image.read_link("/etc"), Err(Error::Invalid));
    let entries: Vec<_> = image.read_dir("/").unwrap().collect();
    let (etc, message) = (entries[0].node(), entries[1].node());
    assert_eq!(etc.lookup(b"motd"), image.lookup("/etc/motd"));
    assert_eq!((etc.lookup(b"none"), etc.lookup(b".")), (Err(Error::NotFound), Err(Error::NotFound)));
    assert_eq!(message.lookup(b"motd"), Err(Error::NotADirectory));
    assert_eq!((message.read_link(), etc.read_link()), (Ok(b"etc/motd".as_slice()), Err(Error::Invalid)));
    assert_eq!(image.open("/etc").unwrap_err(), Error::IsADirectory);
    assert_eq!(image.open("/null").unwrap_err(), Error::IsASpecialFile);
    assert_eq!(image.read_dir("/etc/motd").unwrap_err(), Error::NotADirectory);
    assert_eq!(image.read_dir("/null").unwrap_err(), Error::IsASpecialFile);
}

#[test]
fn a_file_in_place() {
    let image = image();
    let file = image.open("/message").unwrap();
    let bytes = file.as_bytes().unwrap();
    assert_eq!(bytes, b"hello\n");
    assert!(SMALL.as_ptr_range().contains(&bytes.as_ptr()));
    assert_eq!(file.range(1, 4), Ok(b"ello".as_slice()));
    assert_eq!(file.range(6, 0), Ok(b"".as_slice()));
    assert_eq!(file.range(6, 1), Err(Error::Invalid));
    assert_eq!(file.range(7, 0), Err(Error::Invalid));
    assert_eq!(file.range(u64::MAX, u64::MAX), Err(Error::Invalid));
    assert_eq!(image.open("/etc/empty").unwrap().as_bytes(), Ok(b"".as_slice()));
}

#[test]
fn reading_and_seeking() {
    let mut file = image().open("/etc/motd").unwrap();
    let mut two = [0; 2];
    assert_eq!((file.read(&mut two).unwrap(), &two), (2, b"he"));
    let mut other = file.clone();
    assert_eq!(other.next_bytes(2), b"ll");
    assert_eq!(file.fill_buf().unwrap(), b"llo\n");
    file.consume(3);
    assert_eq!(file.stream_position().unwrap(), 5);
    let mut rest = String::new();
    assert_eq!((file.read_to_string(&mut rest).unwrap(), rest.as_str()), (1, "\n"));
    assert_eq!((file.read(&mut two).unwrap(), file.next_bytes(9)), (0, b"".as_slice()));
    assert_eq!(file.seek(SeekFrom::End(-6)).unwrap(), 0);
    assert_eq!(file.seek(SeekFrom::Current(100)).unwrap(), 100);
    assert_eq!((file.read(&mut two).unwrap(), file.read(&mut []).unwrap()), (0, 0));
    assert!(file.seek(SeekFrom::End(-7)).is_err() && file.stream_position().unwrap() == 100);
    assert_eq!(other.next_bytes(9), b"o\n");
}

#[test]
fn entries() {
    let image = image();
    let names: Vec<_> = image.read_dir("/").unwrap().map(|it| it.name()).collect();
    assert_eq!(names, [b"etc".as_slice(), b"message", b"null"]);
    let kinds: Vec<_> = image.read_dir("/").unwrap().map(|it| it.kind()).collect();
    assert_eq!(kinds, [Kind::Directory, Kind::Symlink, Kind::Character]);
    let mut dir = image.read_dir("/etc").unwrap();
    let first = dir.next().unwrap();
    assert_eq!((first.name(), Ok(first.node())), (b"motd".as_slice(), image.lookup("/etc/motd")));
    assert_eq!(first.node().metadata(), image.metadata("/etc/motd").unwrap());
    assert_eq!(first.node().open().unwrap().as_bytes(), image.open("/etc/motd").unwrap().as_bytes());
    assert_eq!(first.node().read_dir().map(|_| ()), Err(Error::NotADirectory));
    assert_eq!(dir.clone().count(), 1);
    assert_eq!(dir.next().unwrap().name(), b"empty");
    assert!(dir.next().is_none() && dir.next().is_none());
    assert!(dir.metadata().is_dir());
}

#[test]
fn refused_images() {
    let fault = |bytes: &[u8]| match Image::check(bytes) {
        Err(CheckError::Fault(fault)) => fault,
        other => panic!("{other:?}"),
    };
    assert_eq!((fault(b"").number, fault(b"").at), (2, 0));
    assert_eq!(fault(&[0; 100]).name(), "Magic");
    let mut changed = SMALL.to_vec();
    changed[50] ^= 1;
    assert_eq!(fault(&changed).to_string(), "5 Sum at 12");
    for len in 0..SMALL.len() {
        assert!(matches!(Image::check(&SMALL[..len]), Err(CheckError::Fault(_))), "{len} bytes");
    }
    let named = |number| {
        let mut other: Fault = fault(b"");
        other.number = number;
        other.name()
    };
    assert_eq!((named(10), named(u32::MAX), named(12)), ("Unknown", "Unknown", "HeaderSum"));
}

#[test]
fn nodes() {
    let image = image();
    let root: Node = image.root();
    assert_eq!(Ok(root), image.lookup("/"));
    let (etc, link) = (root.lookup("etc").unwrap(), root.lookup("message").unwrap());
    let motd = etc.lookup(b"motd").unwrap();
    assert_eq!((Ok(motd), Ok(etc)), (image.lookup("/message"), image.lookup("/etc")));
    assert!(motd != etc && motd != link && format!("{motd:?}") == format!("Node({})", motd.offset()));
    assert_eq!((motd.metadata(), motd.offset()), (image.metadata("/etc/motd").unwrap(), motd.metadata().ino));
    assert_eq!(motd.open().unwrap().as_bytes(), Ok(b"hello\n".as_slice()));
    assert_eq!((link.read_link(), motd.read_link()), (Ok(b"etc/motd".as_slice()), Err(Error::Invalid)));
    assert_eq!((link.open().unwrap_err(), etc.open().unwrap_err()), (Error::IsASpecialFile, Error::IsADirectory));
    assert_eq!(etc.read_dir().unwrap().map(|it| it.name()).collect::<Vec<_>>(), [b"motd".as_slice(), b"empty"]);
    // the same place in other bytes is another node, and a node outlives the image that it was looked up in
    let copied = SMALL.to_vec();
    let other = Image::check(&copied).unwrap().lookup("/etc/motd").unwrap();
    assert!(other != motd && other.offset() == motd.offset() && other.metadata() == motd.metadata());
}

#[test]
fn errors_of_the_system() {
    let kind = |error: Error| std::io::Error::from(error).kind();
    for (error, name) in [
        (Error::NotFound, "NotFound"),
        (Error::NotADirectory, "NotADirectory"),
        (Error::IsADirectory, "IsADirectory"),
        (Error::Invalid, "InvalidInput"),
        (Error::TooManyLinks, "FilesystemLoop"),
        (Error::NameTooLong, "InvalidFilename"),
        (Error::OverBudget, "Other"),
    ] {
        assert_eq!(format!("{:?}", kind(error)), name);
    }
    let error = std::io::Error::from(Error::OverBudget);
    assert_eq!(error.get_ref().unwrap().downcast_ref::<Error>(), Some(&Error::OverBudget));
    assert_eq!((kind(Error::InPieces), kind(Error::Other(9))), (ErrorKind::Other, ErrorKind::Other));
}

#[test]
fn threads_share_an_image() {
    let image = image();
    std::thread::scope(|scope| {
        for _ in 0..4 {
            scope.spawn(|| {
                for _ in 0..200 {
                    assert_eq!(image.open("/message").unwrap().as_bytes(), Ok(b"hello\n".as_slice()));
                }
            });
        }
    });
}

#[test]
fn errors_have_numbers_and_words() {
    for number in [1, 2, 3, 4, 5, 7, 8, 10, 16] {
        let errors = [Error::NotFound, Error::NotADirectory, Error::TooManyLinks, Error::NameTooLong, Error::Invalid];
        let more = [Error::IsADirectory, Error::IsASpecialFile, Error::InPieces, Error::OverBudget];
        let found: Vec<_> = errors.iter().chain(&more).filter(|it| it.number() == number).collect();
        assert!(found.len() == 1 && !found[0].to_string().is_empty());
    }
    assert_eq!(std::io::Error::from(Error::NotFound).kind(), std::io::ErrorKind::NotFound);
}

/// Reads a file of an image that was moved to another thread, if it may be.
fn read_elsewhere<B: StableBytes + Send + 'static>(bytes: B) {
    let image = OwnedImage::check(bytes).expect("a good image");
    let held = std::thread::spawn(move || image.image().open("/message").unwrap().as_bytes().unwrap().to_vec());
    assert_eq!(held.join().unwrap(), b"hello\n");
}

#[test]
fn images_that_own_their_bytes() {
    read_elsewhere(SMALL.to_vec());
    read_elsewhere(SMALL.to_vec().into_boxed_slice());
    read_elsewhere(Arc::<[u8]>::from(SMALL));
    read_elsewhere(SMALL);
    read_elsewhere(*include_bytes!("small.romfs"));
    let image = OwnedImage::check(Rc::<[u8]>::from(SMALL)).unwrap();
    assert_eq!((image.image().format(), image.image().size()), (Format::Romfs, SMALL.len() as u32));
    let (numbers, copy) = (image.image().numbers(), image.clone());
    assert_eq!(&*image.into_inner(), SMALL);
    assert_eq!(format!("{copy:?}"), format!("OwnedImage({:?})", copy.image()));
    let fault = OwnedImage::check(SMALL[..100].to_vec()).unwrap_err();
    assert_eq!(fault, Image::check(&SMALL[..100]).unwrap_err());
    let again = unsafe { OwnedImage::from_numbers(SMALL.to_vec(), &numbers) }.unwrap();
    assert_eq!(again.image().open("/etc/motd").unwrap().as_bytes(), Ok(b"hello\n".as_slice()));
    assert_eq!(unsafe { OwnedImage::from_numbers(SMALL[1..].to_vec(), &numbers) }.unwrap_err(), WrongNumbers);
    // an owner that this crate does not know, as that of a mapped file is
    let mapped = unsafe { OwnedImage::check_mapped(String::from_utf8_lossy(b"-rom").into_owned()) };
    assert!(matches!(mapped, Err(CheckError::Fault(_))));
    let image = unsafe { OwnedImage::check_mapped(Cow::Borrowed(SMALL)) }.unwrap();
    assert_eq!(image.image().root().read_dir().unwrap().count(), 3);
}

#[test]
fn links_that_are_not_followed() {
    let image = image();
    let link = image.symlink_lookup("/message").unwrap();
    assert_eq!((link.metadata().kind, link.read_link()), (Kind::Symlink, Ok(b"etc/motd".as_slice())));
    assert_eq!(image.symlink_lookup("/etc"), image.lookup("/etc"));
    assert_ne!(image.symlink_lookup("/message"), image.lookup("/message"));
    let mut budget = 2; // `message` is the second of three names
    assert_eq!((image.symlink_lookup_within("/message", &mut budget), budget), (Ok(link), 0));
    assert_eq!(image.symlink_lookup_within("/message", &mut 1), Err(Error::OverBudget));
}

#[test]
fn files_within_a_budget() {
    let image = image();
    // `/etc` is the first name of the root, and `motd` that of its directory
    let mut budget = 2;
    assert_eq!(image.open_within("/etc/motd", &mut budget).unwrap().as_bytes(), Ok(b"hello\n".as_slice()));
    assert_eq!((budget, image.open_within("/etc", &mut budget).unwrap_err()), (0, Error::OverBudget));
    assert_eq!(image.read_dir_within("/etc", &mut 1).unwrap().count(), 2);
    assert_eq!(image.read_dir_within("/etc", &mut 0).unwrap_err(), Error::OverBudget);
    assert_eq!(image.open_within("/etc", &mut 9).unwrap_err(), Error::IsADirectory);
}

#[test]
fn walks() {
    let image = image();
    let found: Vec<_> = image.walk().map(|it| (it.path().to_vec(), it.depth(), it.entry().kind())).collect();
    let wanted = [
        ("/etc", 1, Kind::Directory),
        ("/etc/motd", 2, Kind::Regular),
        ("/etc/empty", 2, Kind::Regular),
        ("/message", 1, Kind::Symlink),
        ("/null", 1, Kind::Character),
    ];
    assert_eq!(found, wanted.map(|(path, depth, kind)| (path.as_bytes().to_vec(), depth, kind)));
    for it in image.walk() {
        assert_eq!(image.symlink_lookup(it.path()), Ok(it.entry().node()));
        assert_eq!(it.as_path(), Path::new(std::str::from_utf8(it.path()).unwrap()));
    }
    let etc = image.lookup("/etc").unwrap();
    let below: Vec<_> = etc.walk().unwrap().map(|it| it.path().to_vec()).collect();
    assert_eq!(below, [b"/motd".to_vec(), b"/empty".to_vec()]);
    assert_eq!(image.lookup("/message").unwrap().walk().unwrap_err(), Error::NotADirectory);
}

#[test]
fn paths_of_each_kind() {
    let (image, wanted) = (image(), image().lookup("/etc/motd"));
    let (text, path) = (String::from("/etc/motd"), PathBuf::from("/etc/motd"));
    for found in [
        image.lookup("/etc/motd"),
        image.lookup(b"/etc/motd"),
        image.lookup(*b"/etc/motd"),
        image.lookup(&b"/etc/motd"[..]),
        image.lookup(&text),
        image.lookup(text.clone()),
        image.lookup(text.clone().into_bytes()),
        image.lookup(Cow::Borrowed("/etc/motd")),
        image.lookup(Path::new("/etc/motd")),
        image.lookup(&path),
        image.lookup(path.clone()),
        image.lookup(OsStr::new("/etc/motd")),
        image.lookup(OsString::from("/etc/motd")),
        image.lookup("/etc").and_then(|it| it.lookup(Path::new("motd"))),
    ] {
        assert_eq!(found, wanted);
    }
}
