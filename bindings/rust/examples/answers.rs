//! Answers `check`, `list` and `cat` as romtool does, over this crate.
//!
//!     answers check IMAGE | answers list IMAGE | answers cat IMAGE PATH

use romtool::{CheckError, Format, Image, Kind};
use std::io::{self, BufRead, Read, Seek, SeekFrom, Write};
use std::process::ExitCode;

fn escaped(bytes: &[u8]) -> String {
    bytes
        .iter()
        .map(|b| if (0x21..0x7f).contains(b) && *b != b'%' { (*b as char).into() } else { format!("%{b:02X}") })
        .collect()
}

fn letter(kind: Kind) -> char {
    match kind {
        Kind::Directory => 'd',
        Kind::Regular => 'f',
        Kind::Symlink => 'l',
        Kind::Block => 'b',
        Kind::Character => 'c',
        Kind::Socket => 's',
        Kind::Fifo => 'p',
    }
}

fn list(image: &Image<'_>, path: &[u8], out: &mut dyn Write) -> Result<(), Box<dyn std::error::Error>> {
    let whole = if path.is_empty() { b"/" } else { path };
    let it = image.symlink_metadata(whole)?;
    let (kind, name) = (letter(it.kind), escaped(whole));
    write!(
        out,
        "{} {kind} {:04o} {} {} {} {} {} {name}",
        it.ino, it.mode, it.uid, it.gid, it.size, it.major, it.minor
    )?;
    if it.is_symlink() {
        write!(out, " {}", escaped(image.read_link(whole)?))?;
    }
    writeln!(out)?;
    if it.is_dir() {
        for entry in image.read_dir(whole)? {
            let below = [path, b"/", entry.name()].concat();
            let (node, metadata) = (entry.node(), entry.node().metadata());
            if metadata != image.symlink_metadata(&below)? || metadata.kind != entry.kind() {
                return Err("an entry is not what its path leads to".into());
            }
            if metadata.is_symlink() && node.read_link()? != image.read_link(&below)? {
                return Err("a link has another text than its path".into());
            }
            if metadata.is_dir() && node.read_dir()?.count() != image.read_dir(&below)?.count() {
                return Err("an entry is opened otherwise than by its path".into());
            }
            list(image, &below, out)?;
        }
    }
    Ok(())
}

/// The bytes of a file, read in three ways that have to agree.
fn cat(image: &Image<'_>, path: &[u8]) -> Result<Vec<u8>, Box<dyn std::error::Error>> {
    let (mut file, mut copied, mut buffered) = (image.open(path)?, Vec::new(), Vec::new());
    file.read_to_end(&mut copied)?;
    file.seek(SeekFrom::Start(0))?;
    loop {
        let part = file.fill_buf()?;
        let taken = part.len().min(1000);
        buffered.extend_from_slice(&part[..taken]);
        file.consume(taken);
        if taken == 0 {
            break;
        }
    }
    assert!(copied == buffered && copied.len() as u64 == file.size());
    if let Ok(bytes) = file.as_bytes() {
        assert!(bytes == copied);
    }
    Ok(copied)
}

fn answer(words: &[String]) -> Result<ExitCode, Box<dyn std::error::Error>> {
    let bytes = std::fs::read(&words[2])?;
    let (image, mut out) = (Image::check(&bytes), io::stdout().lock());
    match (&image, words[1].as_str()) {
        (Err(CheckError::Fault(fault)), _) => {
            writeln!(out, "fault {fault}")?;
            return Ok(ExitCode::FAILURE);
        }
        (Err(_), _) => return Ok(ExitCode::from(3)),
        (Ok(image), "check") => {
            let format = match image.format() {
                Format::Romfs => "romfs",
                Format::Cramfs => "cramfs",
                Format::CramfsBigEndian => "cramfs-be",
                _ => "unknown",
            };
            writeln!(out, "ok {format} {} {}", image.references(), image.depth())?;
        }
        (Ok(image), "list") => list(image, b"", &mut out)?,
        (Ok(image), _) => out.write_all(&cat(image, words[3].as_bytes())?)?,
    }
    Ok(ExitCode::SUCCESS)
}

fn main() -> ExitCode {
    answer(&std::env::args().collect::<Vec<_>>()).unwrap_or_else(|error| {
        eprintln!("{error}");
        ExitCode::from(4)
    })
}
