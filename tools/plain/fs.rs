//! Files and folders, asked for by names that are texts.
use super::alloc::Vec;
use super::runtime::HostRuntime;
pub use std::fs::Metadata;
use std::fs::{Permissions, ReadDir};
use std::io::{Error, ErrorKind, Read, Result, Write};
use std::os::unix::ffi::OsStrExt;
use std::os::unix::fs::{FileExt, OpenOptionsExt};
use std::path::Path;

/// How many bytes are asked for at a time where a whole file is read.
const PIECE: usize = 8192;

/// An open file.
pub struct File(std::fs::File);

impl File {
    pub fn set_permissions(&self, permissions: Permissions) -> Result<()> {
        self.0.set_permissions(permissions)
    }

    /// Reads what is left of it: how many bytes.
    pub fn read_to_end(&mut self, bytes: &mut Vec<u8>) -> Result<usize> {
        let mut piece = [0; PIECE];
        let before = bytes.len();
        loop {
            match self.0.read(&mut piece) {
                Ok(0) => return Ok(bytes.len() - before),
                Ok(count) => bytes.extend_from_slice(&piece[..count])?,
                Err(error) if error.kind() == ErrorKind::Interrupted => {}
                Err(error) => return Err(error),
            }
        }
    }
}

impl Read for File {
    fn read(&mut self, piece: &mut [u8]) -> Result<usize> {
        self.0.read(piece)
    }
}

impl Write for File {
    fn write(&mut self, bytes: &[u8]) -> Result<usize> {
        self.0.write(bytes)
    }

    fn flush(&mut self) -> Result<()> {
        Ok(())
    }
}

impl FileExt for File {
    fn read_at(&self, piece: &mut [u8], place: u64) -> Result<usize> {
        self.0.read_at(piece, place)
    }

    fn write_at(&self, bytes: &[u8], place: u64) -> Result<usize> {
        self.0.write_at(bytes, place)
    }
}

/// How a file is opened.
pub struct OpenOptions(std::fs::OpenOptions);

impl OpenOptions {
    pub fn new() -> OpenOptions {
        OpenOptions(std::fs::OpenOptions::new())
    }

    pub fn read(&mut self, yes: bool) -> &mut OpenOptions {
        self.0.read(yes);
        self
    }

    pub fn write(&mut self, yes: bool) -> &mut OpenOptions {
        self.0.write(yes);
        self
    }

    pub fn append(&mut self, yes: bool) -> &mut OpenOptions {
        self.0.append(yes);
        self
    }

    pub fn create_new(&mut self, yes: bool) -> &mut OpenOptions {
        self.0.create_new(yes);
        self
    }

    pub fn open(&self, _: &HostRuntime, name: &str) -> Result<File> {
        Ok(File(self.0.open(name)?))
    }
}

impl OpenOptionsExt for OpenOptions {
    fn mode(&mut self, mode: u32) -> &mut OpenOptions {
        self.0.mode(mode);
        self
    }

    fn custom_flags(&mut self, flags: i32) -> &mut OpenOptions {
        self.0.custom_flags(flags);
        self
    }
}

/// Opens a file to read it.
pub fn open(_: &HostRuntime, name: &str) -> Result<File> {
    Ok(File(std::fs::File::open(name)?))
}

pub fn metadata(_: &HostRuntime, name: &str) -> Result<Metadata> {
    std::fs::metadata(name)
}

pub fn symlink_metadata(_: &HostRuntime, name: &str) -> Result<Metadata> {
    std::fs::symlink_metadata(name)
}

pub fn rename(_: &HostRuntime, from: &str, to: &str) -> Result<()> {
    std::fs::rename(from, to)
}

pub fn remove_file(_: &HostRuntime, name: &str) -> Result<()> {
    std::fs::remove_file(name)
}

/// The name without links, from the root on.
pub fn canonicalize(_: &HostRuntime, name: &str) -> Result<std::string::String> {
    let path = std::fs::canonicalize(name)?;
    path.into_os_string().into_string().map_err(|_| Error::from(ErrorKind::InvalidFilename))
}

/// An open folder, which reads as its names, each ended by a byte 00.
pub struct Names {
    names: ReadDir,
    /// The name that the last piece had no room for.
    next: Option<std::ffi::OsString>,
}

pub trait Files {
    /// Opens a folder. A link at the end of the name is not followed.
    fn open_dir(&self, name: &str) -> Result<Names>;
}

impl Files for HostRuntime {
    fn open_dir(&self, name: &str) -> Result<Names> {
        if std::fs::symlink_metadata(name)?.is_symlink() {
            return Err(Error::from(ErrorKind::NotADirectory));
        }
        Ok(Names { names: std::fs::read_dir(Path::new(name))?, next: None })
    }
}

impl Read for Names {
    fn read(&mut self, piece: &mut [u8]) -> Result<usize> {
        let mut count = 0;
        loop {
            let name = match self.next.take() {
                Some(name) => name,
                None => match self.names.next() {
                    Some(entry) => entry?.file_name(),
                    None => return Ok(count),
                },
            };
            let bytes = name.as_bytes();
            let end = count + bytes.len();
            if end >= piece.len() {
                self.next = Some(name);
                return Ok(count);
            }
            piece[count..end].copy_from_slice(bytes);
            piece[end] = 0;
            count = end + 1;
        }
    }
}
