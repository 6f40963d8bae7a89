//! The pool that a run reads, and which keys name a block of it.

use crate::key::{Key, LARGEST_BLOCK};
use std::fs::{File, OpenOptions};
use std::io;
use std::os::unix::fs::FileExt;

const LONGEST_POOL: u64 = 1 << 40;

pub enum Pool {
    Memory(Vec<u8>),
    File(File, u64),
}

impl Pool {
    /// The file of this name, or an empty pool for `-`.
    pub fn open(name: &str) -> Option<Pool> {
        if name == "-" {
            return Some(Pool::Memory(Vec::new()));
        }
        let file = OpenOptions::new().read(true).write(true).open(name).or_else(|_| File::open(name)).ok()?;
        let about = file.metadata().ok()?;
        (!about.is_dir() && about.len() <= LONGEST_POOL).then(|| Pool::File(file, about.len()))
    }

    pub fn len(&self) -> u64 {
        match self {
            Pool::Memory(bytes) => bytes.len() as u64,
            Pool::File(_, len) => *len,
        }
    }

    pub fn read(&self, key: Key) -> io::Result<Vec<u8>> {
        match self {
            Pool::Memory(bytes) => Ok(bytes[key.offset as usize..][..key.size as usize].to_vec()),
            Pool::File(file, _) => {
                let mut bytes = vec![0; key.size as usize];
                file.read_exact_at(&mut bytes, key.offset)?;
                Ok(bytes)
            }
        }
    }

    /// Writes a block at its key's place.
    pub fn write(&mut self, key: Key, bytes: &[u8]) -> io::Result<()> {
        match self {
            Pool::Memory(image) => image[key.offset as usize..][..bytes.len()].copy_from_slice(bytes),
            Pool::File(file, _) => file.write_all_at(bytes, key.offset)?,
        }
        Ok(())
    }

    /// All its bytes, where it is no longer than 64 MiB.
    pub fn image(&self) -> Option<io::Result<Vec<u8>>> {
        match self {
            Pool::Memory(bytes) => Some(Ok(bytes.clone())),
            Pool::File(..) if self.len() > 1 << 26 => None,
            Pool::File(file, len) => {
                let mut bytes = vec![0; *len as usize];
                Some(file.read_exact_at(&mut bytes, 0).map(|()| bytes))
            }
        }
    }

    /// Whether the key names a block here, or else what is wrong with it first.
    pub fn check(&self, key: Key) -> Result<(), String> {
        let (end, len) = (u128::from(key.offset) + u128::from(key.size), self.len());
        if key.offset % 512 != 0 {
            Err("unaligned".into())
        } else if key.size % 512 != 0 || key.size < 512 || key.size > LARGEST_BLOCK {
            Err("size".into())
        } else if end > u128::from(len) {
            Err(format!("range {end} {len}"))
        } else if key.birth == 0 {
            Err("birth".into())
        } else {
            Ok(())
        }
    }
}
