//! States on disk. Their layout is this host's own, and the one of `examples/hosting`:
//!
//! ```text
//! 8 bytes  "MKSTATE1"
//! 8        the mark
//! 8        the count
//! 4        the image's size
//! 4        the window's size: 2432 at a desk, 0 at a wall
//! ...      the image, then the window
//! 8        a checksum of all before it, FNV-1a
//! ```
//!
//! Numbers have their highest byte first.

use mulkefi::{Mark, LARGEST_IMAGE};
use std::error::Error;
use std::fs::{self, File};
use std::io::{self, ErrorKind, Read, Write};
use std::path::Path;

/// An answer, or a sentence on what failed.
pub type Fallible<T> = Result<T, Box<dyn Error + Send + Sync>>;

/// A count of edits, as the engine has it.
pub type Count = u32;

// step: state
pub struct State {
    pub image: Vec<u8>,
    pub count: Count,    // edits since the start
    pub mark: Mark,      // the start's
    pub window: Vec<u8>, // the desk's last messages; a wall has none
}
// end

const LAYOUT: &[u8; 8] = b"MKSTATE1";
const HEAD_SIZE: usize = 32;
const SUM_SIZE: usize = 8;

fn checksum(bytes: &[u8]) -> u64 {
    let step = |sum: u64, byte: &u8| (sum ^ u64::from(*byte)).wrapping_mul(0x0100_0000_01b3);
    bytes.iter().fold(0xcbf2_9ce4_8422_2325, step)
}

/// The bytes from `at` on, which are there.
fn field<const SIZE: usize>(bytes: &[u8], at: usize) -> [u8; SIZE] {
    bytes[at..at + SIZE].try_into().expect("a slice of that size")
}

impl State {
    fn to_bytes(&self) -> Vec<u8> {
        let mut bytes = LAYOUT.to_vec();
        bytes.extend(self.mark.to_bytes());
        bytes.extend(u64::from(self.count).to_be_bytes());
        bytes.extend((self.image.len() as u32).to_be_bytes());
        bytes.extend((self.window.len() as u32).to_be_bytes());
        bytes.extend(&self.image);
        bytes.extend(&self.window);
        bytes.extend(checksum(&bytes).to_be_bytes());
        bytes
    }

    /// The state in a file's bytes, or what is wrong with them.
    fn from_bytes(bytes: &[u8], window_size: usize) -> Result<State, &'static str> {
        if bytes.len() < HEAD_SIZE {
            return Err("it is shorter than 32 bytes");
        }
        if !bytes.starts_with(LAYOUT) {
            return Err("it does not begin with MKSTATE1");
        }
        let count = Count::try_from(u64::from_be_bytes(field(bytes, 16)));
        let count = count.map_err(|_| "its count is above the engine's largest")?;
        let size = u32::from_be_bytes(field(bytes, 24)) as usize;
        if size > LARGEST_IMAGE {
            return Err("its image is larger than any that the engine takes");
        }
        if u32::from_be_bytes(field(bytes, 28)) as usize != window_size {
            return Err("its window has another size than this engine's");
        }
        let window_at = HEAD_SIZE + size;
        let sum_at = window_at + window_size;
        if bytes.len() != sum_at + SUM_SIZE {
            return Err("its size is not what its first 32 bytes say");
        }
        if checksum(&bytes[..sum_at]) != u64::from_be_bytes(field(bytes, sum_at)) {
            return Err("its bytes do not give its checksum");
        }
        let (image, window) = (&bytes[HEAD_SIZE..window_at], &bytes[window_at..sum_at]);
        let mark = Mark::from(field::<8>(bytes, 8));
        Ok(State { image: image.to_vec(), count, mark, window: window.to_vec() })
    }
}

// step: keep
/// Puts a state on the disk under its name: all of it, or nothing.
pub fn keep(folder: &Path, name: &str, state: &State) -> io::Result<()> {
    let beside = folder.join(format!("{name}.new"));
    let write = || {
        let mut file = File::create(&beside)?;
        file.write_all(&state.to_bytes())?;
        file.sync_all()?; // on the disk, under the other name
        fs::rename(&beside, folder.join(name))
    };
    if let Err(error) = write() {
        let _ = fs::remove_file(&beside);
        return Err(error);
    }
    File::open(folder)?.sync_all() // now the name is on the disk too
}
// end

// step: load
/// Reads what `keep` wrote; none where there is no such file. A file that was never renamed has another
/// name, and is not looked at.
pub fn load(folder: &Path, name: &str, window_size: usize) -> Fallible<Option<State>> {
    let bytes = match fs::read(folder.join(name)) {
        Ok(bytes) => bytes,
        Err(error) if error.kind() == ErrorKind::NotFound => return Ok(None),
        Err(error) => return Err(format!("{name} can't be read: {error}").into()),
    };
    let state = State::from_bytes(&bytes, window_size);
    let state = state.map_err(|fault| format!("{name} is not used: {fault}"))?;
    mulkefi::test(&state.image)
        .map_err(|refusal| format!("{name} is not used: its image is refused by {refusal}"))?;
    Ok(Some(state))
}
// end

// step: mark
/// A mark that no start of a desk had before: 8 random bytes from the system. 0 is what walls tell that
/// have none.
pub fn new_mark() -> Fallible<Mark> {
    let mut bytes = [0; 8];
    File::open("/dev/urandom")?.read_exact(&mut bytes)?;
    match bytes {
        [0, 0, 0, 0, 0, 0, 0, 0] => Err("the system gives zeros for a mark".into()),
        bytes => Ok(Mark::from(bytes)),
    }
}
// end
