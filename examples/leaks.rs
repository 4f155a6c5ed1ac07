//! The leak list of a footprint file, and on standard error its numbers. Exit status: 0 no leaks, though strips may touch, 1 leaks,
//! 2 the file is refused, 3 it could not be read or the list not be written.

use std::io::{self, Read, Write};
use std::{env, fs::File, process::exit};

/// `meskelow_list` of include/meskelow.h.
#[repr(C)]
struct List {
    number: u32,
    place: u32,
    length: usize,
    leaks: u32,
    touching: u32,
    tested: u32,
    formerly_held_back: u32,
}

extern "C" {
    fn meskelow_leaks(file: *const u8, file_len: usize, room: *mut u8, room_len: usize) -> List;
}

const MOST: usize = 65_536; // bytes of a footprint file; no list has more

fn run() -> io::Result<i32> {
    let name = env::args_os().nth(1).unwrap_or_default();
    let (mut file, mut room) = (Vec::new(), vec![0; MOST]);
    // One byte more, so that a longer file is seen to be too long.
    File::open(name)?.take(MOST as u64 + 1).read_to_end(&mut file)?;
    // Sound: both lengths are true, and file and room do not overlap.
    let list = unsafe { meskelow_leaks(file.as_ptr(), file.len(), room.as_mut_ptr(), room.len()) };
    let mut out = io::stdout();
    if list.number == 0 {
        out.write_all(&room[..list.length])?;
    } else {
        writeln!(out, "refused {} at {}", list.number, list.place)?;
    }
    out.flush()?;
    if list.number != 0 {
        return Ok(2);
    }
    eprintln!(
        "{} leak, {} only touch; {} triangle pairs tested; {} formerly held back",
        list.leaks, list.touching, list.tested, list.formerly_held_back
    );
    Ok(i32::from(list.leaks > 0))
}

fn main() {
    exit(run().unwrap_or_else(|error| {
        eprintln!("leaks: {error}");
        3
    }));
}
