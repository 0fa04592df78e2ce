// The least that N durable commits cost on a device where each is two writes, each with an fdatasync: 256 bytes at the end,
// and then one byte before them. So `hyder run` appends an entry of one page.
//
//     sync_pairs FILE N

use std::fs::OpenOptions;
use std::os::unix::fs::FileExt;

fn main() -> std::io::Result<()> {
    let words: Vec<String> = std::env::args().collect();
    let file = OpenOptions::new()
        .read(true)
        .write(true)
        .create(true)
        .truncate(false)
        .open(&words[1])?;
    let count: u64 = words[2].parse().unwrap();
    let record = [1u8; 256];
    for at in 0..count {
        file.write_all_at(&record, 256 * at + 1)?;
        file.sync_data()?;
        file.write_all_at(&[0x47], 256 * at)?;
        file.sync_data()?;
    }
    Ok(())
}
