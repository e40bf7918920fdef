// Makes the edits of a request list on a plain vector of the same entries, and prints the seconds that this took.
use std::time::Instant;

struct Entry {
    id: u64,
    stamp: u64,
    bytes: Vec<u8>,
}

enum Edit {
    Insert(usize, u64, Vec<u8>),
    Replace(usize, Vec<u8>),
    Delete(usize),
    Move(usize, usize),
}

fn bytes_of(word: &str) -> Vec<u8> {
    if word == "-" {
        return Vec::new();
    }
    (0..word.len() / 2).map(|i| u8::from_str_radix(&word[2 * i..2 * i + 2], 16).unwrap()).collect()
}

fn edit_of(line: &str) -> Edit {
    let words: Vec<&str> = line.split(' ').collect();
    let place = |i: usize| words[i].parse::<usize>().unwrap();
    match words[0] {
        "insert" => Edit::Insert(place(1), words[2].parse().unwrap(), bytes_of(words[3])),
        "replace" => Edit::Replace(place(1), bytes_of(words[2])),
        "delete" => Edit::Delete(place(1)),
        _ => Edit::Move(place(1), place(2)),
    }
}

fn main() {
    let mut words = std::env::args().skip(1);
    let count: u64 = words.next().unwrap().parse().unwrap();
    let text = std::fs::read_to_string(words.next().unwrap()).unwrap();
    let edits: Vec<Edit> = text.lines().map(edit_of).collect();
    let mut next_id = count;
    let mut entries: Vec<Entry> =
        (0..count).map(|id| Entry { id, stamp: id, bytes: vec![0x11, 0, 0] }).collect();
    let start = Instant::now();
    for edit in edits {
        match edit {
            Edit::Insert(at, stamp, bytes) => {
                entries.insert(at, Entry { id: next_id, stamp, bytes });
                next_id += 1;
            }
            Edit::Replace(at, bytes) => {
                entries[at].id = next_id;
                entries[at].bytes = bytes;
                next_id += 1;
            }
            Edit::Delete(at) => {
                entries.remove(at);
            }
            Edit::Move(from, to) => {
                let entry = entries.remove(from);
                entries.insert(to, entry);
            }
        }
    }
    let seconds = start.elapsed().as_secs_f64();
    let sum: u64 = entries.iter().fold(0, |sum, e| sum.wrapping_mul(31).wrapping_add(e.id ^ e.stamp ^ e.bytes.len() as u64));
    eprintln!("{} entries, next id {next_id}, sum {sum}", entries.len());
    println!("{seconds}");
}
