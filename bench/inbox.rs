//! `inbox EDITORS COUNT CAPACITY`: the plain way to what `inbox_bench` does, a `VecDeque` under a `Mutex`.
use std::collections::VecDeque;
use std::sync::Mutex;
use std::thread;

#[derive(Clone, Copy)]
enum Command {
    Begin { node: u32, id: u32 },
    Perform { node: u32, id: u32, value: u32 },
    End { node: u32, id: u32 },
    #[allow(dead_code)]
    Tell { node: u32, words: [u32; 5] },
}

#[derive(Clone, Copy)]
struct Entry {
    sample: u32,
    editor: u32,
    seq: u32,
    command: Command,
}

struct Inbox {
    capacity: usize,
    queue: Mutex<VecDeque<Entry>>,
}

impl Inbox {
    fn put(&self, entry: Entry) {
        loop {
            let mut queue = self.queue.lock().unwrap();
            if queue.len() < self.capacity {
                queue.push_back(entry);
                return;
            }
            drop(queue);
            thread::yield_now();
        }
    }

    fn take_all(&self, journal: &mut Vec<Entry>) -> bool {
        let mut queue = self.queue.lock().unwrap();
        let some = !queue.is_empty();
        journal.extend(queue.drain(..));
        some
    }
}

fn command_at(seq: u32) -> Command {
    match seq % 3 {
        0 => Command::Begin { node: 0, id: 1 },
        1 => Command::Perform { node: 0, id: 1, value: seq & 0xff_ffff },
        _ => Command::End { node: 0, id: 1 },
    }
}

fn main() {
    let words: Vec<u32> = std::env::args().skip(1).map(|word| word.parse().unwrap()).collect();
    let [editors, count, capacity] = words[..] else { panic!("EDITORS COUNT CAPACITY") };
    let inbox = Inbox { capacity: capacity as usize, queue: Mutex::new(VecDeque::with_capacity(capacity as usize)) };
    let all = (editors * count) as usize;
    let mut journal = Vec::with_capacity(all);
    thread::scope(|scope| {
        for editor in 0..editors {
            let inbox = &inbox;
            scope.spawn(move || {
                for seq in 0..count {
                    inbox.put(Entry { sample: 0, editor, seq, command: command_at(seq) });
                }
            });
        }
        while journal.len() < all {
            if !inbox.take_all(&mut journal) {
                thread::yield_now();
            }
        }
    });
    let mut sum = 0u64;
    for entry in &journal {
        let here = match entry.command {
            Command::Begin { node, .. } | Command::Perform { node, .. } | Command::End { node, .. } | Command::Tell { node, .. } => node,
        };
        sum += u64::from(entry.editor) + u64::from(entry.seq) + u64::from(entry.sample + here);
    }
    println!("{} {sum}", journal.len());
}
