//! PHOLD in plain Rust, to be timed beside `twarp-phold seq`: `phold QUEUE PROCESSES POPULATION LOOKAHEAD LONGEST REMOTE
//! SEED STOP`, where QUEUE is `heap` or `calendar`. It writes the same report, and events a second to standard error.

use std::cmp::Reverse;
use std::collections::BinaryHeap;
use std::time::Instant;

#[derive(Clone, Copy, PartialEq, Eq, PartialOrd, Ord)]
struct Job {
    time: u64,
    dst: u32,
    src: u32,
    seq: u64,
}

/// Jobs that wait. The least is taken out as another goes in.
trait Queue {
    fn push(&mut self, job: Job);
    fn pop(&mut self) -> Option<Job>;
}

impl Queue for BinaryHeap<Reverse<Job>> {
    fn push(&mut self, job: Job) {
        BinaryHeap::push(self, Reverse(job));
    }

    fn pop(&mut self) -> Option<Job> {
        BinaryHeap::pop(self).map(|job| job.0)
    }
}

/// A list for each tick of a ring that is longer than every delay; that of the tick at hand is sorted, the last first.
struct Calendar {
    days: Vec<Vec<Job>>,
    today: u64,
    sorted: bool,
    len: usize,
}

impl Calendar {
    fn new(longest: u64) -> Calendar {
        let days = (longest + 1).next_power_of_two();
        Calendar {
            days: vec![Vec::new(); days as usize],
            today: 0,
            sorted: false,
            len: 0,
        }
    }

    fn day(&mut self, time: u64) -> &mut Vec<Job> {
        let mask = self.days.len() as u64 - 1;
        &mut self.days[(time & mask) as usize]
    }
}

impl Queue for Calendar {
    // What is sent is later than the tick at hand.
    fn push(&mut self, job: Job) {
        self.day(job.time).push(job);
        self.len += 1;
    }

    fn pop(&mut self) -> Option<Job> {
        if self.len == 0 {
            return None;
        }
        while self.day(self.today).is_empty() {
            self.today += 1;
            self.sorted = false;
        }
        if !self.sorted {
            self.day(self.today).sort_unstable_by(|a, b| b.cmp(a));
            self.sorted = true;
        }
        self.len -= 1;
        self.day(self.today).pop()
    }
}

fn word(state: u64) -> u64 {
    let first = (state ^ (state >> 30)).wrapping_mul(0xbf58_476d_1ce4_e5b9);
    let second = (first ^ (first >> 27)).wrapping_mul(0x94d0_49bb_1331_11eb);
    second ^ (second >> 31)
}

struct Process {
    random: u64,
    handled: u64,
}

impl Process {
    fn draw(&mut self) -> u64 {
        self.random = self.random.wrapping_add(0x9e37_79b9_7f4a_7c15);
        word(self.random)
    }
}

fn run<Q: Queue>(queue: &mut Q, given: &[u64]) -> (Vec<Process>, u64) {
    let &[count, population, lookahead, longest, remote, seed, stop] = given else {
        panic!("seven numbers");
    };
    let spread = longest - lookahead + 1;
    let mut processes: Vec<Process> = (0..count)
        .map(|number| Process { random: word(seed.wrapping_add(number)), handled: 0 })
        .collect();
    for number in 0..count * population {
        let time = lookahead + word(seed.wrapping_add(number)) % spread;
        let home = (number % count) as u32;
        queue.push(Job { time, dst: home, src: home, seq: number / count });
    }
    let mut handled = 0;
    while let Some(job) = queue.pop() {
        if job.time >= stop {
            break;
        }
        let process = &mut processes[job.dst as usize];
        let delay = lookahead + process.draw() % spread;
        let choice = process.draw();
        let drawn = process.draw();
        let dst = if choice % 1000 < remote { (drawn % count) as u32 } else { job.dst };
        let seq = population + process.handled;
        process.handled += 1;
        handled += 1;
        queue.push(Job { time: job.time + delay, dst, src: job.dst, seq });
    }
    (processes, handled)
}

fn main() {
    let words: Vec<String> = std::env::args().collect();
    let given: Vec<u64> = words[2..].iter().map(|word| word.parse().unwrap()).collect();
    let begun = Instant::now();
    let (processes, handled) = match words[1].as_str() {
        "heap" => run(&mut BinaryHeap::new(), &given),
        _ => run(&mut Calendar::new(given[3]), &given),
    };
    let seconds = begun.elapsed().as_secs_f64();
    println!("phold-report 1\nstop {}", given[6]);
    let mut checksum = 0_u64;
    for (number, process) in processes.iter().enumerate() {
        println!("process {number} handled {}", process.handled);
        checksum = word((checksum ^ process.random).wrapping_add(process.handled));
    }
    println!("checksum {checksum}");
    eprintln!("events-per-second {:.0}", handled as f64 / seconds);
}
