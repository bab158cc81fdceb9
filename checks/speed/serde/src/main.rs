//! Measures serde_json: `serde_times json|write FILE N` reads FILE into a `Value` N times, or writes that `Value`, and prints the least
//! nanoseconds of a call, how much it gave, and the most memory that the program had, in kB.

use serde_json::Value;
use std::hint::black_box;
use std::time::Instant;

fn main() {
    let words: Vec<String> = std::env::args().collect();
    let bytes = std::fs::read(&words[2]).unwrap();
    let times: u32 = words[3].parse().unwrap();
    let mut least = u128::MAX;
    let mut given = 0;
    if words[1] == "json" {
        for _ in 0..times {
            let start = Instant::now();
            let value: Value = serde_json::from_slice(black_box(&bytes)).unwrap();
            least = least.min(start.elapsed().as_nanos());
            given = match black_box(&value) {
                Value::Array(items) => items.len(),
                Value::Object(members) => members.len(),
                _ => 1,
            };
        }
    } else {
        let value: Value = serde_json::from_slice(&bytes).unwrap();
        for _ in 0..times {
            let start = Instant::now();
            let out = serde_json::to_vec(black_box(&value)).unwrap();
            least = least.min(start.elapsed().as_nanos());
            given = black_box(&out).len();
        }
    }
    println!("{least} {given} {}", peak());
}

fn peak() -> String {
    let status = std::fs::read_to_string("/proc/self/status").unwrap();
    status.lines().find_map(|line| line.strip_prefix("VmHWM:")).unwrap_or("0 kB").trim().to_string()
}
