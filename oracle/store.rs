//! The stored list: inputs of glance with the Rust's answers, for a program that replays them where no Rust is at hand. A frame is eight
//! hexadecimal digits of the input's length, eight of the answer's, LF, the input and the answer.
use crate::glance::{printed, Printed};
use crate::inputs::inputs;

/// What document 01's worked example prints at 9, the first input, with the names of document 02 §3.
const WORKED_AT_9: &str = "C 3 7 8 0\nS 1\nT 12 - - - - 15 18 15 18 19 20 19 20\nK 0 6 0\nK 7 8 6\nK 10 14 0\nK 15 18 9\nK 19 20 9\nE\n";

/// The list's bytes; it says on the way what was stored.
pub fn store(frames: usize, seed: u64) -> Result<Vec<u8>, String> {
    let mut list = Vec::new();
    let mut sorts: Vec<(&str, usize, usize)> = Vec::new();
    let (mut refusals, mut stopped, mut no_text) = ([0; 13], 0, 0);
    for (i, (sort, input)) in inputs(frames, seed).iter().enumerate() {
        let answer = match printed(input)? {
            Printed::Text(text) => text,
            Printed::Stopped => { stopped += 1; continue }
            Printed::NoText => { no_text += 1; continue }
        };
        if i == 0 && answer != WORKED_AT_9.as_bytes() {
            return Err("the worked example is not document 01's".into());
        }
        if let Some(number) = std::str::from_utf8(&answer).ok().and_then(|a| a.strip_prefix("R ")?.split(' ').next()?.parse::<usize>().ok()) { refusals[number] += 1 }
        let size = list.len();
        list.extend(format!("{:08x}{:08x}\n", input.len(), answer.len()).bytes());
        list.extend(input);
        list.extend(&answer);
        match sorts.iter_mut().find(|s| s.0 == *sort) {
            Some(s) => { s.1 += 1; s.2 += list.len() - size }
            None => sorts.push((sort, 1, list.len() - size)),
        }
    }
    for (sort, n, bytes) in &sorts {
        println!("{n} frames: {sort}, {bytes} bytes");
    }
    println!("{} frames in all, {} bytes; refusals by number: {:?}", sorts.iter().map(|s| s.1).sum::<usize>(), list.len(), &refusals[1..]);
    println!("left out: {stopped} at which the Rust stops at a lone quote mark, {no_text} that it cannot be asked");
    Ok(list)
}
