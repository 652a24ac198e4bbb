//! Files and lists to be made, and files broken at every place.

use crate::rng::Rng;
use crate::scripts::{break_byte, cut};

/// Files or lists of one make.
pub struct Sort<T> {
    pub name: &'static str,
    /// How many there are, or are made once.
    pub count: usize,
    make: Make<T>,
}

enum Make<T> {
    Listed(Vec<T>),
    Random(fn(&mut Rng) -> T),
}

impl<T: Clone> Sort<T> {
    pub fn listed(name: &'static str, all: Vec<T>) -> Sort<T> {
        Sort {
            name,
            count: all.len(),
            make: Make::Listed(all),
        }
    }

    pub fn random(name: &'static str, count: usize, make: fn(&mut Rng) -> T) -> Sort<T> {
        Sort {
            name,
            count,
            make: Make::Random(make),
        }
    }

    /// The one of this number. Past `count` a list begins again, and others are made anew.
    pub fn made(&self, seed: u64, number: usize) -> T {
        match &self.make {
            Make::Listed(all) => all[number % all.len()].clone(),
            Make::Random(make) => make(&mut Rng::new(seed, number as u64)),
        }
    }
}

/// The lines with their line feeds.
pub fn ended<T: AsRef<str>>(lines: &[T]) -> String {
    let lines = lines.iter().map(AsRef::as_ref);
    lines.flat_map(|line| [line, "\n"]).collect()
}

pub fn power_of_ten(zeros: usize) -> String {
    "1".to_string() + &"0".repeat(zeros)
}

/// The file cut short before each byte, and whole.
pub fn cut_everywhere(file: &[u8]) -> Vec<Vec<u8>> {
    (0..=file.len()).map(|end| file[..end].to_vec()).collect()
}

/// The file with each of these bytes in each place from `first` on.
pub fn changed_from(file: &[u8], first: usize, bytes: &[u8]) -> Vec<Vec<u8>> {
    let mut files = Vec::new();
    for place in first..file.len() {
        for byte in bytes {
            let mut changed = file.to_vec();
            changed[place] = *byte;
            files.push(changed);
        }
    }
    files
}

/// The file with each of these bytes put into each place.
pub fn inserted_everywhere(file: &[u8], bytes: &[u8]) -> Vec<Vec<u8>> {
    let mut files = Vec::new();
    for place in 0..=file.len() {
        for byte in bytes {
            let mut longer = file.to_vec();
            longer.insert(place, *byte);
            files.push(longer);
        }
    }
    files
}

/// Each byte once dropped, once doubled, and once exchanged with the next.
pub fn rearranged(file: &[u8]) -> Vec<Vec<u8>> {
    let mut files = Vec::new();
    for place in 0..file.len() {
        let mut dropped = file.to_vec();
        let byte = dropped.remove(place);
        let mut doubled = file.to_vec();
        doubled.insert(place, byte);
        let mut exchanged = file.to_vec();
        let next = (place + 1).min(exchanged.len() - 1);
        exchanged.swap(place, next);
        files.extend([dropped, doubled, exchanged]);
    }
    files
}

/// No bytes, and each byte alone.
pub fn short_files() -> Vec<Vec<u8>> {
    let one = (0..=255).map(|byte| vec![byte]);
    [Vec::new()].into_iter().chain(one).collect()
}

/// The file with one byte broken, or more.
pub fn with_broken_bytes(rng: &mut Rng, mut file: Vec<u8>) -> Vec<u8> {
    loop {
        let byte = rng.word() as u8;
        break_byte(rng, &mut file, byte);
        if rng.percent(70) {
            return file;
        }
    }
}

/// The file cut short somewhere.
pub fn cut_short(rng: &mut Rng, mut file: Vec<u8>) -> Vec<u8> {
    cut(rng, &mut file);
    file
}

/// The lines with one of these items in the place of one of theirs, or of more.
pub fn with_items(rng: &mut Rng, mut lines: Vec<String>, items: &[String]) -> String {
    loop {
        let line = rng.below(lines.len());
        let mut parts: Vec<&str> = lines[line].split(' ').collect();
        let place = rng.below(parts.len());
        parts[place] = &items[rng.below(items.len())];
        lines[line] = parts.join(" ");
        if rng.percent(60) {
            return ended(&lines);
        }
    }
}

/// The file, and then bytes without sense, most of them of these.
pub fn with_noise(rng: &mut Rng, mut file: Vec<u8>, likely: &[u8], counts: &[usize]) -> Vec<u8> {
    for _ in 0..rng.pick(counts) {
        let any = rng.word() as u8;
        let one = rng.pick(likely);
        file.push(rng.pick(&[any, one, one, one, one]));
    }
    file
}
