//! Which name a word resembles, by the similarity of Jaro, as the kit's `clap` has it.

use super::super::alloc::{AllocError, Global};
use super::super::Vec;
use super::Command;

/// Names above this resemble a word.
const ENOUGH: f64 = 0.7;

/// The names that resemble a word, the most alike last.
pub fn similar<'a>(
    alloc: Global,
    word: &str,
    names: impl Iterator<Item = &'a str>,
) -> Result<Vec<&'a str>, AllocError> {
    let mut found = Vec::new(alloc);
    for name in names {
        let alike = jaro(alloc, word, name)?;
        if ENOUGH < alike {
            let at = found.iter().filter(|(other, _)| *other <= alike).count();
            found.push((alike, name))?;
            found[at..].rotate_right(1);
        }
    }
    let mut names = Vec::with_capacity(alloc, found.len())?;
    for (_, name) in found {
        names.push_reserved(name);
    }
    Ok(names)
}

/// The option of a command that a word resembles most.
pub fn similar_option<'a>(
    command: &Command<'a>,
    word: &str,
) -> Result<Option<&'a str>, AllocError> {
    let names = command.args.iter().map(|arg| arg.long);
    Ok(similar(command.alloc, word, names)?.pop())
}

/// The option that a word resembles most: of the command, or of a subcommand that comes later.
pub fn similar_flag<'a>(
    command: &Command<'a>,
    word: &str,
    later: &[&str],
) -> Result<Option<(&'a str, Option<&'a str>)>, AllocError> {
    if let Some(name) = similar_option(command, word)? {
        return Ok(Some((name, None)));
    }
    let mut best = None;
    let mut first = usize::MAX;
    for subcommand in &command.subcommands {
        if let Some(name) = similar_option(subcommand, word)? {
            match later.iter().position(|other| *other == subcommand.name) {
                Some(at) if at < first => {
                    first = at;
                    best = Some((name, Some(subcommand.name)));
                }
                _ => {}
            }
        }
    }
    Ok(best)
}

fn chars(alloc: Global, text: &str) -> Result<Vec<(char, bool)>, AllocError> {
    let mut made = Vec::with_capacity(alloc, text.len())?;
    for letter in text.chars() {
        made.push_reserved((letter, false));
    }
    Ok(made)
}

/// How alike two texts are, from 0 to 1.
fn jaro(alloc: Global, one: &str, other: &str) -> Result<f64, AllocError> {
    let mut one = chars(alloc, one)?;
    let mut other = chars(alloc, other)?;
    if one.is_empty() || other.is_empty() {
        return Ok(if one.len() == other.len() { 1.0 } else { 0.0 });
    }
    let matches = mark_matches(&mut one, &mut other);
    if matches == 0 {
        return Ok(0.0);
    }
    let marked = |text: &[(char, bool)]| text.iter().filter(|(_, marked)| *marked).count();
    debug_assert!(marked(&one) == matches && marked(&other) == matches);
    let pairs = one
        .iter()
        .filter(|it| it.1)
        .zip(other.iter().filter(|it| it.1));
    let moved = pairs.filter(|(a, b)| a.0 != b.0).count() / 2;
    let count = matches as f64;
    let kept = (matches - moved) as f64 / count;
    Ok((count / one.len() as f64 + count / other.len() as f64 + kept) / 3.0)
}

/// Marks the letters that both texts have, not too far from each other, and returns how many pairs there are.
fn mark_matches(one: &mut [(char, bool)], other: &mut [(char, bool)]) -> usize {
    let range = (one.len().max(other.len()) / 2).saturating_sub(1);
    let mut matches = 0;
    for (i, (letter, marked)) in one.iter_mut().enumerate() {
        let window = i.saturating_sub(range)..other.len().min(i + range + 1);
        let near = other.get_mut(window).unwrap_or(&mut []);
        if let Some(found) = near.iter_mut().find(|it| it.0 == *letter && !it.1) {
            found.1 = true;
            *marked = true;
            matches += 1;
        }
    }
    matches
}
