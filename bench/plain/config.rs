//! Reads a configuration as a plain Rust program does it, over `serde_json` and `regex` and with no proofs: what
//! `bench/config` compares the reading of `rnv_config` with. Of options it reads `extends` and `packageRules`
//! alone, and in rules `matchPackageNames` and `groupName`: all else it refuses with status 1.

use regex::Regex;
use serde_json::Value;
use std::process::exit;
use std::{env, fs};

const MOST_GLOBS: usize = 256;

#[allow(dead_code)]
struct Rule {
    names: Vec<(String, Pattern)>,
    group: Option<String>,
}

#[allow(dead_code)]
struct Pattern {
    negated: bool,
    body: Body,
}

#[allow(dead_code)]
enum Body {
    Expression(Regex),
    Globs(Vec<Vec<Part>>),
}

#[allow(dead_code)]
enum Part {
    Folders,
    Any,
    Inside,
    One,
    Class(bool, Vec<(char, char)>),
    Char(char),
}

fn main() {
    let words: Vec<String> = env::args().skip(1).collect();
    let [path, turns] = words.as_slice() else {
        exit(2)
    };
    let bytes = fs::read(path).unwrap_or_else(|_| exit(1));
    let mut count = 0;
    for _ in 0..turns.parse().unwrap_or(0) {
        count = rules_of(&bytes).unwrap_or_else(|| exit(1)).len();
    }
    println!("{count}");
}

fn rules_of(bytes: &[u8]) -> Option<Vec<Rule>> {
    let value: Value = serde_json::from_slice(bytes).ok()?;
    let mut rules = Vec::new();
    for (name, value) in value.as_object()? {
        match name.as_str() {
            "extends" => {
                texts(value)?;
            }
            "packageRules" => rules = value.as_array()?.iter().map(rule).collect::<Option<_>>()?,
            _ => return None,
        }
    }
    Some(rules)
}

fn rule(value: &Value) -> Option<Rule> {
    let mut rule = Rule {
        names: Vec::new(),
        group: None,
    };
    for (name, value) in value.as_object()? {
        match name.as_str() {
            "matchPackageNames" => {
                for text in texts(value)? {
                    let pattern = pattern(&text)?;
                    rule.names.push((text, pattern));
                }
            }
            "groupName" => rule.group = Some(value.as_str()?.to_string()),
            _ => return None,
        }
    }
    Some(rule)
}

fn texts(value: &Value) -> Option<Vec<String>> {
    match value {
        Value::String(text) => Some(vec![text.clone()]),
        Value::Array(items) => items
            .iter()
            .map(|it| it.as_str().map(str::to_string))
            .collect(),
        _ => None,
    }
}

// ---- patterns

fn pattern(text: &str) -> Option<Pattern> {
    let (negated, rest) = match text.strip_prefix('!') {
        Some(rest) => (true, rest),
        None => (false, text),
    };
    let body = match expression(rest) {
        Some((inner, false)) => Body::Expression(Regex::new(inner).ok()?),
        Some((inner, true)) => Body::Expression(Regex::new(&format!("(?i){inner}")).ok()?),
        None => Body::Globs(globs(rest)?),
    };
    Some(Pattern { negated, body })
}

// What stands between the slashes, and whether case is folded.
fn expression(text: &str) -> Option<(&str, bool)> {
    let rest = text.strip_prefix('/')?;
    match rest.strip_suffix("/i") {
        Some(inner) => Some((inner, true)),
        None => Some((rest.strip_suffix('/')?, false)),
    }
}

// The globs that braces are multiplied out to.
fn globs(text: &str) -> Option<Vec<Vec<Part>>> {
    let mut texts = vec![String::new()];
    let mut rest = text;
    while let Some((front, inside)) = rest.split_once('{') {
        let (inside, behind) = inside.split_once('}')?;
        if inside.contains('{') {
            return None;
        }
        let fronts = texts;
        texts = Vec::new();
        for part in inside.split(',') {
            texts.extend(fronts.iter().map(|it| format!("{it}{front}{part}")));
        }
        if texts.len() > MOST_GLOBS {
            return None;
        }
        rest = behind;
    }
    texts
        .iter()
        .map(|it| parts(&format!("{it}{rest}")))
        .collect()
}

fn parts(text: &str) -> Option<Vec<Part>> {
    let chars: Vec<char> = text.chars().collect();
    let (mut parts, mut at) = (Vec::new(), 0);
    while at < chars.len() {
        let (part, length) = match &chars[at..] {
            ['*', '*', '/', ..] => (Part::Folders, 3),
            ['*', '*', ..] => (Part::Any, 2),
            ['*', ..] => (Part::Inside, 1),
            ['?', ..] => (Part::One, 1),
            ['[', rest @ ..] => class(rest)?,
            rest => (Part::Char(rest[0]), 1),
        };
        parts.push(part);
        at += length;
    }
    Some(parts)
}

// A class behind its `[`, and the length with both.
fn class(text: &[char]) -> Option<(Part, usize)> {
    let end = text.iter().position(|it| *it == ']')?;
    let negated = text[0] == '!';
    let mut left = &text[usize::from(negated)..end];
    let mut ranges = Vec::new();
    while let [first, rest @ ..] = left {
        let (last, rest) = match rest {
            ['-', last, rest @ ..] => (last, rest),
            _ => (first, rest),
        };
        if first > last {
            return None;
        }
        ranges.push((*first, *last));
        left = rest;
    }
    (!ranges.is_empty()).then_some((Part::Class(negated, ranges), end + 2))
}
