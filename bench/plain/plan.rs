//! The plan of a repository as a plain Rust program does it, over std alone and with no proofs: what
//! `bench/plan` compares `renovate plan OWNER/NAME --now T` with. It reads the same files of the folder
//! where it runs and prints the same plan. Of ranges it reads `^A.B.C` alone: what else it does not read it
//! refuses with status 15, and it is not as strict with what it reads.

use std::cmp::Ordering;
use std::collections::{BTreeMap, BTreeSet};
use std::io::Write;
use std::process::exit;
use std::rc::Rc;
use std::{env, fs, io};

const PLACES: [&str; 4] = [
    "dependencies",
    "devDependencies",
    "optionalDependencies",
    "peerDependencies",
];
const DEEPEST: usize = 127;
const LAST_MOMENT: i64 = 253_370_764_799;

fn main() {
    let words: Vec<String> = env::args().skip(1).collect();
    let [plan, repo, flag, now] = words.as_slice() else {
        refuse(2, "usage")
    };
    if plan != "plan" || flag != "--now" {
        refuse(2, "usage");
    }
    let mut dependencies = Vec::new();
    for path in paths(&format!("repos/{repo}")) {
        dependencies.extend(dependencies_of(repo, path));
    }
    if dependencies.len() > 20_000 {
        not_built("package.json");
    }
    let names: BTreeSet<&str> = dependencies.iter().map(|it| it.name.as_str()).collect();
    let indexes: BTreeMap<&str, Vec<Release>> = names
        .into_iter()
        .filter_map(|name| Some((name, index(name)?)))
        .collect();
    let mut branches: BTreeMap<String, Vec<Update>> = BTreeMap::new();
    for dependency in &dependencies {
        for update in updates(dependency, indexes.get(dependency.name.as_str())) {
            branches
                .entry(branch(&dependency.name, update.major))
                .or_default()
                .push(update);
        }
    }
    let mut items: Vec<(Kind, String, Vec<Update>)> = branches
        .into_iter()
        .map(|(name, updates)| {
            (
                updates
                    .iter()
                    .map(|it| it.kind)
                    .max()
                    .unwrap_or(Kind::Patch),
                name,
                updates,
            )
        })
        .collect();
    items.sort_by(|a, b| a.0.cmp(&b.0).then_with(|| a.1.cmp(&b.1)));
    io::stdout()
        .write_all(text(now, &items).as_bytes())
        .unwrap_or_else(|_| exit(10));
}

fn refuse(status: i32, what: &str) -> ! {
    println!("error {status}: {what}");
    exit(status)
}

fn not_built(path: &str) -> ! {
    refuse(15, &format!("{path} is not built yet"))
}

// ---- the repository's file

// The places of all files below the folder, by name.
fn paths(top: &str) -> Vec<String> {
    let mut found = Vec::new();
    let mut folders = vec![String::new()];
    while let Some(folder) = folders.pop() {
        let Ok(entries) = fs::read_dir(format!("{top}/{folder}")) else {
            not_built("package.json");
        };
        for entry in entries.flatten() {
            let path = format!("{folder}{}", entry.file_name().to_string_lossy());
            if entry.file_type().is_ok_and(|it| it.is_dir()) {
                folders.push(format!("{path}/"));
            } else {
                found.push(path);
            }
        }
    }
    found.sort();
    found
}

struct Dependency {
    path: Rc<str>,
    name: String,
    value: String,
    version: Version,
    is_caret: bool,
}

fn dependencies_of(repo: &str, path: String) -> Vec<Dependency> {
    if path.rsplit('/').next() != Some("package.json") {
        not_built(&path);
    }
    let package = match fs::read(format!("repos/{repo}/{path}")) {
        Ok(bytes) if bytes.len() <= 1_048_576 => bytes,
        _ => not_built(&path),
    };
    let Some(Json::Object(members)) = json(&package) else {
        return Vec::new();
    };
    let path: Rc<str> = path.into();
    let mut found = Vec::new();
    for (place, inside) in members {
        let Json::Object(inside) = inside else {
            continue;
        };
        if PLACES.contains(&place.as_str()) {
            found.extend(
                inside
                    .into_iter()
                    .filter_map(|(name, value)| dependency(&path, name, value)),
            );
        }
    }
    found
}

fn dependency(path: &Rc<str>, name: String, value: Json) -> Option<Dependency> {
    let Json::Text(value) = value else {
        return None;
    };
    let plain = value.trim_matches(' ');
    let is_caret = plain.starts_with('^');
    let plain = plain
        .strip_prefix(['^', '='])
        .unwrap_or(plain)
        .trim_start_matches(' ');
    match version(plain.strip_prefix('v').unwrap_or(plain)) {
        Some(version) => Some(Dependency {
            path: path.clone(),
            name,
            value,
            version,
            is_caret,
        }),
        None => not_built(path),
    }
}

// ---- the documents of the index

struct Release {
    text: String,
    #[allow(dead_code)]
    time: Option<u64>,
}

fn index(name: &str) -> Option<Vec<Release>> {
    let path = format!("index/npm/{name}.json");
    let bytes = fs::read(&path).ok()?;
    match releases(&bytes) {
        Some(releases) if releases.len() <= 50_000 => Some(releases),
        _ => not_built(&path),
    }
}

fn releases(bytes: &[u8]) -> Option<Vec<Release>> {
    let Json::Object(members) = json(bytes)? else {
        return None;
    };
    let mut members: BTreeMap<String, Json> = members.into_iter().collect();
    let Json::Object(versions) = members.remove("versions")? else {
        return None;
    };
    let times: BTreeMap<String, Json> = match members.remove("time") {
        None => BTreeMap::new(),
        Some(Json::Object(times)) => times.into_iter().collect(),
        Some(_) => return None,
    };
    let versions: BTreeMap<String, Json> = versions.into_iter().collect();
    let releases = versions.into_keys().map(|text| {
        let time = match times.get(&text) {
            Some(Json::Text(instant)) => moment(instant.as_bytes()),
            _ => None,
        };
        Release { text, time }
    });
    Some(releases.collect())
}

// The seconds of `YYYY-MM-DDTHH:MM:SS[.FRACTION](Z|+HH:MM|-HH:MM)` since 1970, down to whole ones.
fn moment(text: &[u8]) -> Option<u64> {
    let number = |from: usize, to: usize| -> Option<i64> {
        let digits = text.get(from..to)?;
        digits.iter().try_fold(0, |n, it| {
            it.is_ascii_digit().then(|| n * 10 + i64::from(it - b'0'))
        })
    };
    let (year, month, day) = (number(0, 4)?, number(5, 7)?, number(8, 10)?);
    let (hour, minute, second) = (number(11, 13)?, number(14, 16)?, number(17, 19)?);
    let fraction = text
        .get(19..)?
        .iter()
        .take_while(|it| **it == b'.' || it.is_ascii_digit())
        .count();
    let at = 19 + fraction;
    let offset = match text.get(at)? {
        b'Z' if text.len() == at + 1 => 0,
        sign @ (b'+' | b'-') if text.len() == at + 6 => {
            let seconds = number(at + 1, at + 3)? * 3600 + number(at + 4, at + 6)? * 60;
            if *sign == b'+' {
                seconds
            } else {
                -seconds
            }
        }
        _ => return None,
    };
    if !(1..=12).contains(&month)
        || !(1..=31).contains(&day)
        || hour > 23
        || minute > 59
        || second > 60
    {
        return None;
    }
    // Years that begin in March end with the leap day.
    let (y, m) = if month > 2 {
        (year, month - 3)
    } else {
        (year - 1, month + 9)
    };
    let days =
        y * 365 + y.div_euclid(4) - y.div_euclid(100) + y.div_euclid(400) + (m * 153 + 2) / 5 + day
            - 719_469;
    let seconds = days * 86_400 + hour * 3600 + minute * 60 + second - offset;
    (0..=LAST_MOMENT)
        .contains(&seconds)
        .then_some(seconds as u64)
}

// ---- JSON

enum Json {
    Other,
    Text(String),
    List(#[allow(dead_code)] Vec<Json>),
    Object(Vec<(String, Json)>),
}

fn json(bytes: &[u8]) -> Option<Json> {
    std::str::from_utf8(bytes).ok()?;
    let mut reader = Reader { bytes, at: 0 };
    let value = reader.value(DEEPEST)?;
    reader.gap();
    (reader.at == bytes.len()).then_some(value)
}

struct Reader<'a> {
    bytes: &'a [u8],
    at: usize,
}

impl Reader<'_> {
    fn peek(&self) -> Option<u8> {
        self.bytes.get(self.at).copied()
    }

    fn gap(&mut self) {
        while let Some(b' ' | b'\t' | b'\n' | b'\r') = self.peek() {
            self.at += 1;
        }
    }

    fn takes(&mut self, byte: u8) -> bool {
        self.gap();
        let here = self.peek() == Some(byte);
        self.at += usize::from(here);
        here
    }

    fn value(&mut self, depth: usize) -> Option<Json> {
        self.gap();
        match self.peek()? {
            b'"' => Some(Json::Text(self.text()?)),
            b'{' => self.object(depth.checked_sub(1)?),
            b'[' => self.list(depth.checked_sub(1)?),
            b't' => self.word(b"true"),
            b'f' => self.word(b"false"),
            b'n' => self.word(b"null"),
            _ => self.number(),
        }
    }

    fn object(&mut self, depth: usize) -> Option<Json> {
        self.at += 1;
        let mut members = Vec::new();
        if self.takes(b'}') {
            return Some(Json::Object(members));
        }
        loop {
            self.gap();
            let name = self.text()?;
            if !self.takes(b':') {
                return None;
            }
            members.push((name, self.value(depth)?));
            if self.takes(b'}') {
                return Some(Json::Object(members));
            }
            if !self.takes(b',') {
                return None;
            }
        }
    }

    fn list(&mut self, depth: usize) -> Option<Json> {
        self.at += 1;
        let mut items = Vec::new();
        if self.takes(b']') {
            return Some(Json::List(items));
        }
        loop {
            items.push(self.value(depth)?);
            if self.takes(b']') {
                return Some(Json::List(items));
            }
            if !self.takes(b',') {
                return None;
            }
        }
    }

    fn word(&mut self, word: &[u8]) -> Option<Json> {
        self.bytes[self.at..]
            .starts_with(word)
            .then(|| self.at += word.len())?;
        Some(Json::Other)
    }

    fn digits(&mut self) -> usize {
        let from = self.at;
        while self.peek().is_some_and(|it| it.is_ascii_digit()) {
            self.at += 1;
        }
        self.at - from
    }

    fn number(&mut self) -> Option<Json> {
        self.at += usize::from(self.peek() == Some(b'-'));
        let zero = self.peek() == Some(b'0');
        let digits = self.digits();
        if digits == 0 || zero && digits > 1 {
            return None;
        }
        if self.peek() == Some(b'.') {
            self.at += 1;
            if self.digits() == 0 {
                return None;
            }
        }
        if let Some(b'e' | b'E') = self.peek() {
            self.at += 1;
            self.at += usize::from(matches!(self.peek(), Some(b'+' | b'-')));
            if self.digits() == 0 {
                return None;
            }
        }
        Some(Json::Other)
    }

    fn text(&mut self) -> Option<String> {
        if self.peek()? != b'"' {
            return None;
        }
        self.at += 1;
        let from = self.at;
        while !matches!(self.peek()?, b'"' | b'\\' | 0..=31) {
            self.at += 1;
        }
        let mut text = self.bytes[from..self.at].to_vec();
        loop {
            let byte = self.peek()?;
            self.at += 1;
            match byte {
                b'"' => return String::from_utf8(text).ok(),
                b'\\' => text.extend_from_slice(self.escape()?.encode_utf8(&mut [0; 4]).as_bytes()),
                0..=31 => return None,
                _ => text.push(byte),
            }
        }
    }

    fn escape(&mut self) -> Option<char> {
        let byte = self.peek()?;
        self.at += 1;
        match byte {
            b'"' | b'\\' | b'/' => Some(char::from(byte)),
            b'b' => Some('\u{8}'),
            b'f' => Some('\u{c}'),
            b'n' => Some('\n'),
            b'r' => Some('\r'),
            b't' => Some('\t'),
            b'u' => {
                let high = self.hex()?;
                if !(0xd800..0xdc00).contains(&high) {
                    return char::from_u32(high);
                }
                self.word(b"\\u")?;
                let low = self.hex()?.checked_sub(0xdc00).filter(|it| *it < 0x400)?;
                char::from_u32(0x10000 + ((high - 0xd800) << 10) + low)
            }
            _ => None,
        }
    }

    fn hex(&mut self) -> Option<u32> {
        let digits = std::str::from_utf8(self.bytes.get(self.at..self.at + 4)?).ok()?;
        self.at += 4;
        digits
            .bytes()
            .all(|it| it.is_ascii_hexdigit())
            .then(|| u32::from_str_radix(digits, 16).ok())?
    }
}

// ---- versions

struct Version {
    numbers: [u64; 3],
    pre: Vec<Part>,
}

#[derive(PartialEq, Eq, PartialOrd, Ord)]
enum Part {
    Number(u64),
    Word(String),
}

fn version(text: &str) -> Option<Version> {
    let (text, build) = text
        .split_once('+')
        .map_or((text, None), |(text, build)| (text, Some(build)));
    let (core, pre) = text
        .split_once('-')
        .map_or((text, None), |(core, pre)| (core, Some(pre)));
    if build.is_some_and(|build| !build.split('.').all(is_part)) {
        return None;
    }
    let mut parts = core.split('.');
    let numbers = [
        number(parts.next()?)?,
        number(parts.next()?)?,
        number(parts.next()?)?,
    ];
    if parts.next().is_some() {
        return None;
    }
    let pre = match pre {
        Some(pre) => pre.split('.').map(part).collect::<Option<Vec<Part>>>()?,
        None => Vec::new(),
    };
    Some(Version { numbers, pre })
}

fn number(text: &str) -> Option<u64> {
    if text.is_empty()
        || !text.bytes().all(|it| it.is_ascii_digit())
        || text.len() > 1 && text.starts_with('0')
    {
        return None;
    }
    text.parse().ok().filter(|it| *it <= 9_007_199_254_740_991)
}

fn is_part(text: &str) -> bool {
    !text.is_empty()
        && text
            .bytes()
            .all(|it| it.is_ascii_alphanumeric() || it == b'-')
}

fn part(text: &str) -> Option<Part> {
    if !is_part(text) {
        return None;
    }
    if !text.bytes().all(|it| it.is_ascii_digit()) {
        return Some(Part::Word(text.to_string()));
    }
    number(text).map(Part::Number)
}

fn compare(a: &Version, b: &Version) -> Ordering {
    let stable = a.pre.is_empty().cmp(&b.pre.is_empty());
    a.numbers
        .cmp(&b.numbers)
        .then(stable)
        .then_with(|| a.pre.cmp(&b.pre))
}

// ---- the choice

#[derive(Clone, Copy, PartialEq, Eq, PartialOrd, Ord)]
enum Kind {
    Patch,
    Minor,
    Major,
}

struct Update<'a> {
    dependency: &'a Dependency,
    value: String,
    major: u64,
    kind: Kind,
}

struct Candidate<'a> {
    text: &'a str,
    version: Version,
}

// Whether `^` before the first version allows the second one.
fn is_in_caret(low: &Version, version: &Version) -> bool {
    let (low_numbers, numbers) = (&low.numbers, &version.numbers);
    let fixed = low_numbers
        .iter()
        .take(2)
        .take_while(|it| **it == 0)
        .count()
        + 1;
    low_numbers[..fixed] == numbers[..fixed]
        && compare(low, version) != Ordering::Greater
        && (version.pre.is_empty() || !low.pre.is_empty() && low_numbers == numbers)
}

impl Dependency {
    fn takes(&self, version: &Version) -> bool {
        self.is_caret && is_in_caret(&self.version, version)
    }
}

fn updates<'a>(dependency: &'a Dependency, releases: Option<&Vec<Release>>) -> Vec<Update<'a>> {
    let live: Vec<Candidate> = releases
        .into_iter()
        .flatten()
        .filter_map(candidate)
        .collect();
    let current = if dependency.is_caret {
        let inside = live
            .iter()
            .map(|it| &it.version)
            .filter(|it| dependency.takes(it));
        inside.max_by(|a, b| compare(a, b))
    } else {
        Some(&dependency.version)
    };
    let Some(start) = current else {
        return Vec::new();
    };
    let (mut rest, mut major) = (None, None);
    for next in &live {
        let version = &next.version;
        if compare(start, version) != Ordering::Less
            || !version.pre.is_empty() && start.pre.is_empty()
            || dependency.takes(version)
        {
            continue;
        }
        let best = if version.numbers[0] == start.numbers[0] {
            &mut rest
        } else {
            &mut major
        };
        take_greater(best, next);
    }
    [rest, major]
        .into_iter()
        .flatten()
        .map(|it| update(dependency, start, it))
        .collect()
}

fn candidate(release: &Release) -> Option<Candidate<'_>> {
    let text = release.text.as_str();
    let version = version(text.strip_prefix(['v', '=']).unwrap_or(text))?;
    Some(Candidate { text, version })
}

fn take_greater<'a>(best: &mut Option<&'a Candidate<'a>>, next: &'a Candidate<'a>) {
    match best {
        Some(best)
            if compare(&best.version, &next.version)
                .then(best.text.cmp(next.text))
                .is_ge() => {}
        _ => *best = Some(next),
    }
}

fn update<'a>(dependency: &'a Dependency, old: &Version, chosen: &Candidate) -> Update<'a> {
    let new = &chosen.version;
    let kind = if old.numbers[0] != new.numbers[0] {
        Kind::Major
    } else if old.numbers[1] != new.numbers[1] {
        Kind::Minor
    } else {
        Kind::Patch
    };
    let [first, second, third] = new.numbers;
    let mut text = format!("{first}.{second}.{third}");
    for (at, part) in new.pre.iter().enumerate() {
        text.push(if at == 0 { '-' } else { '.' });
        match part {
            Part::Number(number) => text.push_str(&number.to_string()),
            Part::Word(word) => text.push_str(word),
        }
    }
    let value = &dependency.value;
    let front = value.len() - value.trim_start_matches([' ', '^', '=', 'v']).len();
    let spaces = value.len() - value.trim_end_matches(' ').len();
    let value = format!(
        "{}{text}{}",
        &value[..front],
        &value[value.len() - spaces..]
    );
    Update {
        dependency,
        value,
        major: first,
        kind,
    }
}

fn branch(package: &str, major: u64) -> String {
    let mut topic = String::new();
    for byte in package
        .bytes()
        .map(|it| it.to_ascii_lowercase())
        .filter(|it| *it != b'@')
    {
        let plain =
            byte.is_ascii_lowercase() || byte.is_ascii_digit() || byte == b'.' || byte == b'_';
        if plain || !topic.ends_with('-') {
            topic.push(if plain { char::from(byte) } else { '-' });
        }
    }
    let topic = match topic.trim_matches(['-', '.']) {
        "" => "x",
        topic => topic,
    };
    format!("renovate/{topic}-{major}.x")
}

fn text(now: &str, items: &[(Kind, String, Vec<Update>)]) -> String {
    let mut text = format!("now {now}\n");
    let mut count = 0;
    for (_, branch, updates) in items {
        count += updates.len();
        for update in updates {
            let kind = match update.kind {
                Kind::Patch => "patch",
                Kind::Minor => "minor",
                Kind::Major => "major",
            };
            let Dependency {
                path, name, value, ..
            } = update.dependency;
            text.push_str(&format!(
                "{path} {name} {value} -> {} ({kind}) {branch}\n",
                update.value
            ));
        }
    }
    text.push_str(&format!("{count} updates, {} branches\n", items.len()));
    text
}
