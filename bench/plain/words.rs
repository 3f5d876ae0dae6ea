//! The words of a command.
use super::*;

pub(crate) struct Options(pub(crate) HashMap<String, String>);

pub(crate) fn number(text: &str) -> Option<usize> {
    let plain = text.bytes().all(|b| b.is_ascii_digit()) && (text == "0" || !text.starts_with('0'));
    if plain {
        text.parse().ok()
    } else {
        None
    }
}

impl Options {
    pub(crate) fn read(words: &[String], names: &[&str]) -> Answer<Options> {
        let (mut found, mut words) = (HashMap::new(), words.iter());
        while let Some(word) = words.next() {
            let Some(item) = word.strip_prefix("--") else { return usage() };
            let (name, value) = match (item.split_once('='), names.contains(&item)) {
                (Some(pair), _) => pair,
                (None, true) => (item, words.next().map_or("", |word| word.as_str())),
                _ => return usage(),
            };
            let twice = found.insert(name.to_string(), value.to_string()).is_some();
            if twice || !names.contains(&name) {
                return usage();
            }
        }
        Ok(Options(found))
    }

    pub(crate) fn number(
        &self,
        name: &str,
        least: usize,
        most: usize,
        default: usize,
    ) -> Answer<usize> {
        match self.0.get(name).map(|text| number(text)) {
            None => Ok(default),
            Some(Some(value)) if (least..=most).contains(&value) => Ok(value),
            _ => usage(),
        }
    }

    /// The place of the value among `values`, the first of which is the default.
    pub(crate) fn choice(&self, name: &str, values: &[&str]) -> Answer<usize> {
        let Some(text) = self.0.get(name) else { return Ok(0) };
        values.iter().position(|value| value == text).map_or_else(usage, Ok)
    }

    pub(crate) fn loss(&self) -> Answer<Loss> {
        let Some(text) = self.0.get("loss") else { return Ok(Loss::First(0)) };
        match text.split_once(':').map(|(kind, value)| (kind, number(value))) {
            None if text == "none" => Ok(Loss::First(0)),
            Some(("first", Some(count))) if count <= 1 << 24 => Ok(Loss::First(count)),
            Some(("even", Some(chance))) if chance <= 1000 => Ok(Loss::Even(chance)),
            _ => usage(),
        }
    }
}

pub(crate) enum Loss {
    First(usize),
    Even(usize),
}
