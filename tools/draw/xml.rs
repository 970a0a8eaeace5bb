//! Writing XML: what comes out is well-formed, whatever is put in.

use std::fmt::Display;

/// The attributes of an element.
pub type Attributes<'a> = &'a [(&'a str, &'a dyn Display)];

/// A document that is being written, an element to a line.
pub struct Xml {
    text: String,
    open: Vec<&'static str>,
}

impl Xml {
    /// A document with nothing in it yet.
    pub fn new() -> Xml {
        Xml { text: String::new(), open: Vec::new() }
    }

    /// Begins an element; `close` ends it.
    pub fn open(&mut self, name: &'static str, attributes: Attributes) {
        self.tag(name, attributes, ">\n");
        self.open.push(name);
    }

    /// Ends the element that was begun last.
    pub fn close(&mut self) {
        if let Some(name) = self.open.pop() {
            self.text.push_str(&format!("</{name}>\n"));
        }
    }

    /// An element without content.
    pub fn leaf(&mut self, name: &'static str, attributes: Attributes) {
        self.tag(name, attributes, "/>\n");
    }

    /// An element with words in it.
    pub fn words(&mut self, name: &'static str, attributes: Attributes, words: &str) {
        self.tag(name, attributes, ">");
        self.text.push_str(&escaped(words));
        self.text.push_str(&format!("</{name}>\n"));
    }

    /// The document, with every element ended.
    pub fn finish(mut self) -> String {
        while !self.open.is_empty() {
            self.close();
        }
        self.text
    }

    fn tag(&mut self, name: &str, attributes: Attributes, end: &str) {
        self.text.push_str(&format!("<{name}"));
        for (attribute, value) in attributes {
            self.text.push_str(&format!(" {attribute}=\"{}\"", escaped(&value.to_string())));
        }
        self.text.push_str(end);
    }
}

/// Words as the text of an element or as the value of an attribute. A control character, which XML cannot have, is
/// written as a question mark.
fn escaped(words: &str) -> String {
    let character = |character: char| match character {
        '&' => "&amp;".to_string(),
        '<' => "&lt;".to_string(),
        '>' => "&gt;".to_string(),
        '"' => "&quot;".to_string(),
        '\u{fffe}' | '\u{ffff}' => "?".to_string(),
        other if other.is_control() => "?".to_string(),
        other => other.to_string(),
    };
    words.chars().map(character).collect()
}

#[cfg(test)]
pub mod tests {
    use super::*;

    /// Whether a text is a well-formed document of one element, of the kind that `Xml` writes: elements with quoted
    /// attributes, each once, and the four entities; no comments, no declarations. Otherwise what is wrong.
    pub fn well_formed(text: &str) -> Result<(), String> {
        let mut open: Vec<&str> = Vec::new();
        let mut roots = 0;
        let mut rest = text;
        while let Some(begin) = rest.find('<') {
            let (words, tag) = rest.split_at(begin);
            characters(words)?;
            if open.is_empty() && !words.trim().is_empty() {
                return Err(format!("words outside of the document: {words:?}"));
            }
            let end = tag.find('>').ok_or("a tag without an end")?;
            let inside = &tag[1..end];
            rest = &tag[end + 1..];
            if let Some(name) = inside.strip_prefix('/') {
                if open.pop() != Some(name) {
                    return Err(format!("</{name}> ends no element of that name"));
                }
                continue;
            }
            let leaf = inside.strip_suffix('/');
            let name = start_tag(leaf.unwrap_or(inside))?;
            roots += usize::from(open.is_empty());
            if leaf.is_none() {
                open.push(name);
            }
        }
        match (open.as_slice(), roots) {
            ([], 1) if rest.trim().is_empty() => Ok(()),
            _ => Err(format!("{roots} elements at the top, {open:?} without an end, {rest:?} after the last tag")),
        }
    }

    /// The name in a start tag, whose attributes are well-formed.
    fn start_tag(inside: &str) -> Result<&str, String> {
        let (name, mut rest) = inside.split_at(inside.find(' ').unwrap_or(inside.len()));
        is_name(name)?;
        let mut seen = Vec::new();
        while let Some(attribute) = rest.strip_prefix(' ') {
            let (key, value) = attribute.split_once("=\"").ok_or(format!("no value in <{inside}>"))?;
            let (value, after) = value.split_once('"').ok_or(format!("an open quotation mark in <{inside}>"))?;
            is_name(key)?;
            characters(value)?;
            if seen.contains(&key) {
                return Err(format!("{key} twice in <{inside}>"));
            }
            seen.push(key);
            rest = after;
        }
        if rest.is_empty() { Ok(name) } else { Err(format!("{rest:?} in <{inside}>")) }
    }

    fn is_name(name: &str) -> Result<(), String> {
        let first = name.starts_with(|c: char| c.is_ascii_alphabetic());
        let others = name.chars().all(|c| c.is_ascii_alphanumeric() || "-:".contains(c));
        if first && others { Ok(()) } else { Err(format!("{name:?} is no name")) }
    }

    /// Characters that XML may have, with `&` only where an entity begins.
    fn characters(words: &str) -> Result<(), String> {
        if let Some(wrong) = words.chars().find(|&c| (c.is_control() && c != '\n') || c == '<') {
            return Err(format!("the character {wrong:?}"));
        }
        for (at, _) in words.match_indices('&') {
            if !["&amp;", "&lt;", "&gt;", "&quot;"].iter().any(|entity| words[at..].starts_with(entity)) {
                return Err(format!("no entity: {:?}", &words[at..]));
            }
        }
        Ok(())
    }

    #[test]
    fn written() {
        let mut xml = Xml::new();
        xml.open("g", &[("id", &"a\"<&>"), ("x", &3)]);
        xml.leaf("rect", &[("x", &1), ("y", &2)]);
        xml.words("text", &[], "1 < 2 & \u{7}");
        let text = xml.finish();
        assert_eq!(
            text,
            "<g id=\"a&quot;&lt;&amp;&gt;\" x=\"3\">\n<rect x=\"1\" y=\"2\"/>\n<text>1 &lt; 2 &amp; ?</text>\n</g>\n"
        );
        assert_eq!(well_formed(&text), Ok(()));
    }

    #[test]
    fn not_well_formed() {
        let texts = [
            "", "words", "<g>", "</g>", "<g></h>", "<g/><g/>", "<g/>words", "words<g/>", "<g", "<g x></g>", "<g x=1/>",
            "<g x=\"1/>", "<g x=\"1\"y=\"2\"/>", "<g x=\"1\" x=\"2\"/>", "<g>&</g>", "<g>&nbsp;</g>", "<g x=\"<\"/>",
            "<g>\u{7}</g>", "<1/>", "<g x=\"1\" />", "<a><b></a></b>", "< g/>",
        ];
        for text in texts {
            assert!(well_formed(text).is_err(), "{text}");
        }
    }

    /// The pictures that are kept are well-formed.
    #[test]
    fn kept_pictures() {
        let folder = std::fs::read_dir("docs/pictures").expect("the root of the repository as working directory");
        let mut pictures = 0;
        for entry in folder {
            let path = entry.expect("an entry of the folder").path();
            if path.extension().is_some_and(|extension| extension == "svg") {
                let text = std::fs::read_to_string(&path).expect("a picture");
                assert_eq!(well_formed(&text), Ok(()), "{}", path.display());
                pictures += 1;
            }
        }
        assert!(pictures >= 3);
    }
}
