//! Whether a text is well-formed XML, as far as pictures go: elements, attributes, escaped text.

/// An element: its name, its attributes, and the ids of the elements around it.
#[derive(Clone, Debug)]
pub struct Element {
    pub name: String,
    pub attributes: Vec<(String, String)>,
    pub within: Vec<String>,
    /// The names of the elements right inside it.
    pub children: Vec<String>,
}

impl Element {
    pub fn attribute(&self, name: &str) -> &str {
        self.attributes.iter().find(|(own, _)| own == name).map_or("", |(_, value)| value)
    }

    /// Whether it is of a class.
    pub fn is_a(&self, class: &str) -> bool {
        self.attribute("class").split(' ').any(|own| own == class)
    }

    pub fn is_within(&self, id: &str) -> bool {
        self.within.iter().any(|own| own == id)
    }
}

/// The elements of a well-formed text, or what is wrong with it.
pub fn elements(text: &str) -> Result<Vec<Element>, String> {
    let (mut found, mut open): (Vec<Element>, Vec<usize>) = (Vec::new(), Vec::new());
    let mut rest = text;
    while let Some((before, tag)) = rest.split_once('<') {
        plain(before)?;
        if open.is_empty() && !before.trim().is_empty() {
            return Err(format!("text outside the root: {before}"));
        }
        let (tag, behind) = tag.split_once('>').ok_or("a tag has no end")?;
        rest = behind;
        if let Some(name) = tag.strip_prefix('/') {
            let last = open.pop().ok_or_else(|| format!("{name} was not open"))?;
            if found[last].name != name {
                return Err(format!("{name} closes {}", found[last].name));
            }
            continue;
        }
        let (tag, alone) = tag.strip_suffix('/').map_or((tag, false), |tag| (tag, true));
        let mut element = element(tag)?;
        if open.is_empty() && !found.is_empty() {
            return Err("a second root".to_owned());
        }
        element.within =
            open.iter().map(|&outer| found[outer].attribute("id").to_owned()).collect();
        if let Some(&outer) = open.last() {
            found[outer].children.push(element.name.clone());
        }
        found.push(element);
        if !alone {
            open.push(found.len() - 1);
        }
    }
    match open.last() {
        Some(&left) => Err(format!("{} is left open", found[left].name)),
        None if rest.trim().is_empty() => Ok(found),
        None => Err(format!("text outside the root: {rest}")),
    }
}

/// Every & begins one of the entities that XML knows.
fn plain(text: &str) -> Result<(), String> {
    let known = ["amp;", "lt;", "gt;", "quot;", "apos;"];
    let mut ands = text.split('&').skip(1);
    match ands.find(|rest| !known.iter().any(|entity| rest.starts_with(entity))) {
        Some(rest) => Err(format!("& before {rest}")),
        None if text.contains('>') => Err(format!("> in {text}")),
        None => Ok(()),
    }
}

fn element(tag: &str) -> Result<Element, String> {
    let (name, mut rest) = tag.split_once(' ').unwrap_or((tag, ""));
    let is_name = |name: &str| {
        name.starts_with(|c: char| c.is_ascii_alphabetic())
            && name.chars().all(|c| c.is_ascii_alphanumeric() || c == '-')
    };
    let mut attributes: Vec<(String, String)> = Vec::new();
    while !rest.trim().is_empty() {
        let (key, value) =
            rest.trim_start().split_once("=\"").ok_or_else(|| format!("no value: {rest}"))?;
        let (value, behind) = value.split_once('"').ok_or_else(|| format!("no quote: {rest}"))?;
        plain(value)?;
        if !is_name(key) || attributes.iter().any(|(own, _)| own == key) {
            return Err(format!("no attribute, or one twice: {key}"));
        }
        attributes.push((key.to_owned(), value.to_owned()));
        rest = behind;
    }
    if !is_name(name) {
        return Err(format!("no name: {name}"));
    }
    let (within, children) = (Vec::new(), Vec::new());
    Ok(Element { name: name.to_owned(), attributes, within, children })
}

/// The judge itself can say no.
#[test]
fn texts_that_are_not_well_formed() {
    assert!(elements("<a b=\"c\">d &amp; <e/></a>\n").is_ok());
    for wrong in [
        "<a>",
        "<a></b>",
        "</a>",
        "<a/><b/>",
        "a<b/>",
        "<a/>b",
        "<a>&</a>",
        "<a>&nbsp;</a>",
        "<a>></a>",
        "<a b></a>",
        "<a b=c></a>",
        "<a b=\"c></a>",
        "<a b=\"c\" b=\"c\"/>",
        "<a b=\"&\"/>",
        "<a",
        "<1/>",
    ] {
        assert!(elements(wrong).is_err(), "{wrong}");
    }
}
