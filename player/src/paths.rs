//! What is wrong with a path or target that was refused.

use tickbutton::limits::{LONGEST_NAME, LONGEST_PATH, LONGEST_TARGET};
use tickbutton::shown;

/// What is wrong with a path, if anything is.
pub fn path_fault(path: &[u8]) -> Option<String> {
    fault("path", path, LONGEST_PATH).or_else(|| {
        (path.first() != Some(&b'/'))
            .then(|| format!("the path {} does not begin with /", shown(path)))
    })
}

/// What is wrong with a link's target, if anything is.
pub fn target_fault(target: &[u8]) -> Option<String> {
    fault("target", target, LONGEST_TARGET)
}

/// What paths and targets may not have alike.
fn fault(what: &str, path: &[u8], most: usize) -> Option<String> {
    if path.is_empty() {
        return Some(format!("the {what} is empty"));
    }
    if path.len() > most {
        return Some(format!("the {what} has {} bytes, and {most} are the most", path.len()));
    }
    if path == b"/" {
        return None;
    }
    if path.ends_with(b"/") {
        return Some(format!("the {what} {} ends with /", shown(path)));
    }
    let names = path.strip_prefix(b"/").unwrap_or(path);
    names.split(|byte| *byte == b'/').find_map(name_fault)
}

/// What is wrong with a name, if anything is.
fn name_fault(name: &[u8]) -> Option<String> {
    if name.is_empty() {
        return Some("two / follow each other".to_string());
    }
    if name.len() > LONGEST_NAME {
        let length = name.len();
        return Some(format!(
            "the name {} has {length} bytes, and {LONGEST_NAME} are the most",
            shown(name)
        ));
    }
    if name == b"." || name == b".." {
        return Some(format!("{} is no name", shown(name)));
    }
    name.contains(&0).then(|| format!("the name {} has a zero byte", shown(name)))
}
