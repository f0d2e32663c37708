//! Puts edits and wrong hosts into the driver's text.

use crate::edits::Edit;
use crate::wrongs::Site;

/// The text with every edit made, each of which must match exactly once.
pub fn edited(text: &str, edits: &[Edit]) -> Result<String, String> {
    let mut text = text.to_owned();
    for edit in edits {
        let count = text.matches(edit.find).count();
        if count != 1 {
            return Err(format!(
                "an edit matches {count} times instead of once: {}",
                edit.reason
            ));
        }
        text = text.replacen(edit.find, edit.replace, 1);
    }
    Ok(text)
}

/// The text with every site made switchable: what stands there runs when no
/// wrong host of this site is on.
pub fn switched(text: &str, sites: &[&Site]) -> Result<String, String> {
    let mut places = Vec::new();
    for site in sites {
        let at = locate(text, site)?;
        places.push((at, at + site.find.len(), *site));
    }
    places.sort_by_key(|place| place.0);
    for pair in places.windows(2) {
        if pair[0].1 > pair[1].0 {
            return Err(format!(
                "two sites overlap: {:?} and {:?}",
                pair[0].2.find, pair[1].2.find
            ));
        }
    }
    let mut result = String::new();
    let mut done = 0;
    for (start, end, site) in places {
        result.push_str(&text[done..start]);
        result.push_str(&choice(site));
        done = end;
    }
    result.push_str(&text[done..]);
    Ok(result)
}

/// Where the site's text stands, which must be exactly one place of the
/// function that it names.
fn locate(text: &str, site: &Site) -> Result<usize, String> {
    let fault = |what: String| format!("wrong host {}: {what}", site.wrongs[0].name);
    if text.matches(site.within).count() != 1 {
        return Err(fault(format!("{:?} does not stand exactly once", site.within)));
    }
    let start = text.find(site.within).expect("just counted");
    let line = text[..start].rfind('\n').map_or(0, |newline| newline + 1);
    let indent = &text[line..start];
    let closing = format!("\n{}}}", &indent[..indent.len() - indent.trim_start().len()]);
    let end = text[start..].find(&closing).map_or(text.len(), |length| start + length);
    let region = &text[start..end];
    match region.matches(site.find).count() {
        1 => Ok(start + region.find(site.find).expect("just counted")),
        count => Err(fault(format!(
            "{:?} stands {count} times in {:?}",
            site.find, site.within
        ))),
    }
}

/// A chain of tests: statements stay statements, anything else becomes an
/// expression in brackets.
fn choice(site: &Site) -> String {
    let statement = site.find.trim_end().ends_with([';', '}']);
    let mut chain = String::new();
    for wrong in site.wrongs {
        chain.push_str(&format!(
            "if crate::wrong::is(crate::wrong::{}) {{ {} }} else ",
            constant(wrong.name),
            wrong.text
        ));
    }
    chain.push_str(&format!("{{ {} }}", site.find));
    if statement {
        chain
    } else {
        format!("({chain})")
    }
}

pub fn constant(name: &str) -> String {
    name.replace('-', "_").to_uppercase()
}
