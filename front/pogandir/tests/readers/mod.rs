//! Small readers of what the sheet writes: CSV, and tags that have to be balanced.

/// The records of a CSV text after RFC 4180, or where it breaks the rules.
pub fn csv(text: &str) -> Result<Vec<Vec<String>>, String> {
    let mut records = Vec::new();
    let mut rest = text.strip_prefix('\u{feff}').unwrap_or(text);
    while !rest.is_empty() {
        let mut cells = Vec::new();
        loop {
            let (cell, after) = cell(rest)?;
            cells.push(cell);
            rest = after;
            match rest.strip_prefix(',') {
                Some(after) => rest = after,
                None => break,
            }
        }
        rest = rest.strip_prefix("\r\n").ok_or("a record does not end with CR and LF")?;
        records.push(cells);
    }
    Ok(records)
}

fn cell(text: &str) -> Result<(String, &str), String> {
    let Some(mut rest) = text.strip_prefix('"') else {
        let end = text.find([',', '\r']).ok_or("a cell has no end")?;
        return match text[..end].contains(['"', '\n']) {
            true => Err(format!("a cell without quotes has one: {}", &text[..end])),
            false => Ok((text[..end].to_string(), &text[end..])),
        };
    };
    let mut cell = String::new();
    loop {
        let end = rest.find('"').ok_or("quotes are not closed")?;
        cell.push_str(&rest[..end]);
        rest = &rest[end + 1..];
        match rest.strip_prefix('"') {
            Some(after) => rest = after,
            None => return Ok((cell, rest)),
        }
        cell.push('"');
    }
}

const VOID: [&str; 3] = ["meta", "input", "wbr"];
const RAW: [&str; 2] = ["script", "style"];

/// Whether every tag is closed in its order.
pub fn balanced(html: &str) -> Result<(), String> {
    let mut open: Vec<&str> = Vec::new();
    let mut rest = html.strip_prefix("<!DOCTYPE html>").ok_or("no document type")?;
    while let Some(start) = rest.find('<') {
        rest = &rest[start + 1..];
        let end = rest.find('>').ok_or("a tag has no end")?;
        let tag = &rest[..end];
        rest = &rest[end + 1..];
        if tag.contains('<') || tag.matches('"').count() % 2 == 1 {
            return Err(format!("<{tag}> is no tag"));
        }
        if let Some(name) = tag.strip_prefix('/') {
            match open.pop() {
                Some(last) if last == name => continue,
                last => return Err(format!("</{name}> closes {last:?}")),
            }
        }
        let name = tag.split([' ', '/']).next().unwrap_or(tag);
        if RAW.contains(&name) {
            let end = rest.find(&format!("</{name}>")).ok_or("a script has no end")?;
            rest = &rest[end + name.len() + 3..];
        } else if !tag.ends_with('/') && !VOID.contains(&name) {
            open.push(name);
        }
    }
    if open.is_empty() {
        Ok(())
    } else {
        Err(format!("{open:?} are not closed"))
    }
}

/// The values of an attribute in the page, in their order.
pub fn attributes<'a>(html: &'a str, name: &str) -> Vec<&'a str> {
    let before = format!(" {name}=\"");
    html.split(&before).skip(1).filter_map(|after| after.split('"').next()).collect()
}
