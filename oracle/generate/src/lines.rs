//! The lines that the oracle prints.

use std::fs;

/// The oracle's answer to one question.
pub struct Answer {
    pub head: Vec<String>,
    pub nodes: Vec<[u32; 6]>,
}

/// The answers to each file; none where the oracle gave the file up.
pub fn read_answers(path: &str) -> Result<Vec<Vec<Answer>>, String> {
    let lines = fs::read_to_string(path).map_err(|error| format!("{path}: {error}"))?;
    let mut files: Vec<Vec<Answer>> = Vec::new();
    for line in lines.lines() {
        let parts: Vec<String> = line.split_whitespace().map(str::to_string).collect();
        let wrong = || format!("{path}: {line} is not a line of the oracle");
        if parts.first().is_some_and(|part| part == "file") {
            files.push(Vec::new());
            continue;
        }
        let answers = files.last_mut().ok_or_else(wrong)?;
        match parts.first().map_or("", String::as_str) {
            "type" | "var" | "done" => answers.push(Answer {
                head: parts,
                nodes: Vec::new(),
            }),
            "huge" | "bad" | "skip" => answers.clear(),
            _ => {
                let node = node(&parts).ok_or_else(wrong)?;
                answers.last_mut().ok_or_else(wrong)?.nodes.push(node);
            }
        }
    }
    Ok(files)
}

fn node(parts: &[String]) -> Option<[u32; 6]> {
    let words: Option<Vec<u32>> = parts.iter().map(|part| part.parse().ok()).collect();
    words?.try_into().ok()
}
