//! What names are called: name n stands on line n of a text file.

/// Names, or none, where names print as their numbers.
pub struct Names {
    lines: Option<Vec<String>>,
}

impl Names {
    /// Every name prints as its number.
    pub fn numbers() -> Self {
        Names { lines: None }
    }

    pub fn of(text: &str) -> Self {
        let lines = text.lines().map(|line| line.trim_end().to_string());
        Names {
            lines: Some(lines.collect()),
        }
    }

    /// The name that is called this, where names are listed.
    pub fn number(&self, called: &str) -> Option<u32> {
        let at = self.lines.as_ref()?.iter().position(|line| line == called)?;
        Some(at as u32 + 1)
    }

    /// What name `number` is called, or that it isn't listed.
    pub fn name(&self, number: u32) -> Result<String, String> {
        let Some(lines) = &self.lines else {
            return Ok(number.to_string());
        };
        let listed = number.checked_sub(1).and_then(|at| lines.get(at as usize));
        match listed {
            Some(name) if !name.is_empty() => Ok(name.clone()),
            _ => Err(format!("name {number} is not among the {} lines of the names", lines.len())),
        }
    }
}
