//! Whether the factor was held against Q, told with all that is printed or drawn where it was.

use std::io::{self, Write};

/// What is known of the factor beside its file.
#[derive(Debug, Clone, Copy, PartialEq, Eq)]
pub enum Checked {
    /// Nothing, as no Q is given; then nothing is told.
    No,
    /// Its product is Q within rounding.
    WithinRounding,
    /// Its product is Q, in whole numbers.
    Exactly,
}

impl Checked {
    /// In short, for maps.
    pub fn words(self) -> Option<&'static str> {
        (self != Checked::No).then_some("checked against Q")
    }

    /// As the first line of a text.
    fn sentence(self) -> Option<&'static str> {
        match self {
            Checked::No => None,
            Checked::WithinRounding => Some("Checked against Q: multiplied out, the factor is Q within rounding."),
            Checked::Exactly => Some("Checked against Q: multiplied out, the factor is Q exactly."),
        }
    }

    /// An output of the same that tells it: a text begins with a sentence, and each line of comma-separated values ends
    /// with the column `checked`.
    pub fn output<W: Write>(self, output: &mut W, csv: bool) -> Output<'_, W> {
        Output {
            checked: self,
            output,
            csv,
            begun: false,
            field: ",checked",
        }
    }
}

pub struct Output<'a, W> {
    checked: Checked,
    output: &'a mut W,
    csv: bool,
    begun: bool,
    /// What the next line ends with: first a name, then values.
    field: &'static str,
}

impl<W: Write> Write for Output<'_, W> {
    fn write(&mut self, text: &[u8]) -> io::Result<usize> {
        let Some(sentence) = self.checked.sentence() else {
            return self.output.write(text);
        };
        if !self.csv {
            if !std::mem::replace(&mut self.begun, true) {
                writeln!(self.output, "{sentence}")?;
            }
            return self.output.write(text);
        }
        for part in text.split_inclusive(|byte| *byte == b'\n') {
            match part.strip_suffix(b"\n") {
                Some(line) => {
                    self.output.write_all(line)?;
                    self.output.write_all(self.field.as_bytes())?;
                    self.output.write_all(b"\n")?;
                    self.field = ",yes";
                }
                None => self.output.write_all(part)?,
            }
        }
        Ok(text.len())
    }

    fn flush(&mut self) -> io::Result<()> {
        self.output.flush()
    }
}

#[cfg(test)]
mod tests {
    use super::Checked;
    use std::io::Write;

    fn written(checked: Checked, csv: bool, parts: &[&str]) -> String {
        let mut written = Vec::new();
        let mut output = checked.output(&mut written, csv);
        for part in parts {
            output.write_all(part.as_bytes()).unwrap();
        }
        String::from_utf8(written).unwrap()
    }

    #[test]
    fn lines_end_with_the_column() {
        let parts = ["cell", ",variance\n1,2", ".0\n2,\n", "", "3,4.0\n"];
        let expected = "cell,variance,checked\n1,2.0,yes\n2,,yes\n3,4.0,yes\n";
        assert_eq!(written(Checked::WithinRounding, true, &parts), expected);
        assert_eq!(written(Checked::No, true, &parts), parts.concat());
    }

    #[test]
    fn a_text_begins_with_the_sentence() {
        let parts = ["one\n", "two\n"];
        let expected = "Checked against Q: multiplied out, the factor is Q exactly.\none\ntwo\n";
        assert_eq!(written(Checked::Exactly, false, &parts), expected);
        assert_eq!(written(Checked::No, false, &parts), "one\ntwo\n");
    }
}
