//! A reader of comma-parted text (RFC 4180), one row at a time. Every fault is told with the line on which it stands; the header is line 1.

use std::borrow::Cow;

/// One record of the text. A quoted field may hold line breaks, so `line` is that of the record's first byte.
pub struct Row<'a> {
    pub line: usize,
    pub cells: Vec<Cow<'a, str>>,
}

/// The rows behind the header. After a fault there are no more of them.
pub struct Rows<'a> {
    text: Text<'a>,
    width: usize,
}

/// The header and the rows of a table.
pub fn read(bytes: &[u8]) -> Result<(Vec<Cow<'_, str>>, Rows<'_>), String> {
    let mut text = Text::new(bytes)?;
    let header = text.row()?.ok_or("line 1: the table is empty: a header with the columns' names is expected")?.cells;
    let width = header.len();
    Ok((header, Rows { text, width }))
}

impl<'a> Iterator for Rows<'a> {
    type Item = Result<Row<'a>, String>;

    fn next(&mut self) -> Option<Self::Item> {
        let width = self.width;
        let row = self.text.row().and_then(|row| row.map(|row| of_width(row, width)).transpose());
        if row.is_err() {
            self.text.rest = "";
        }
        row.transpose()
    }
}

fn of_width(row: Row<'_>, width: usize) -> Result<Row<'_>, String> {
    if row.cells.len() == width {
        return Ok(row);
    }
    Err(format!("line {}: {}, where the header has {width}", row.line, fields(row.cells.len())))
}

fn fields(count: usize) -> String {
    format!("{count} field{}", if count == 1 { "" } else { "s" })
}

/// What follows a field.
#[derive(PartialEq)]
enum Behind {
    Comma,
    LineEnd,
}

/// The text that is still to be read, and the line on which it starts.
struct Text<'a> {
    rest: &'a str,
    line: usize,
}

impl<'a> Text<'a> {
    /// The text without its byte order mark, which some spreadsheets write in front.
    fn new(bytes: &'a [u8]) -> Result<Text<'a>, String> {
        let bytes = bytes.strip_prefix(b"\xef\xbb\xbf").unwrap_or(bytes);
        match std::str::from_utf8(bytes) {
            Ok(rest) => Ok(Text { rest, line: 1 }),
            Err(error) => {
                let line = 1 + line_feeds(&bytes[..error.valid_up_to()]);
                Err(format!("line {line}: the text is not UTF-8: save the table as UTF-8"))
            }
        }
    }

    /// The next record, or none at the end. An empty line is allowed as the last one only: elsewhere a row may have been lost.
    fn row(&mut self) -> Result<Option<Row<'a>>, String> {
        if matches!(self.rest, "" | "\n" | "\r\n") {
            return Ok(None);
        }
        let line = self.line;
        if self.rest.starts_with('\n') || self.rest.starts_with("\r\n") {
            return Err(format!("line {line}: the line is empty"));
        }
        let mut cells = Vec::new();
        loop {
            cells.push(if self.rest.starts_with('"') { self.quoted()? } else { self.unquoted()? });
            if self.behind()? == Behind::LineEnd {
                return Ok(Some(Row { line, cells }));
            }
        }
    }

    fn unquoted(&mut self) -> Result<Cow<'a, str>, String> {
        let length = self.rest.bytes().position(|byte| matches!(byte, b',' | b'\n' | b'\r' | b'"')).unwrap_or(self.rest.len());
        let field = self.take(length);
        if self.rest.starts_with('"') {
            return Err(format!("line {}: a quote inside an unquoted field: the whole field must be quoted, and quotes in it doubled", self.line));
        }
        Ok(Cow::Borrowed(field))
    }

    fn quoted(&mut self) -> Result<Cow<'a, str>, String> {
        let opened = self.line;
        self.take(1);
        let mut field = Cow::Borrowed("");
        loop {
            let length = self.rest.find('"').ok_or_else(|| format!("line {opened}: a quote is left open"))?;
            // Adding to an empty Cow borrows, so only a field with doubled quotes is copied.
            field += self.take(length);
            self.take(1);
            if !self.rest.starts_with('"') {
                return Ok(field);
            }
            field += self.take(1);
        }
    }

    /// Takes the comma or the line end behind a field; the text may end without the latter.
    fn behind(&mut self) -> Result<Behind, String> {
        let (behind, length) = match self.rest.as_bytes() {
            [] => (Behind::LineEnd, 0),
            [b',', ..] => (Behind::Comma, 1),
            [b'\n', ..] => (Behind::LineEnd, 1),
            [b'\r', b'\n', ..] => (Behind::LineEnd, 2),
            [b'\r', ..] => return Err(format!("line {}: a carriage return without a line feed: lines end in LF or CRLF", self.line)),
            _ => return Err(format!("line {}: text behind a closing quote: a comma or the line's end is expected", self.line)),
        };
        self.take(length);
        Ok(behind)
    }

    /// The next so many bytes, and the lines counted on.
    fn take(&mut self, length: usize) -> &'a str {
        let (taken, rest) = self.rest.split_at(length);
        self.rest = rest;
        self.line += line_feeds(taken.as_bytes());
        taken
    }
}

fn line_feeds(bytes: &[u8]) -> usize {
    bytes.iter().filter(|&&byte| byte == b'\n').count()
}

#[cfg(test)]
mod tests {
    use super::*;

    /// The header, then each row with its line.
    type Whole = (Vec<String>, Vec<(usize, Vec<String>)>);

    fn whole(bytes: &[u8]) -> Result<Whole, String> {
        let owned = |cells: Vec<Cow<str>>| cells.into_iter().map(Cow::into_owned).collect::<Vec<String>>();
        let (header, rows) = read(bytes)?;
        let rows = rows.map(|row| row.map(|row| (row.line, owned(row.cells)))).collect::<Result<_, String>>()?;
        Ok((owned(header), rows))
    }

    fn rows(text: &str) -> Vec<(usize, Vec<String>)> {
        whole(text.as_bytes()).unwrap().1
    }

    fn row(line: usize, cells: &[&str]) -> (usize, Vec<String>) {
        (line, cells.iter().map(|cell| cell.to_string()).collect())
    }

    fn fault(bytes: &[u8]) -> String {
        whole(bytes).unwrap_err()
    }

    #[test]
    fn line_ends() {
        let expected = vec![row(2, &["1", "2"]), row(3, &["", " 4 "])];
        for end in ["\n", "\r\n"] {
            for last in ["", end, &format!("{end}{end}")] {
                let text = format!("a,b{end}1,2{end}, 4 {last}");
                assert_eq!(rows(&text), expected, "{text:?}");
            }
        }
    }

    #[test]
    fn byte_order_mark() {
        let (header, rows) = whole(b"\xef\xbb\xbfa,b\n1,2\n").unwrap();
        assert_eq!(header, ["a", "b"]);
        assert_eq!(rows, [row(2, &["1", "2"])]);
    }

    #[test]
    fn quoting() {
        assert_eq!(rows("a,b\n\"1,\"\"x\"\"\",\"\"\n"), [row(2, &["1,\"x\"", ""])]);
        assert_eq!(rows("a\n\"\"\"\"\n\"\"\n"), [row(2, &["\""]), row(3, &[""])]);
        assert_eq!(whole(b"\"a\nb\",c").unwrap().0, ["a\nb", "c"]);
    }

    #[test]
    fn lines_are_those_of_the_first_byte() {
        assert_eq!(rows("a,b\n\"1\n2\",\"3\r\n\n\"\n4,5\n"), [row(2, &["1\n2", "3\r\n\n"]), row(6, &["4", "5"])]);
    }

    #[test]
    fn header_alone() {
        assert_eq!(rows("a,b"), []);
        assert_eq!(rows("a,b\r\n"), []);
    }

    #[test]
    fn faults_with_their_line() {
        for (text, told) in [
            ("", "line 1: the table is empty: a header with the columns' names is expected"),
            ("\n", "line 1: the table is empty: a header with the columns' names is expected"),
            ("\n\n", "line 1: the line is empty"),
            ("a,b\n\n1,2\n", "line 2: the line is empty"),
            ("a,b\r\n1,2\r\n\r\n\r\n", "line 3: the line is empty"),
            ("a,b\n1,2\n3\n", "line 3: 1 field, where the header has 2"),
            ("a,b\n1,\"2\n\"\n3,4,5\n", "line 4: 3 fields, where the header has 2"),
            ("a,b\n1,\"2\n3,4\n", "line 2: a quote is left open"),
            ("a,b\n\"1\n\",\"2\n3,4\n", "line 3: a quote is left open"),
            ("a,b\n1,\"", "line 2: a quote is left open"),
            ("a,b\n1,\"2\"x\n", "line 2: text behind a closing quote: a comma or the line's end is expected"),
            ("a,b\n1,\"2\n\" \n", "line 3: text behind a closing quote: a comma or the line's end is expected"),
            ("a,b\n1,2\"\n", "line 2: a quote inside an unquoted field: the whole field must be quoted, and quotes in it doubled"),
            ("a,b\n1, \"2\"\n", "line 2: a quote inside an unquoted field: the whole field must be quoted, and quotes in it doubled"),
            ("a,b\r1,2\r", "line 1: a carriage return without a line feed: lines end in LF or CRLF"),
            ("a,b\n1,\"2\"\r", "line 2: a carriage return without a line feed: lines end in LF or CRLF"),
        ] {
            assert_eq!(fault(text.as_bytes()), told, "{text:?}");
        }
        assert_eq!(fault(b"a,b\n1,2\n\xe4,3\n"), "line 3: the text is not UTF-8: save the table as UTF-8");
        assert_eq!(fault(b"\xff\xfea\0"), "line 1: the text is not UTF-8: save the table as UTF-8");
    }

    #[test]
    fn no_rows_after_a_fault() {
        let (_, mut rows) = read(b"a,b\n1\n2,3\n").unwrap();
        assert!(rows.next().unwrap().is_err());
        assert!(rows.next().is_none());
    }
}
