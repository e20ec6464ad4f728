//! Comma-separated values with a header row (RFC 4180, lines ended by a line feed).

/// Something that is written as a row.
pub trait Fields {
    /// The names of the columns.
    const HEAD: &'static [&'static str];
    fn fields(&self) -> Vec<String>;
}

/// Something that is read from a row as well.
pub trait Record: Fields + Sized {
    /// From as many fields as there are columns; or what is wrong with them.
    fn of(fields: &[String]) -> Result<Self, String>;
}

/// The header row and these rows.
pub fn written<R: Fields>(rows: &[R]) -> String {
    let rows = rows.iter().map(|row| line(&row.fields()));
    head::<R>() + &rows.collect::<String>()
}

/// The header row.
pub fn head<R: Fields>() -> String {
    line(R::HEAD)
}

/// These fields as a line of a Markdown table.
pub fn shown(fields: &[String]) -> String {
    format!("| {} |", fields.join(" | "))
}

/// The first two lines of such a table.
pub fn shown_head<R: Fields>() -> String {
    let (names, lines) = (R::HEAD.join(" | "), "---|".repeat(R::HEAD.len()));
    format!("| {names} |\n|{lines}")
}

/// A row of these fields.
pub fn line<S: AsRef<str>>(fields: &[S]) -> String {
    let quoted = |field: &S| {
        let field = field.as_ref();
        if field.contains([',', '"', '\n', '\r']) {
            return format!("\"{}\"", field.replace('"', "\"\""));
        }
        field.to_owned()
    };
    let fields: Vec<String> = fields.iter().map(quoted).collect();
    fields.join(",") + "\n"
}

/// The rows of a text; or words for the line that is wrong.
pub fn read<R: Record>(text: &str) -> Result<Vec<R>, String> {
    let mut lines = parted(text)?.into_iter();
    let head = lines.next().map(|(_, head)| head).unwrap_or_default();
    if head != R::HEAD {
        let (wanted, there) = (R::HEAD.join(","), head.join(","));
        return Err(format!(
            "line 1: the columns must be {wanted}, and are {there:?}"
        ));
    }
    let row = |(number, fields): (usize, Vec<String>)| {
        if fields.len() != R::HEAD.len() {
            let (there, wanted) = (fields.len(), R::HEAD.len());
            return Err(format!("line {number}: {there} fields instead of {wanted}"));
        }
        R::of(&fields).map_err(|words| format!("line {number}: {words}"))
    };
    let rows: Vec<R> = lines.map(row).collect::<Result<_, _>>()?;
    if rows.is_empty() {
        return Err("there is no row below the columns' names".to_owned());
    }
    Ok(rows)
}

/// Each line's number and its fields.
fn parted(text: &str) -> Result<Vec<(usize, Vec<String>)>, String> {
    let (mut lines, mut number, mut fields, mut field) = (Vec::new(), 1, Vec::new(), String::new());
    let (mut quoted, mut start) = (false, 1);
    let mut chars = text.chars().peekable();
    while let Some(c) = chars.next() {
        number += usize::from(c == '\n');
        match c {
            '"' if quoted && chars.peek() == Some(&'"') => field.extend(chars.next()),
            '"' if quoted || field.is_empty() => quoted = !quoted,
            _ if quoted => field.push(c),
            ',' => fields.push(std::mem::take(&mut field)),
            '\r' if chars.peek() == Some(&'\n') => {}
            '\n' => {
                fields.push(std::mem::take(&mut field));
                lines.push((start, std::mem::take(&mut fields)));
                start = number;
            }
            _ => field.push(c),
        }
    }
    if quoted {
        return Err(format!("line {start}: a quotation mark is not closed"));
    }
    if !fields.is_empty() || !field.is_empty() {
        fields.push(field);
        lines.push((start, fields));
    }
    Ok(lines)
}

#[cfg(test)]
mod tests {
    use super::{parted, read, written, Fields, Record};

    #[derive(Debug, PartialEq)]
    struct Pair(String, u32);

    impl Fields for Pair {
        const HEAD: &'static [&'static str] = &["word", "number"];

        fn fields(&self) -> Vec<String> {
            vec![self.0.clone(), self.1.to_string()]
        }
    }

    impl Record for Pair {
        fn of(fields: &[String]) -> Result<Self, String> {
            let number = fields[1].parse();
            let number = number.map_err(|_| format!("{:?} is no number", fields[1]))?;
            Ok(Self(fields[0].clone(), number))
        }
    }

    #[test]
    fn what_is_written_is_read() {
        let word = |word: &str, number| Pair(word.to_owned(), number);
        let rows = [
            word("plain", 1),
            word("step 2×1, half", 2),
            word("a \"b\"\nc", 3),
            word("", 4),
        ];
        let text = written(&rows);
        assert!(text
            .starts_with("word,number\nplain,1\n\"step 2×1, half\",2\n\"a \"\"b\"\"\nc\",3\n,4\n"));
        assert_eq!(read::<Pair>(&text).expect("its own text"), rows);
        assert_eq!(
            read::<Pair>(&text.replace('\n', "\r\n").replace("\"\"\r\nc", "\"\"\nc"))
                .expect("carriage returns"),
            rows
        );
        assert_eq!(parted("a,b").expect("no end of line")[0].1, ["a", "b"]);
    }

    #[test]
    fn wrong_lines_are_named() {
        let wrong = [
            ("", "line 1: the columns must be word,number, and are \"\""),
            (
                "word\n",
                "line 1: the columns must be word,number, and are \"word\"",
            ),
            ("word,number\n", "there is no row"),
            ("word,number\na,1\nb\n", "line 3: 1 fields instead of 2"),
            (
                "word,number\n\"a\nb\",1\nc,x\n",
                "line 4: \"x\" is no number",
            ),
            (
                "word,number\n\"a,1\n",
                "line 2: a quotation mark is not closed",
            ),
        ];
        for (text, part) in wrong {
            let words = read::<Pair>(text).expect_err(text);
            assert!(words.starts_with(part), "{text:?}: {words}");
        }
    }
}
