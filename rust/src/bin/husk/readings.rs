//! From a table of readings to the sheet of their cross-products (Record 1 of document 01), for a model with an intercept for each level of each group.
//!
//! Every sum is taken in plain doubles and in the order of the rows: it starts at 0, and each product and each addition is rounded once. A table so has one
//! sheet, to the last bit.

use std::borrow::Cow;
use std::collections::HashMap;
use std::fmt::Write;

use crate::csv;

/// What Record 1 allows.
const MOST_FIXED: usize = 32;
const MOST_GROUPS: usize = 8;
const MOST_LEVELS: usize = 65_535;
const LONGEST_SHEET: usize = crate::input::LONGEST_SHEET as usize;

/// The bytes of the shortest line with a word: `zy` and an index of one digit.
const SHORTEST_LINE: usize = 22;

const INTERCEPT: &str = "(Intercept)";
const TOO_LONG: &str = "at most 16777216 are allowed; fewer levels, groups or fixed columns make it shorter";

/// Which columns of the table serve for what.
pub struct Columns {
    pub response: String,
    pub fixed: Vec<String>,
    pub groups: Vec<String>,
    /// A column of ones goes in front of the fixed ones.
    pub intercept: bool,
}

/// A sheet, and the names of its random rows and fixed columns as examples/*/names.txt has them.
pub struct Made {
    pub sheet: Vec<u8>,
    pub names: String,
}

/// The sheet of a table in comma-parted text (RFC 4180, with a header). An error is one message, with the line where there is one.
pub fn sheet_of(table: &[u8], columns: &Columns) -> Result<Made, String> {
    check(columns)?;
    let (header, rows) = csv::read(table)?;
    let mut sums = Sums::new(&header, columns)?;
    for row in rows {
        sums.add(&row?)?;
    }
    if sums.readings == 0 {
        return Err("line 2: no readings: the table ends with its header".into());
    }
    let sheet = sums.sheet();
    if sheet.len() > LONGEST_SHEET {
        return Err(format!("the sheet would have {} bytes: {TOO_LONG}", sheet.len()));
    }
    Ok(Made { sheet: sheet.into_bytes(), names: sums.names() })
}

/// What is wrong with the columns that are asked for, whatever the table.
pub fn check(columns: &Columns) -> Result<(), String> {
    let mut names = columns.fixed.iter().chain(&columns.groups).chain(std::iter::once(&columns.response));
    if names.any(|name| name.is_empty()) {
        return Err("a column is asked for without a name".into());
    }
    check_counts(columns)?;
    check_roles(columns)
}

fn check_counts(columns: &Columns) -> Result<(), String> {
    let fixed = columns.fixed.len() + usize::from(columns.intercept);
    let groups = columns.groups.len();
    if fixed == 0 {
        return Err("neither an intercept nor a fixed column: a sheet has at least one fixed effect".into());
    }
    if fixed > MOST_FIXED {
        let counted = if columns.intercept { ", the intercept among them" } else { "" };
        return Err(format!("{fixed} fixed effects{counted}: a sheet has at most {MOST_FIXED}"));
    }
    if groups == 0 {
        return Err("no group: a sheet has at least one column of levels".into());
    }
    if groups > MOST_GROUPS {
        return Err(format!("{groups} groups: a sheet has at most {MOST_GROUPS}"));
    }
    Ok(())
}

/// Each column of the table may serve once.
fn check_roles(columns: &Columns) -> Result<(), String> {
    let response = std::iter::once((&columns.response, "the response"));
    let fixed = columns.fixed.iter().map(|name| (name, "a fixed column"));
    let groups = columns.groups.iter().map(|name| (name, "a group"));
    let mut roles: HashMap<&str, &str> = HashMap::new();
    for (name, role) in response.chain(fixed).chain(groups) {
        if let Some(earlier) = roles.insert(name, role) {
            return Err(format!("column {} is asked for twice, as {earlier} and as {role}: a column can serve once", plain(name)));
        }
    }
    Ok(())
}

/// A column that is asked for, and its place in the table.
struct Column {
    name: String,
    place: usize,
}

impl Column {
    fn find(header: &[Cow<str>], name: &str) -> Result<Column, String> {
        let mut places = (0..header.len()).filter(|&place| header[place] == name);
        let place = places.next().ok_or_else(|| format!("line 1: there is no column {}: the header has {}", plain(name), list(header)))?;
        if places.next().is_some() {
            return Err(format!("line 1: the header has column {} twice", plain(name)));
        }
        if breaks_line(name) {
            return Err(format!("line 1: column {}: a name with a tab or a line break cannot be used, as names are listed tab-parted", plain(name)));
        }
        Ok(Column { name: name.to_string(), place })
    }

    fn find_all(header: &[Cow<str>], names: &[String]) -> Result<Vec<Column>, String> {
        names.iter().map(|name| Column::find(header, name)).collect()
    }

    fn cell<'r>(&self, row: &'r csv::Row) -> &'r str {
        &row.cells[self.place]
    }

    fn fault(&self, row: &csv::Row, what: &str) -> String {
        format!("line {}: column {}: {what}", row.line, plain(&self.name))
    }

    fn number(&self, row: &csv::Row) -> Result<f64, String> {
        const EXPECTED: &str = "a decimal number such as 12.5 or 1e-3 is expected";
        let cell = self.cell(row);
        let trimmed = cell.trim_matches(|letter| matches!(letter, ' ' | '\t'));
        if trimmed.is_empty() {
            return Err(self.fault(row, &format!("the cell is empty: {EXPECTED}")));
        }
        // Rust's own reading also takes inf and nan, which have letters other than the exponent's.
        let decimal = trimmed.bytes().all(|byte| byte.is_ascii_digit() || b"+-.eE".contains(&byte));
        match trimmed.parse::<f64>() {
            Ok(number) if decimal && number.is_finite() => Ok(number),
            Ok(_) if decimal => Err(self.fault(row, &format!("{} is beyond the largest double, 1.8e308", shown(cell)))),
            _ => Err(self.fault(row, &format!("{} is no number: {EXPECTED}", shown(cell)))),
        }
    }
}

/// A group's levels in order of appearance, with the sums of their readings.
struct Group {
    column: Column,
    levels: Vec<String>,
    numbers: HashMap<String, usize>,
    /// For each level the sum of each value (see `Sums`).
    sums: Vec<f64>,
}

impl Group {
    fn new(column: Column) -> Group {
        Group { column, levels: Vec::new(), numbers: HashMap::new(), sums: Vec::new() }
    }

    /// The number of the row's level. A new one is entered, with so many sums.
    fn level(&mut self, row: &csv::Row, width: usize) -> Result<usize, String> {
        let level = self.column.cell(row);
        if let Some(&number) = self.numbers.get(level) {
            return Ok(number);
        }
        let number = self.levels.len();
        if level.is_empty() {
            return Err(self.column.fault(row, "the level is empty: every reading needs one"));
        }
        if breaks_line(level) {
            return Err(self.column.fault(row, &format!("{} has a tab or a line break: levels are listed tab-parted, so it cannot be one", shown(level))));
        }
        if number == MOST_LEVELS {
            return Err(self.column.fault(row, &format!("{} is one level too many: a group has at most {MOST_LEVELS}", shown(level))));
        }
        self.levels.push(level.to_string());
        self.numbers.insert(level.to_string(), number);
        self.sums.resize(self.sums.len() + width, 0.0);
        Ok(number)
    }
}

/// A level among all groups': the group, then the level's number. It sorts as the random rows do, and is known before the number of rows is.
type Level = (u8, u16);

/// The cross-products of the readings so far.
///
/// A reading's values are its ones (the intercept), its fixed columns and last its response: X'X, X'y and y'y are one triangle over them, and Z'X and Z'y
/// one list of sums for each level.
struct Sums {
    readings: usize,
    intercept: bool,
    /// The fixed columns, then the response.
    numbers: Vec<Column>,
    /// The names of the values.
    values: Vec<String>,
    /// The lower triangle, by rows.
    triangle: Vec<f64>,
    groups: Vec<Group>,
    /// How many readings two levels share, for pairs in rising order; with itself, how many a level has.
    shared: HashMap<(Level, Level), u64>,
}

impl Sums {
    fn new(header: &[Cow<str>], columns: &Columns) -> Result<Sums, String> {
        let response = Column::find(header, &columns.response)?;
        let mut numbers = Column::find_all(header, &columns.fixed)?;
        numbers.push(response);
        let groups = Column::find_all(header, &columns.groups)?.into_iter().map(Group::new).collect();
        let ones = columns.intercept.then(|| INTERCEPT.to_string());
        let values: Vec<String> = ones.into_iter().chain(numbers.iter().map(|column| column.name.clone())).collect();
        let triangle = vec![0.0; values.len() * (values.len() + 1) / 2];
        Ok(Sums { readings: 0, intercept: columns.intercept, numbers, values, triangle, groups, shared: HashMap::new() })
    }

    fn add(&mut self, row: &csv::Row) -> Result<(), String> {
        let ones = self.intercept.then_some(Ok(1.0));
        let values = ones.into_iter().chain(self.numbers.iter().map(|column| column.number(row))).collect::<Result<Vec<f64>, String>>()?;
        self.readings += 1;
        self.add_products(row.line, &values)?;
        let levels = self.add_to_levels(row, &values)?;
        self.count_shared(&levels);
        // Stops a table that has no sheet before its counts fill the memory.
        let level_sums: usize = self.groups.iter().map(|group| group.sums.len()).sum();
        if (self.shared.len() + level_sums) * SHORTEST_LINE > LONGEST_SHEET {
            return Err(format!("line {}: the sheet has too many bytes from here on: {TOO_LONG}", row.line));
        }
        Ok(())
    }

    fn add_products(&mut self, line: usize, values: &[f64]) -> Result<(), String> {
        let pairs = (0..values.len()).flat_map(|r| (0..=r).map(move |c| (r, c)));
        for (sum, (r, c)) in self.triangle.iter_mut().zip(pairs) {
            *sum += values[r] * values[c];
            if !sum.is_finite() {
                let (r, c) = (plain(&self.values[r]), plain(&self.values[c]));
                return Err(format!("line {line}: the sum of {c} times {r} is beyond the largest double, 1.8e308"));
            }
        }
        Ok(())
    }

    fn add_to_levels(&mut self, row: &csv::Row, values: &[f64]) -> Result<Vec<Level>, String> {
        let mut levels = Vec::with_capacity(self.groups.len());
        for (g, group) in self.groups.iter_mut().enumerate() {
            let level = group.level(row, values.len())?;
            let sums = &mut group.sums[level * values.len()..][..values.len()];
            // None overflows: the sum of a value's squares, which is watched, would have done so long before.
            for (sum, value) in sums.iter_mut().zip(values) {
                *sum += value;
            }
            // At most 8 groups, and 65,535 levels in each.
            levels.push((g as u8, level as u16));
        }
        Ok(levels)
    }

    fn count_shared(&mut self, levels: &[Level]) {
        for (place, &later) in levels.iter().enumerate() {
            for &earlier in &levels[..=place] {
                *self.shared.entry((earlier, later)).or_insert(0) += 1;
            }
        }
    }

    /// The random row at which each group starts.
    fn starts(&self) -> Vec<usize> {
        self.groups.iter().scan(0, |next, group| Some(std::mem::replace(next, *next + group.levels.len()))).collect()
    }

    fn sheet(&self) -> String {
        let mut sheet = String::new();
        let rows: usize = self.groups.iter().map(|group| group.levels.len()).sum();
        let fixed = self.values.len() - 1;
        let _ = writeln!(sheet, "size\t{}\t{fixed}\t{rows}\t{}\t1", self.readings, self.groups.len());
        for group in &self.groups {
            let _ = writeln!(sheet, "block\t{}\t1", group.levels.len());
        }
        for (col, row, count) in self.counts() {
            put(&mut sheet, "zz", &[col, row], count as f64);
        }
        let width = self.values.len();
        let level_sums = || self.groups.iter().flat_map(|group| group.sums.chunks(width)).enumerate();
        for (row, sums) in level_sums() {
            for (c, &sum) in sums[..fixed].iter().enumerate() {
                put(&mut sheet, "zx", &[row, c], sum);
            }
        }
        for (row, sums) in level_sums() {
            put(&mut sheet, "zy", &[row], sums[fixed]);
        }
        let (products, last) = self.triangle.split_at(fixed * (fixed + 1) / 2);
        let cells = (0..fixed).flat_map(|r| (0..=r).map(move |c| [r, c]));
        for (cell, &sum) in cells.zip(products) {
            put(&mut sheet, "xx", &cell, sum);
        }
        for (r, &sum) in last[..fixed].iter().enumerate() {
            put(&mut sheet, "xy", &[r], sum);
        }
        put(&mut sheet, "yy", &[], last[fixed]);
        sheet
    }

    /// Column, row and count of Z'Z with both mirrors, rising.
    fn counts(&self) -> Vec<(usize, usize, u64)> {
        let starts = self.starts();
        let row = |(group, level): Level| starts[usize::from(group)] + usize::from(level);
        let mut counts = Vec::with_capacity(2 * self.shared.len());
        for (&(earlier, later), &count) in &self.shared {
            counts.push((row(earlier), row(later), count));
            if earlier != later {
                counts.push((row(later), row(earlier), count));
            }
        }
        counts.sort_unstable();
        counts
    }

    fn names(&self) -> String {
        let mut names = String::new();
        let levels = self.groups.iter().flat_map(|group| group.levels.iter().map(move |level| (&group.column.name, level)));
        for (row, (group, level)) in levels.enumerate() {
            let _ = writeln!(names, "row\t{row}\t{group}\t{level}\t{INTERCEPT}");
        }
        for (c, name) in self.values[..self.values.len() - 1].iter().enumerate() {
            let _ = writeln!(names, "column\t{c}\t{name}");
        }
        names
    }
}

/// One line of the sheet: its name, its indexes and the double's word. Writing to a string cannot fail.
fn put(sheet: &mut String, name: &str, indexes: &[usize], number: f64) {
    sheet.push_str(name);
    for index in indexes {
        let _ = write!(sheet, "\t{index}");
    }
    let _ = writeln!(sheet, "\t{:016x}", number.to_bits());
}

/// Sheet and names are tab-parted lines.
fn breaks_line(text: &str) -> bool {
    text.contains(['\t', '\n', '\r'])
}

/// A cell in quotes, with control characters escaped and no longer than a message bears.
fn shown(text: &str) -> String {
    const LONGEST: usize = 40;
    match text.char_indices().nth(LONGEST) {
        Some((end, _)) => format!("{:?}...", &text[..end]),
        None => format!("{text:?}"),
    }
}

/// A column's name, in quotes only where it would be misread without.
fn plain(name: &str) -> String {
    let simple = |letter: char| letter.is_alphanumeric() || "_.:()-".contains(letter);
    if !name.is_empty() && name.len() <= 40 && name.chars().all(simple) {
        name.to_string()
    } else {
        shown(name)
    }
}

/// The names of a header, as many as a message bears.
fn list(header: &[Cow<str>]) -> String {
    const MOST: usize = 20;
    let names: Vec<String> = header.iter().take(MOST).map(|name| plain(name)).collect();
    let more = if header.len() > MOST { format!(" and {} more", header.len() - MOST) } else { String::new() };
    names.join(", ") + &more
}

#[cfg(test)]
mod tests {
    use super::*;

    fn columns(response: &str, fixed: &[&str], groups: &[&str], intercept: bool) -> Columns {
        let owned = |names: &[&str]| names.iter().map(|name| name.to_string()).collect();
        Columns { response: response.to_string(), fixed: owned(fixed), groups: owned(groups), intercept }
    }

    fn example(path: &str) -> String {
        let path = std::path::PathBuf::from(env!("CARGO_MANIFEST_DIR")).join("../examples").join(path);
        std::fs::read_to_string(&path).unwrap_or_else(|error| panic!("{}: {error}", path.display()))
    }

    /// What y ~ x + (1 | g) is told about a table, or about its first fault.
    fn fault(table: &str) -> String {
        fault_of(table, &columns("y", &["x"], &["g"], true))
    }

    fn fault_of(table: &str, columns: &Columns) -> String {
        match sheet_of(table.as_bytes(), columns) {
            Ok(_) => panic!("a sheet of {table:?}"),
            Err(message) => message,
        }
    }

    fn sheet(table: &str, columns: &Columns) -> String {
        String::from_utf8(sheet_of(table.as_bytes(), columns).unwrap().sheet).unwrap()
    }

    /// How many doubles two words, of one sign, are apart.
    fn apart(a: &str, b: &str) -> u64 {
        let bits = |word: &str| u64::from_str_radix(word, 16).unwrap();
        bits(a).abs_diff(bits(b))
    }

    /// The examples' sums are R's, whose order is another: the counts are equal, other words as good as.
    fn assert_sheet_near(made: &str, expected: &str) {
        assert_eq!(made.lines().count(), expected.lines().count());
        for (made, expected) in made.lines().zip(expected.lines()) {
            let ((made_cell, made_word), (cell, word)) = (made.rsplit_once('\t').unwrap(), expected.rsplit_once('\t').unwrap());
            let exact = cell.starts_with("size") || cell.starts_with("block") || cell.starts_with("zz");
            assert_eq!(made_cell, cell);
            assert!(if exact { made == expected } else { apart(made_word, word) <= 4 }, "{made} for {expected}");
        }
    }

    #[test]
    fn examples() {
        for (folder, columns) in [
            ("dyestuff", columns("Yield", &[], &["Batch"], true)),
            ("penicillin", columns("diameter", &[], &["plate", "sample"], true)),
            ("pastes", columns("strength", &[], &["sample", "batch"], true)),
            ("sleep-intercept", columns("Reaction", &["Days"], &["Subject"], true)),
        ] {
            let made = sheet_of(example(&format!("{folder}/data.csv")).as_bytes(), &columns).unwrap();
            let expected = example(&format!("{folder}/sheet.txt"));
            assert_sheet_near(std::str::from_utf8(&made.sheet).unwrap(), &expected);
            assert_eq!(made.names, example(&format!("{folder}/names.txt")), "{folder}");
        }
    }

    /// Sums of whole numbers are exact in every order.
    #[test]
    fn examples_of_whole_numbers_to_the_bit() {
        let dyestuff = sheet(&example("dyestuff/data.csv"), &columns("Yield", &[], &["Batch"], true));
        assert_eq!(dyestuff, example("dyestuff/sheet.txt"));
        let penicillin = sheet(&example("penicillin/data.csv"), &columns("diameter", &[], &["plate", "sample"], true));
        assert_eq!(penicillin, example("penicillin/sheet.txt"));
    }

    const SMALL: &str = "g,h,x,y\nb,u,2, 1.0 \na,u,3,-1e0\nb,v,0.5,+2\nb,u,1,0\n";

    #[test]
    fn a_small_sheet_in_full() {
        let word = |number: f64| format!("{:016x}", number.to_bits());
        let lines = [
            "size\t4\t2\t4\t2\t1".to_string(),
            "block\t2\t1".into(),
            "block\t2\t1".into(),
            // b shares two readings with u and one with v, a one with u.
            format!("zz\t0\t0\t{}", word(3.0)),
            format!("zz\t0\t2\t{}", word(2.0)),
            format!("zz\t0\t3\t{}", word(1.0)),
            format!("zz\t1\t1\t{}", word(1.0)),
            format!("zz\t1\t2\t{}", word(1.0)),
            format!("zz\t2\t0\t{}", word(2.0)),
            format!("zz\t2\t1\t{}", word(1.0)),
            format!("zz\t2\t2\t{}", word(3.0)),
            format!("zz\t3\t0\t{}", word(1.0)),
            format!("zz\t3\t3\t{}", word(1.0)),
            format!("zx\t0\t0\t{}", word(3.0)),
            format!("zx\t0\t1\t{}", word(3.5)),
            format!("zx\t1\t0\t{}", word(1.0)),
            format!("zx\t1\t1\t{}", word(3.0)),
            format!("zx\t2\t0\t{}", word(3.0)),
            format!("zx\t2\t1\t{}", word(6.0)),
            format!("zx\t3\t0\t{}", word(1.0)),
            format!("zx\t3\t1\t{}", word(0.5)),
            format!("zy\t0\t{}", word(3.0)),
            format!("zy\t1\t{}", word(-1.0)),
            format!("zy\t2\t{}", word(0.0)),
            format!("zy\t3\t{}", word(2.0)),
            format!("xx\t0\t0\t{}", word(4.0)),
            format!("xx\t1\t0\t{}", word(6.5)),
            format!("xx\t1\t1\t{}", word(14.25)),
            format!("xy\t0\t{}", word(2.0)),
            format!("xy\t1\t{}", word(0.0)),
            format!("yy\t{}", word(6.0)),
        ];
        let columns = columns("y", &["x"], &["g", "h"], true);
        let made = sheet_of(SMALL.as_bytes(), &columns).unwrap();
        assert_eq!(String::from_utf8(made.sheet).unwrap(), lines.join("\n") + "\n");
        let names = "row\t0\tg\tb\t(Intercept)\nrow\t1\tg\ta\t(Intercept)\nrow\t2\th\tu\t(Intercept)\nrow\t3\th\tv\t(Intercept)\n";
        assert_eq!(made.names, format!("{names}column\t0\t(Intercept)\ncolumn\t1\tx\n"));
    }

    #[test]
    fn without_intercept() {
        let made = sheet_of(SMALL.as_bytes(), &columns("y", &["x"], &["h"], false)).unwrap();
        assert!(made.sheet.starts_with(b"size\t4\t1\t2\t1\t1\nblock\t2\t1\n"));
        assert!(made.names.ends_with("v\t(Intercept)\ncolumn\t0\tx\n"));
    }

    /// In another order, or with a fused operation, this sum would be another double.
    #[test]
    fn sums_in_row_order() {
        let made = sheet("g,y\na,1e16\na,1\na,1\na,-1e16\n", &columns("y", &[], &["g"], true));
        assert!(made.contains("zy\t0\t0000000000000000\n"), "{made}");
        let rounded: f64 = 0.1 * 0.1 + 0.3 * 0.3;
        assert_ne!(rounded, 0.3f64.mul_add(0.3, 0.1 * 0.1));
        let made = sheet("g,y\na,0.1\na,0.3\n", &columns("y", &[], &["g"], true));
        assert!(made.ends_with(&format!("yy\t{:016x}\n", rounded.to_bits())), "{made}");
    }

    /// Blanks around a number are passed over; in a level they count, and so does the case.
    #[test]
    fn levels_as_they_stand() {
        let made = sheet_of(b"g,y\na, 1\n a,1\t\nA,1\n\"a\",1\nNA,1\n", &columns("y", &[], &["g"], true)).unwrap();
        let levels: Vec<&str> = made.names.lines().filter(|line| line.starts_with("row")).map(|line| line.split('\t').nth(3).unwrap()).collect();
        assert_eq!(levels, ["a", " a", "A", "NA"]);
    }

    #[test]
    fn columns_that_cannot_be() {
        for (columns, told) in [
            (columns("y", &[], &["g"], false), "neither an intercept nor a fixed column: a sheet has at least one fixed effect"),
            (columns("y", &[], &[], true), "no group: a sheet has at least one column of levels"),
            (columns("y", &["x"; 32], &["g"], true), "33 fixed effects, the intercept among them: a sheet has at most 32"),
            (columns("y", &["x"; 33], &["g"], false), "33 fixed effects: a sheet has at most 32"),
            (columns("y", &[], &["g"; 9], true), "9 groups: a sheet has at most 8"),
            (columns("y", &["x", "x"], &["g"], true), "column x is asked for twice, as a fixed column and as a fixed column: a column can serve once"),
            (columns("y", &["y"], &["g"], true), "column y is asked for twice, as the response and as a fixed column: a column can serve once"),
            (columns("y", &[], &["y"], true), "column y is asked for twice, as the response and as a group: a column can serve once"),
            (columns("y", &["x"], &["g", "x"], true), "column x is asked for twice, as a fixed column and as a group: a column can serve once"),
            (columns("y", &[], &["g", "g"], true), "column g is asked for twice, as a group and as a group: a column can serve once"),
            (columns("z", &[], &["g"], true), "line 1: there is no column z: the header has g, h, x, y"),
            (columns("y", &["X"], &["g"], true), "line 1: there is no column X: the header has g, h, x, y"),
            (columns("y", &[], &[""], true), "a column is asked for without a name"),
        ] {
            assert_eq!(fault_of(SMALL, &columns), told);
        }
    }

    #[test]
    fn headers_that_cannot_be() {
        assert_eq!(fault("g,y,x,y\na,1,2,3\n"), "line 1: the header has column y twice");
        assert_eq!(fault("g;y;x\na;1;2\n"), "line 1: there is no column y: the header has \"g;y;x\"");
        let many = (0..23).map(|c| format!("c{c}")).collect::<Vec<_>>().join(",");
        assert!(fault(&many).ends_with("c18, c19 and 3 more"), "{}", fault(&many));
        let tab = columns("y", &[], &["a\tb"], true);
        let told = "line 1: column \"a\\tb\": a name with a tab or a line break cannot be used, as names are listed tab-parted";
        assert_eq!(fault_of("a\tb,y\na,1\n", &tab), told);
        assert_eq!(fault(""), "line 1: the table is empty: a header with the columns' names is expected");
        assert_eq!(fault("g,x,y\n"), "line 2: no readings: the table ends with its header");
    }

    #[test]
    fn a_column_twice_is_no_matter_where_it_is_not_asked_for() {
        assert!(sheet_of(b"g,z,z,y\na,1,2,3\n", &columns("y", &[], &["g"], true)).is_ok());
    }

    #[test]
    fn cells_that_are_no_numbers() {
        let expected = "a decimal number such as 12.5 or 1e-3 is expected";
        for cell in ["NA", "inf", "-Infinity", "nan", "0x1p3", "1_000", "1e", ".", "-", "1 2", "1d5", "\u{2212}1"] {
            assert_eq!(fault(&format!("g,x,y\na,1,2\na,1,{cell}\n")), format!("line 3: column y: {cell:?} is no number: {expected}"));
        }
        assert_eq!(fault("g,x,y\na,1,\"1,5\"\n"), format!("line 2: column y: \"1,5\" is no number: {expected}"));
        assert_eq!(fault("g,x,y\na,,1\n"), format!("line 2: column x: the cell is empty: {expected}"));
        assert_eq!(fault("g,x,y\na,1, \n"), format!("line 2: column y: the cell is empty: {expected}"));
        assert_eq!(fault("g,x,y\na,1,-1e309\n"), "line 2: column y: \"-1e309\" is beyond the largest double, 1.8e308");
        let long = "z".repeat(50);
        assert_eq!(fault(&format!("g,x,y\na,1,{long}\n")), format!("line 2: column y: \"{}\"... is no number: {expected}", &long[..40]));
        assert!(sheet_of(b"g,x,y\na,.5,5.\nb,1E3,+1e-400\n", &columns("y", &["x"], &["g"], true)).is_ok());
    }

    /// A record's line is where it starts, also after a field with line breaks.
    #[test]
    fn lines_behind_a_field_of_several_lines() {
        let expected = "a decimal number such as 12.5 or 1e-3 is expected";
        assert_eq!(fault("g,x,y,note\na,1,2,\"one\ntwo\"\na,1,z,\"\n\n\"\n"), format!("line 4: column y: \"z\" is no number: {expected}"));
        assert_eq!(fault("g,x,y\na,1,2\na,1\n"), "line 3: 2 fields, where the header has 3");
    }

    #[test]
    fn levels_that_cannot_be() {
        assert_eq!(fault("g,x,y\na,1,2\n,1,2\n"), "line 3: column g: the level is empty: every reading needs one");
        for (level, quoted) in [("a\tb", "\"a\\tb\""), ("a\nb", "\"a\\nb\""), ("a\rb", "\"a\\rb\"")] {
            let told = format!("line 2: column g: {quoted} has a tab or a line break: levels are listed tab-parted, so it cannot be one");
            assert_eq!(fault(&format!("g,x,y\n\"{level}\",1,2\n")), told);
        }
    }

    fn table_of_levels(levels: usize) -> String {
        (0..levels).fold("g,y\n".to_string(), |table, level| table + &format!("l{level},{}\n", level % 7))
    }

    #[test]
    fn most_levels() {
        let columns = columns("y", &[], &["g"], true);
        let made = sheet(&table_of_levels(65_535), &columns);
        assert!(made.starts_with("size\t65535\t1\t65535\t1\t1\nblock\t65535\t1\n"));
        assert_eq!(fault_of(&table_of_levels(65_536), &columns), "line 65537: column g: \"l65535\" is one level too many: a group has at most 65535");
    }

    #[test]
    fn sums_that_overflow() {
        assert_eq!(fault("g,x,y\na,1,2\na,1,1e200\n"), "line 3: the sum of y times y is beyond the largest double, 1.8e308");
        assert_eq!(fault("g,x,y\na,1e200,1e150\n"), "line 2: the sum of x times x is beyond the largest double, 1.8e308");
        assert_eq!(fault("g,x,y\na,1e150,1e160\n"), "line 2: the sum of x times y is beyond the largest double, 1.8e308");
        assert_eq!(fault("g,x,y\na,1.7e308,0\na,1.7e308,0\n"), "line 2: the sum of x times x is beyond the largest double, 1.8e308");
    }

    #[test]
    fn sheets_too_long() {
        let levels = 30_000;
        let names: Vec<String> = (0..20).map(|c| format!("x{c}")).collect();
        let fixed: Vec<&str> = names.iter().map(String::as_str).collect();
        let mut table = format!("g,{},y\n", names.join(","));
        for level in 0..levels {
            let _ = writeln!(table, "{level}{}", ",1".repeat(21));
        }
        let told = fault_of(&table, &columns("y", &fixed, &["g"], true));
        assert!(told.starts_with("the sheet would have 1") && told.ends_with(TOO_LONG), "{told}");
        for level in 0..levels {
            let _ = writeln!(table, "b{level}{}", ",1".repeat(21));
        }
        let told = fault_of(&table, &columns("y", &fixed, &["g"], true));
        assert!(told.starts_with("line 3") && told.contains(": the sheet has too many bytes from here on: "), "{told}");
    }
}
