//! The usage texts.

/// `husk --help`.
pub const HUSK: &str = "\
husk: a collection of variance records whose answers can be had again, to the last bit

usage: husk COMMAND ..

  sheet    a sheet of cross-products from a table of readings
  solve    deviance and solution of a sheet at a theta
  show     what a sheet or a record holds
  file     files what came out of a sheet as a record
  verify   works every record of a collection out again
  orders   does the steps in random orders and compares all words

`husk COMMAND --help` says more; `husk --version` the numbers of the record's format and of the definitions.
A sheet, table or list of thetas `-` is standard input. A double is printed as a decimal that reads back as the same double, and
as its word, the 16 hexadecimal digits of its bits.

exit status
  0  done; verify: every record was had again; orders: every order came to the same words
  1  refused by number, or no scale; verify: a record differs; orders: an order differs
  2  bad usage
  3  a file could not be read or written, or is no table, record or list of thetas; verify: the same of a record, and
     none differs
";

/// `husk sheet --help`.
pub const SHEET: &str = "\
usage: husk sheet DATA.csv --response Y --group LEG[,RIG..] [--fixed X1[,X2..]] [--no-intercept] [--names FILE]

Writes the sheet of cross-products of a table of readings to standard output. The table is comma-parted text with a line
of column names; fields may be quoted.

  --response Y     the column that was measured
  --group A,B      the columns whose levels have an offset each (1 to 8); theta has one number for each, in this order
  --fixed X1,X2    columns of numbers with a fixed effect each
  --no-intercept   without the column of ones that is otherwise the first fixed effect (1 to 32 in all)
  --names FILE     writes which row of the sheet is which level, and which column which fixed effect

Levels are numbered in order of appearance, and taken as they stand (NA is one like any other). Sums run down the table
in doubles. A column whose name has a comma cannot be asked for. What is wrong with a table is told with its line, and
then nothing is written.

exit status: 0 done, 1 the sheet would be refused, 2 bad usage, 3 the table cannot be read, or has too much for a sheet
";

/// `husk solve --help`.
pub const SOLVE: &str = "\
usage: husk solve SHEET THETA.. [--reml] [--all]
       husk solve SHEET --thetas FILE [--reml] [--svg OUT]

Prints a try: the mode, theta, and deviance, sigma2, log determinant and beta, a value and its word on each line,
tab-parted. A THETA for each block, in sheet order: 16 lower-case hexadecimal digits are a word, anything else is decimal.

  --reml           restricted maximum likelihood, where maximum likelihood is meant otherwise
  --all            also b (the offset of every row), u, the pivots by sorted block, and the deviance of the factor
  --thetas FILE    a theta on each line, blank- or tab-parted (what follows a `#` is passed over): prints a table of
                   theta and deviance
  --svg OUT        draws that table as a curve, for a sheet with one block

Where there is no solution, the answer is a line `noscale`, or `refused` with number and places (in a table: NA).

exit status: 0 done, 1 refused or no scale, 2 bad usage, 3 a file cannot be read or written
";

/// `husk show --help`.
pub const SHOW: &str = "\
usage: husk show SHEET|RECORD

Prints the sizes of a sheet, how its blocks are stored and the room that a workspace needs; of a record also its tries.
A sheet that is refused is told in words, with its line.

exit status: 0 done, 1 the sheet is refused, 2 bad usage, 3 the file cannot be read or is a damaged record
";

/// `husk file --help`.
pub const FILE: &str = "\
usage: husk file SHEET THETA.. [--reml] [--out RECORD [--force]]
       husk file SHEET THETA.. [--reml] --add RECORD

Works a try out and files it: a new record of the sheet, or one try more in a record of the same sheet. No scale and a
refused pivot are answers, and are filed too.

  --reml           restricted maximum likelihood
  --out RECORD     where the record goes; without it, beside the sheet, by the sheet's name with the ending .record
  --force          replaces a file that is there; without it nothing is overwritten
  --add RECORD     adds the try to this record

A file is written beside its place and then renamed, so that a record is never half there. Who adds to the same record
at the same time has to wait for his turn.

exit status: 0 filed, 1 the sheet or theta is refused, 2 bad usage, 3 a file cannot be read or written, is there already,
is damaged, is of another sheet, or has this try already
";

/// `husk verify --help`.
pub const VERIFY: &str = "\
usage: husk verify FILE|FOLDER.. [--jobs N]

Works every try of every record out again from the record's own sheet and compares all words. In a folder, and the
folders in it, every file whose name ends in .record is a record. Links are followed; every folder is gone through once.

  --jobs N         so many records at a time; without it, as many as there are processors

A line for each record that differs (line, filed word, word had again) or could not be read, in the order of the names;
then how many were had again, differ, and could not be read. How many a second goes to standard error.

exit status: 0 every record was had again, 1 a record differs, 2 bad usage, 3 none differs, but one could not be read or
there is none
";

/// `husk orders --help`.
pub const ORDERS: &str = "\
usage: husk orders SHEET THETA.. [--count N] [--seed S]

Does the steps of the update in N random orders, with abandoned updates and refused calls between, and compares every
word that each leaves (the workspace with its factor, log determinant, deviances, solutions; NaNs as one value) with
the Rust's order on a freshly loaded workspace.

  --count N        so many orders (100)
  --seed S         where the random numbers start (1); the same seed gives the same orders

exit status: 0 all the same, 1 an order differs (its steps are printed) or the sheet or theta is refused, 2 bad usage,
3 the sheet cannot be read
";
