//! The texts of `--help`, and how they are laid out.
//!
//! A line that begins with no space is a paragraph. One that begins with two is a row of a table, or
//! a point of a list. One that begins with four can be typed as it stands, and is never broken.

use crate::list;
use crate::page::Page;
use crate::screen::Screen;
use crate::shell::me;
use crate::words::grouped;
use crate::wrap::{untied, wrapped};
use mellansko::{Reason, BLOCK, LONGEST_LOG, LONGEST_RECORD};

pub fn page(text: &str, screen: Screen) -> Page {
    let mut page = Page::new(screen);
    for line in with_figures(text).lines() {
        let rows = match line.starts_with("    ") {
            true => vec![untied(line)],
            false => {
                let (head, rest) = line.split_at(hang(line));
                wrapped(head, rest, head.len(), screen.help())
            }
        };
        page.rows.extend(rows);
    }
    page
}

/// The column that a line's further rows begin in: that of a table's second column, or of a point's
/// text.
fn hang(line: &str) -> usize {
    let Some(row) = line.strip_prefix("  ") else {
        return 0;
    };
    match row.find("  ") {
        Some(first) => line.len() - row[first..].trim_start().len(),
        None if row.starts_with("- ") => 4,
        None => 2,
    }
}

/// A text with the figures of the format in it, each of which is written in one place only, and with
/// the name of the tool.
fn with_figures(text: &str) -> String {
    text.replace("{BLOCK}", &grouped(BLOCK))
        .replace("{RECORD}", &grouped(LONGEST_RECORD))
        .replace("{LOG}", &grouped(LONGEST_LOG))
        .replace("{RANGES}", &grouped(list::KEPT.ranges))
        .replace("{REASONS}", &reasons())
        .replace("{me}", &me())
}

/// A row for each reason, as the library puts it.
fn reasons() -> String {
    let row = |reason: &Reason| format!("  {}   {}: {reason}", reason.number(), reason.name());
    let rows: Vec<String> = Reason::ALL.iter().map(row).collect();
    rows.join("\n")
}

pub const VERSION: &str = concat!("mellansko ", env!("CARGO_PKG_VERSION"));

pub const ALL: &str = "\
mellansko reads and writes journals in the LevelDB log format. Damage that the format shows is always named, with \
its place and the reason. What no reader of this format can tell: a cut exactly between two records; blocks left out, \
repeated, or replaced by sound ones; bytes made with a right checksum. The reader and the writer are proved; \
docs/PROOF.md says what, and what not.

  mellansko verify FILE..   what damage journals show: where, and why
  mellansko dump FILE       all that is in a journal, one line each
  mellansko map FILE        a picture of a journal, block by block
  mellansko cat FILE N      the bytes of the N-th record
  mellansko append FILE     appends standard input to a journal, as one record
  mellansko mend BAD NEW    all readable records of a bad journal, in a new one

FILE may be - for standard input, except for append; BAD and NEW may not. Followed by --help, \
each command says more:

    {me} verify --help

Exit status:

  0   done, and no damage found in what was read
  1   something is in doubt
  2   not done, as with bad arguments or a file that can't be read
";

pub const VERIFY: &str = "\
mellansko verify [--all] FILE..

Says of each journal what damage it shows. The first line answers; with several files it speaks of all of them. Then \
each gap is listed: between which records it lies, and which ranges of bytes in it are in doubt, with the reasons. \
Places count from 0 and a range ends before its second number. Blocks, of {BLOCK} bytes, and records count from 1; \
only records that can be read are counted.

  --all   list every gap and every range, and not the first twenty alone; but of what can be read only once, such as standard \
input, no more than {RANGES} ranges

If no damage is found, all that is in the file reads as records, or as empty starts of records, \
and nothing is torn; the up to six bytes that fill up a block, where nothing more fits, are zero. \
What no reader of this format can tell:

  - a cut exactly between two records; those after it are missing
  - blocks that are left out, repeated, or replaced by other sound blocks; records are then missing, there twice, or \
put together from pieces of several
  - bytes made with a right checksum, by somebody or by chance

So compare the number of records, and where the last one stands, with what you expect. Full blocks that are equal \
byte for byte, but not of one byte over and over, get a warning, since one may have been copied over another; the exit \
status stays as it is.

An empty start is a record that is begun with no bytes, and then begun again. Early LevelDB \
writers left such starts at the ends of blocks, and they count as no damage: as far as a reader \
can tell, nothing is lost. How many there are is said in a line of its own; mellansko dump lists \
each. If no such writer wrote the journal, look there: a block that was left out may show so.

Bytes that fill up a block belong to no record, and have to be zeros. \
Where they are not, something wrote to the file that should not have: that is in doubt too.

A torn end may be the record that was being written when the power went. A damaged length in the last block \
looks the same, and then records that were written to their end may lie there. A record of more than {RECORD} bytes \
counts as in doubt too.

An empty file, or no input at all, shows no damage and has no records.

FILE may be - for standard input; after -- a name may begin with a dash.

Exit status:

  0   no damage found
  1   at least one is in doubt, and all could be read
  2   at least one could not be read
";

pub const DUMP: &str = "\
mellansko dump [--limit N] [--long] [--follow] FILE

Lists all that is in a journal in its order, one line each, with plain numbers:

  R START END LENGTH  a record: its place, and the number of its own bytes. The N-th of these lines is the record that \
mellansko cat FILE N gives
  S START END REASON  a range that is skipped. It is in doubt, unless the reason is 8, an empty \
start
  E clean             the end
  E torn START        the end, with a torn tail from START on
  X NUMBER            refused; nothing else follows

Reasons:

{REASONS}

Refusals:

  1   the journal has more than {LOG} bytes
  5   the limit is more than {RECORD}

  --limit N   skip records of more than N bytes, for reason 7; if not given, N is {RECORD}
  --long      say of each record how it was stored, in two numbers more: R START END LENGTH \
FRAGMENTS HEADER. The first is how many pieces it was read from, and the second the place where the \
last of them starts, with its header
  --follow    go on as the file grows, until you end it, with Ctrl-C

Each line is written as soon as no byte that may still come can change it, so a journal can be watched as it comes, on \
standard input, or with --follow in a file that another program writes. With --follow no end is told: what the file \
ends in waits for its rest. If the file gets shorter, is replaced or removed, or grows where the last bytes read are \
other ones by now, that is said, and ends it. Other changes to what was read are not noticed: verify judges the file as \
it is then.

If what brings the bytes to standard input fails, they may end where a journal can end: look at its exit status too.

A file that is too long is refused at once; what comes over a pipe, after the lines on its beginning.

FILE may be - for standard input, though not with --follow; after -- a name may begin with a dash.

Exit status:

  0   no damage found
  1   something is in doubt
  2   refused, or it could not be read to its end
  with --follow always 2, unless it is ended by a signal
";

pub const MAP: &str = "\
mellansko map [--blocks N] [--color WHEN] FILE

Draws a journal, a cell for each block of {BLOCK} bytes. Before each row stands its first block's number.

  R   readable: every byte belongs to a record, or to an empty start of one, or is one of the \
zeros that fill up the block after the last
  D   in doubt: a skipped range that is no empty start has a byte here
  T   torn: the torn tail has a byte here
  X   both
  -   between two cells: a record runs on from one into the other

  --blocks N     draw N blocks as one cell; if not given, as many as it takes for at most 16 rows
  --color WHEN   always, never, or auto: on a terminal, unless TERM is dumb or NO_COLOR is set and not empty

The picture is at most as wide as the terminal; elsewhere as COLUMNS says, or 80 columns. A record of more than {RECORD} bytes \
counts as in doubt. What no reader can tell does not show here either; mellansko verify --help lists it.

FILE may be - for standard input; after -- a name may begin with a dash.

Exit status:

  0   no damage found
  1   something is in doubt
  2   it could not be read
";

pub const CAT: &str = "\
mellansko cat FILE N

Writes the bytes of the N-th record to standard output, just as the journal has them. On a terminal, bytes \
that are no text, or that it would obey, are shown by their numbers, as \\x1b, and the last line is ended. The records that can be read count from 1. If something in \
the journal is in doubt, that is said on standard error: before the record, more may have been written than its number \
says; after it, a newer one may have been lost.

This writes all that can be read into a folder, a file each, and what is said of it into the file warnings; put your journal's name in place of race.log:

    file=race.log
    mkdir records
    last=$({me} dump -- \"$file\" | grep -c ^R)
    for n in $(seq $last); do
      {me} cat -- \"$file\" $n >records/$n 2>>warnings
    done

FILE may be - for standard input; after -- a name may begin with a dash.

Exit status:

  0   written, and no damage found in the journal
  1   written, and something in the journal is in doubt
  2   no such record can be read, or the file could not be read
";

pub const APPEND: &str = "\
mellansko append [--new] FILE

Appends all of standard input to a journal as one record, byte for byte, at the journal's end, and says where it \
stands. A journal in which something is in doubt is refused and left as it is, since a record after that might not be \
found again: begin another, or mend it. What the file holds is never overwritten; if a write fails, what it added is \
cut off again, and a new file is removed. While one append writes, another is refused.

  --new   begin a new journal; refused if the file is there already

A record has at most {RECORD} bytes, a journal {LOG}. An empty input is a record too, of 0 bytes: a closed standard \
input gives such a record, and so does a program before the pipe that failed.

Exit status:

  0   appended
  1   refused, since something in the journal is in doubt
  2   not appended, for another reason
";

pub const MEND: &str = "\
mellansko mend BAD NEW

Writes every record that can be read in the journal BAD, in order, into a new journal NEW. Says \
how many records were kept, and what was left out: the first twenty gaps of BAD, each with its \
first twenty ranges of bytes in doubt and the reasons. mellansko verify --all BAD lists every one. \
A torn end is left out too, and so is a record of more than {RECORD} bytes. Empty starts of \
records are named in a line of their own, and count as no loss.

Keep BAD, which is only read: NEW does not show that anything was lost, nor where. No damage will \
be found in it. And what was lost is not in it: a record in a gap may have been newer than one \
before it, and have replaced it.

NEW is never written over anything that is there. It gets its name only when all of it is on the \
disk. Until then it is a file in the same folder that is called mellansko-mend-, two numbers and \
.unfinished, and that is removed if anything fails. If that fails too, it says so. Such a file may \
be left if the tool is ended halfway; it can be removed.

BAD is a plain file of at most {LOG} bytes. Both journals are in memory while it is mended: that \
takes a little more than twice BAD's length, and the {RECORD} bytes of the longest record. If the \
system does not grant it, that is said, and nothing is written.

While an append writes to BAD, it is not mended, and \
while it is mended, an append to it is refused. What no reader can tell does not show here either; \
mellansko verify --help lists it.

After -- a name may begin with a dash.

Exit status:

  0   written, and nothing was left out: no damage found in BAD
  1   written, and something was left out
  2   not done; if anything is left, it says so
";
