//! What `--help` prints.

pub const HELP: &str = "\
basinpantry judges the funding transactions that a peer proposes when a CKB payment channel is opened.

  basinpantry judge ...           judge an update from what a node prints
  basinpantry check CASE          judge a case file, and say the verdict in a sentence
  basinpantry case ... -o CASE    make a case file from what a node prints
  basinpantry show FILE           show a transaction or a case as a table
  basinpantry replay CASE...      judge a list of updates, and add up what they leave over

basinpantry COMMAND --help, or basinpantry help COMMAND, says more; basinpantry --version (-V) the version.
A FILE of - is standard input. An option's value follows it, or stands behind a =. After -- no word is an option.
Of a file or of standard input at most 8 MiB are read; --max-bytes N, with every command, sets another bound, up to 1 GiB.
JSON is nested 64 levels deep at most, an object has 1,000 fields at most, and a list of records 4,096.
A case file may have any length up to --max-bytes; only check --line, as the proved program check_update, answers 3 to one of more than 65,536 bytes.
check, judge, show and replay print JSON with --json.
Exit status: 0 accepted or done, 1 refused, 2 bad usage or a bad file.
";

/// What the parts of an update are, for `judge` and `case`.
macro_rules! options {
    () => {
        "  --peer FILE      the peer's transaction
  --ours FILE      our transaction in force; without it: none
  --lock FILE      the expected funding lock, a script
  --type FILE      the expected token type, a script; without it: untyped
  --source FILE    our source lock, a script
  --rate N         the fee rate in shannons per 1000 bytes, decimal or 0x and hex digits
  --records FILE   the cells that the peer's added inputs spend; without it: none
"
    };
}

/// How they are written.
macro_rules! parts {
    () => {
        "\
A transaction is JSON as CKB's RPC and ckb-cli print it (version, cell_deps, header_deps, inputs, outputs,
outputs_data, witnesses; numbers and bytes as 0x and hex digits), also inside of an RPC's answer
({\"transaction\": {...}, ...}), or its Molecule bytes. A script is JSON with code_hash, hash_type (data, type,
data1, data2) and args, or its Molecule bytes.

The records are JSON, and belong to the added inputs
  - by place: a list with an entry for each, in the inputs' order. An entry is null for a cell that is not live, or
    has an output, its data, and, if it is to be compared with the input's, the out_point:
      [{\"output\": {\"capacity\": \"0x2540be4cd\", \"lock\": {...}, \"type\": null}, \"data\": \"0x\"}, null]
    An answer of the RPC's get_live_cell with data may be an entry too, or stand alone for one input;
  - by id: where the entries are answers with an id, as in a batch, they are taken in the order of their ids,
    whatever order they stand in. An id that stands twice is an error, and so are answers of which only some have
    one, and a gap between ids where there is not one answer for each added input;
  - by out point: from an indexer's answer (get_cells with data) each input's cell is looked up. One that is not
    listed is taken for not live, and a note says so.
An answer in which the node failed is an error.

A note names what is not refused and what the chain refuses: an added input whose out point stands earlier among
the peer's inputs (its record is counted again), and data entries that are not one for each output.
"
    };
}

pub const CHECK: &str = "\
basinpantry check [--line | --json] CASE

Judges the update that a case file holds, and prints the verdict with its numbers.

  --line    print the bare verdict line instead: 0 and the capacity surplus as 32 hex digits,
            or the number of the refusal and its values; 3 for a file of more than 65,536 bytes, as the proved
            program check_update has it
  --json    print an object instead: accepted, number (0 where it is accepted), name, sentence, reason (null where
            there is no more to say), values by their names, and surplus with capacity and token (null where it
            is refused). Amounts, sizes and indexes are strings of 0x and hex digits, as in CKB's JSON

Without --line a case file may have any length up to --max-bytes.

Exit status: 0 accepted, 1 refused, 2 bad usage, or a file that is no case file (its line is 3).
";

pub const JUDGE: &str = concat!(
    "\
basinpantry judge --peer FILE --lock FILE --source FILE --rate N [--ours FILE] [--type FILE] [--records FILE] [--json]

Judges an update in one step, as `basinpantry case ... | basinpantry check -` does, and prints the verdict.

",
    options!(),
    "  --json           print an object instead (basinpantry check --help says which)

",
    parts!(),
    "
Exit status: 0 accepted, 1 refused, 2 bad usage or a bad file.
"
);

pub const CASE: &str = concat!(
    "\
basinpantry case --peer FILE --lock FILE --source FILE --rate N [--ours FILE] [--type FILE] [--records FILE] [-o CASE]

Makes a case file: an update with everything that decides it.

",
    options!(),
    "  -o CASE          where the case file goes, none of the files above; without it, or with -: standard output

",
    parts!(),
    "
The file of -o is written beside and then given its name, so that the old one or the new one stands at any time;
the old one's permissions stay. A run that is killed may leave a file .basinpantry-*.tmp there. A pipe or a device
is written to as it is.

A case file may have any length up to --max-bytes. The proved program check_update and check --line answer 3 to one of more than
65,536 bytes, which a note then says.
"
);

pub const SHOW: &str = "\
basinpantry show [--full | --json] FILE

Prints a transaction (JSON or Molecule bytes) or a case file as a table. Of a case: inputs with the cells that
they spend, outputs, what the peer puts in, the growth of output 0, what the peer takes back, the surplus, and
the verdict. An input or output is shared (ours has the same), changed, or added; output 0 is the funding cell.

  --full    whole hashes and args, not only their first and last bytes
  --json    print an object instead. Of a transaction: its size in bytes, and transaction as CKB's RPC has it. Of a
            case: ours, peer, funding_lock, token_type and source_lock, each with its size and null where it is
            unreadable; fee_rate; records, how many there are; for each input its part and record, and for each
            output its part; figures with capacity, token and required_fee (of an opening); notes; and verdict, as
            check --json has it. A figure below zero has a - in front

A note names what is not refused and what the chain refuses: an added input whose out point stands earlier among
the peer's inputs (its record is counted again), and data entries that are not one for each output.
A case file may have any length up to --max-bytes.

Exit status: 0 where it could be shown, whatever the verdict is; 2 bad usage or a bad file.
";

pub const REPLAY: &str = "\
basinpantry replay [--json] CASE...

Judges a list of updates, one in each case file, each against the transaction that the one before it left in
force, and prints each verdict, the sums of what the accepted updates leave over, and what is then in force.

  --json    print an object instead: updates, each with its file and verdict as check --json has it; accepted, how
            many; surplus, their sum; and in_force, the file whose transaction is in force, or null where it is the one
            at the start

The transaction of ours in the first file is the start. That of the later ones is not looked at and may be
missing. All files have the same expected funding lock and token type; peer, records, source lock and fee
rate are each file's own. The records of an update are one for each input that its transaction adds to the
one that is in force by then. A case file may have any length up to --max-bytes.

Exit status: 0 all accepted, 1 one was refused, 2 bad usage or a bad file.
";
