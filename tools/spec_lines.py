#!/usr/bin/env python3
"""spec_lines.py: how many lines of definitions a reader has to believe, by part of the library: the lines of crates/*/specs/*.antt without comments, imports, blank lines
and `pub mod` lines; and those of the statements of theorems that no code needs. A file whose first line begins with INNER is what functions inside promise one
another: no contract of an entry cites it, so it is proved and need not be believed, and it is counted apart. Run it in the repository's root; docs/SPECIFICATION.md quotes it."""
import glob

PARTS = {
    'reading, writing, amounts and errors': 'arithmetic units error molecule transaction reader transaction_writer',
    'the rules and demand 3': 'rules funding_tx lists item_index item_lookup comparison records accounts contribution negotiation',
    'case files and their lines': 'case_file verdict_line',
    'out points and the tables of cells': 'out_points hold_records pick_kinds unavailable_picks picks held_cells watchtower_holds table_bytes held_bytes exclusion_entries exclusion_marks exclusions',
    'our own side': 'funding_cell udt_cells cell_output cell_deps distinct_deps list_writer base_inputs base_lists base_writer funding_builder',
    'the C interface': 'words answer_words transaction_lists item_places capi',
}

INNER = '-- What the functions inside promise one another', '-- What functions of this crate answer inside', '-- What the functions of this crate answer inside'

# statements of theorems that no code needs
STATEMENTS = 'crates/table_laws/specs/*.antt crates/transaction_theorems/proofs/Claims.antt crates/base_theorems/proofs/Claims.antt crates/base_compared/proofs/Claims.antt crates/molecule/proofs/Valid.antt crates/arithmetic/specs/Bits.antt'


def lines(paths, inner=False, without=()):
    count = 0
    for path in glob.glob(paths):
        if path in without:
            continue
        if open(path).readline().startswith(INNER) != inner:
            continue
        for line in open(path):
            text = line.strip()
            if text and not text.startswith('--') and not text.startswith('use ') and not text.startswith('pub mod'):
                count += 1
    return count


def main():
    for part, crates in PARTS.items():
        print('%4d  %s' % (sum(lines('crates/%s/specs/*.antt' % c, without=STATEMENTS.split()) for c in crates.split()), part))
    print('%4d  %s' % (sum(map(lines, STATEMENTS.split())), 'statements of the theorems that no code needs'))
    print('%4d  %s' % (lines('crates/*/specs/*.antt', True), 'not to be believed: what functions inside promise one another'))


main()
