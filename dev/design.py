#!/usr/bin/env python3
"""Counts, point by point, the places in src/ that have a form of which docs/DESIGN-PASS.md speaks.

    python3 dev/design.py [COMMIT]        a line for each search: its point, how many places it finds, in how many crates
    python3 dev/design.py [COMMIT] --all  the places too

Without a commit it reads the files as they stand.
"""
import collections
import re
import subprocess
import sys

CLAUSE = r'^\s*(requires|ensures)[^\n]*'

# Point, what is counted, and what is found in the text of a file: each match is a place.
SEARCHES = [
    (1, 'a variant that says "no", "nothing", "open" or "refused"', r'^\s+(Refused|Faulty|Nowhere|Split|Open|Failed|Stopped|Missing|Unknown)\b[^:\n]*$'),
    (1, "a row's number or a flag as a field beside a value", r'^\s+(pub )?(row|full|idle|kept): (u32|bool),'),
    (1, "a function that answers a row's number, or 0", r'fn \w+_row\([^{]*?-> u32$'),
    (1, 'a test whether a row refuses', r'if [^\n]*\b(k|row) != 0'),
    (1, "a row's number written in code", r'return 1?[1-9];|return 10;|row: 1?[1-9],|Refused\(1?[0-9]\)|\bnumber: 1?[1-9]\b|\{ 0 \} else \{ 1?[0-9] \}'),
    (1, 'a number that says a kind', r'\bkind: u32|\bkind (==|<) [0-9]+|match (kind|buffer) \{\n\s+[0-9]'),
    (3, 'a loop that is no `for`', r'^\s*while '),
    (3, 'of these, one that counts an index by hand', r'^\s*while (?!2 <= n|joined|stands|digit_stands|tokens::stands)'),
    (4, 'a conversion, a comparison or a least or greatest of two by hand', r'fn (wide|joined|greater|least|kind_of|record_of|put_record|put_decimal|number_at|with_count|length|paired)\('),
    (5, 'node words, a computed table and a store as parameters', r'\bwords: &mut \[u32\],\s+table: &mut Table,\s+s: Store\b'),
    (5, 'node words and a computed table as parameters', r'\btable: &mut Table\b'),
    (5, '`Sound` in a clause', CLAUSE + r'\bSound '),
    (5, '`Standard` in a clause', CLAUSE + r'\bStandard '),
    (5, '`Valid` in a clause', CLAUSE + r'\bValid '),
    (5, 'that a node lies in the words, in a clause', CLAUSE + r'\* 3 \+ \d+ < length'),
    (5, 'that a count of nodes lies in the words, in a clause', CLAUSE + r'count \* 3 ≤ length'),
    (5, 'n and w as parameters', r'n: u32, w: u32'),
    (6, 'a buffer and the text in it as parameters', r'\bbuf: &mut \[u8\],\s+(t: Text|c: Run)'),
    (6, 'a count beside the words or the list that it is of, as parameters', r'\b(words|list|slice|triples|next): &(mut )?\[[^\]]*\],\s+(count|k|listed|entries|n): \w+'),
    (7, 'an enum that says which step to run, as a parameter', r'\b(half|fault|pass): [A-Z]\w+'),
]

# Functions or types that differ in a type, a size, a constant or a name: a place is a set of which more than one stands.
TWINS = [
    ('zeros', 'zero_words zero_bytes'), ('making', 'make_asserts make_checks'), ('making', 'assert_by check_by'),
    ('formula_access', 'assert_formula check_formula'), ('formula_record', 'assert_formula check_formula'), ('formula_words', 'assert_formula check_formula'),
    ('addresses building', 'AddressPair ControlPair'), ('diagrams searching', 'least greater'), ('nodes', 'all_shaped all_first all_found'),
    ('stored', 'put put_bytes'), ('stored', 'put_word put_byte'), ('stored', 'digest_words digest_bytes'), ('stored', 'add_word add_byte'),
    ('stored', 'changed changed_ports'), ('ports', 'replace replace_words replace_held'), ('called conditions_test', 'joined joined'),
    ('stored memcase', 'read_full read_input'), ('memory', 'fresh_result read_result check_result node_result value_result write_result assert_result'),
    ('memory', 'FreshResult ReadResult CheckResult NodeResult ValueResult WriteResult AssertResult'), ('rows node_calls', 'Done NodeDone ValueDone'),
    ('write_access assert_access', 'WriteDone AssertDone'), ('conditions_test', 'short_text long_text'), ('node_calls', 'variable_on ite_on'), ('ranges', 'cell_words data_words'),
]


def texts_at(commit):
    listing = ['git', 'ls-tree', '-r', '--name-only', commit, 'crates'] if commit else ['git', 'ls-files', 'crates']
    for name in sorted(subprocess.run(listing, capture_output=True, text=True, check=True).stdout.split()):
        if re.fullmatch(r'crates/\w+/src/.*\.rt', name):
            if commit:
                text = subprocess.run(['git', 'show', f'{commit}:{name}'], capture_output=True, text=True, check=True).stdout
            else:
                with open(name, encoding='utf-8') as file:
                    text = file.read()
            yield name, re.sub(r'^\s*//.*$', '', text, flags=re.M)


def main():
    words = [w for w in sys.argv[1:] if w != '--all']
    texts = list(texts_at(words[0] if words else None))
    rows = []
    for point, what, search in SEARCHES:
        found = [(name, text.count('\n', 0, m.start()) + 1, m.group(0).strip().split('\n')[0]) for name, text in texts for m in re.finditer(search, text, flags=re.M)]
        rows.append((point, what, found))
    twins = []
    for crates, names in TWINS:
        inside = [(n, t) for n, t in texts if n.split('/')[1] in crates.split()]
        stand = [n for n in names.split() for name, t in inside if re.search(r'(fn|struct) %s\b' % n, t)]
        if len(stand) > 1 and len(set(stand)) == len(set(names.split())):
            twins.append(('crates/' + crates.split()[0], 0, ' '.join(sorted(set(stand)))))
    rows.append((2, 'twins, of the sets that are named in the script', twins))
    for point, what, found in sorted(rows, key=lambda r: r[0]):
        crates = collections.Counter(name.split('/')[1] for name, _, _ in found)
        print(f'{point}  {len(found):4}  {len(crates):3}  {what}')
        if '--all' in sys.argv:
            for name, at, line in found:
                print(f'         {name[len("crates/"):]}:{at}: {line}')


if __name__ == '__main__':
    main()
