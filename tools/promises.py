#!/usr/bin/env python3
"""Every public function promises something. An exported one asks for nothing, and promises what the library's function of its name does.

Reads the headers of all `pub fn` in crates/*/src. Exit status 1 where one has no `ensures`, or where an `extern "C"` one, which stands in crates/bitblast_c,
has a `requires` or other parameters, another result or other clauses than the function of the same name and module in crates/bitblast; the last line counts
what was read."""
import glob, os, re, sys

ROOT = os.path.join(os.path.dirname(os.path.abspath(__file__)), '..')
LIBRARY, EXPORTING = 'bitblast', 'bitblast_c'
CLAUSE = re.compile(r'(requires|ensures)(\s+\w+)?\s*$')


def header(text, start):
    """The text from a function's name up to the brace that opens its body: clauses have braces of their own."""
    depth = 0
    for i in range(start, len(text)):
        if text[i] == '{' and depth == 0 and not CLAUSE.search(text[start:i]):
            return text[start:i]
        depth += (text[i] in '{(') - (text[i] in '})')
    return text[start:]


def functions():
    """(crate, file in src/, name, is exported, header with single spaces) of each public function."""
    for path in sorted(glob.glob(os.path.join(ROOT, 'crates', '*', 'src', '**', '*.rt'), recursive=True)):
        crate, inside = os.path.relpath(path, os.path.join(ROOT, 'crates')).split(os.sep + 'src' + os.sep)
        text = re.sub(r'//[^\n]*', '', open(path, encoding='utf-8').read())
        for m in re.finditer(r'\bpub\s+(extern\s+"C"\s+)?fn\s+(\w+)', text):
            yield crate, inside, m.group(2), bool(m.group(1)), ' '.join(header(text, m.end()).split())


def main():
    found = list(functions())
    promised = {(inside, name): head for crate, inside, name, _, head in found if crate == LIBRARY}
    wrong = 0
    for crate, inside, name, is_exported, head in found:
        faults = [] if 'ensures' in head else ['no promise']
        if is_exported and 'requires' in head:
            faults.append('an exported function asks for something')
        if is_exported and (crate != EXPORTING or promised.get((inside, name)) != head):
            faults.append('an exported function is not as in crates/%s' % LIBRARY)
        wrong += len(faults)
        for fault in faults:
            print('%s: crates/%s/src/%s: %s' % (fault, crate, inside, name))
    exported = sum(is_exported for _, _, _, is_exported, _ in found)
    print('%d public functions, %d of them exported, %d wrong' % (len(found), exported, wrong))
    return 1 if wrong or not found or not exported else 0


if __name__ == '__main__':
    sys.exit(main())
