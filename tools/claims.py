#!/usr/bin/env python3
"""Prints the theorems that the documents speak of: each one's words, its statement as the definitions have it, and where it is proved.

  claims.py            prints them all
  claims.py check      exit status 1 where one of them is not found in the sources

The words of a theorem are its claim's comment in specs/. The promises of the exported functions follow, from their sources."""
import glob, os, re, sys

ROOT = os.path.join(os.path.dirname(os.path.abspath(__file__)), '..')

# Theorems whose type is written out; the others have a claim of their own in specs/.
WRITTEN_OUT = ['demand_1', 'demand_2', 'demand_3', 'demand_2_call', 'demand_3_call', 'answers_kept', 'shut_out', 'shut_out_held',
               'specimens_hold', 'worked_right', 'computed', 'steps_written']
CLAIMING = ['theory', 'sweeps', 'text', 'bitblast']    # the crates that state claims
EXPORTED = ['bb_job', 'bb_job_within', 'bb_sweep', 'bb_count', 'bb_known', 'bb_text', 'bb_tally', 'bb_version']


def sources(*parts):
    return sorted(glob.glob(os.path.join(ROOT, 'crates', *parts)))


def lines(path):
    return open(path, encoding='utf-8').read().splitlines()


def claims():
    """By its name each `abbrev pub NAME : Type 0` of the specs/ of the crates that state claims: comment, statement, place."""
    found = {}
    for path in [path for crate in CLAIMING for path in sources(crate, 'specs', '*.antt')]:
        text = lines(path)
        for k, line in enumerate(text):
            m = re.match(r'abbrev pub ([A-Z]\w*) : Type 0$', line)
            if m:
                first = k
                while first and text[first - 1].startswith('--'):
                    first -= 1
                last = k + 1
                while last < len(text) and text[last]:
                    last += 1
                found[m.group(1)] = (text[first:k], text[k + 1:last], place(path, k))
    return found


def place(path, k):
    return '%s:%d' % (os.path.relpath(path, ROOT), k + 1)


def theorems(known):
    """Each theorem: name, comment, statement, where it is stated, where it is proved."""
    for path in [path for crate in CLAIMING for path in sources(crate, 'proofs', '*.antt')]:
        text = lines(path)
        for k, line in enumerate(text):
            m = re.match(r'(  )?pub ([a-z][\w-]*) : (.*)$', line)
            if not m:
                continue
            name, last = m.group(2), k + 1
            while last < len(text) and text[last].startswith('    '):
                last += 1
            # a law is followed by its clauses, a field of a record is not
            if last == len(text) or not re.match(r'\s*(unfolding |%s )' % re.escape(name), text[last] + ' '):
                continue
            if m.group(3) in known:
                comment, statement, stated = known[m.group(3)]
                yield name, comment, statement, stated, place(path, k)
            elif name in WRITTEN_OUT:
                comment = [text[k - 1].strip()] if text[k - 1].strip().startswith('--') else []
                yield name, comment, [l.strip() for l in text[k:last]], place(path, k), place(path, k)


def promises():
    """Each exported function: its name, place and header."""
    for path in sources('bitblast_c', 'src', '*.rt'):
        text = lines(path)
        for k, line in enumerate(text):
            m = re.match(r'pub extern "C" fn (\w+)', line)
            if m:
                last = k
                while text[last] != '{':
                    last += 1
                yield m.group(1), place(path, k), text[k:last]


def main():
    known, seen = claims(), set()
    out = []
    for name, comment, statement, stated, proved in theorems(known):
        seen.add(name)
        out += ['%s    stated at %s, proved at %s' % (name, stated, proved)] + ['    ' + l for l in comment + statement] + ['']
    for name, where, header in promises():
        seen.add(name)
        out += ['%s    promises at %s' % (name, where)] + ['    ' + l for l in header] + ['']
    missing = [n for n in WRITTEN_OUT + EXPORTED if n not in seen]
    if sys.argv[1:] == ['check']:
        print('%d theorems and promises%s' % (len(seen), ', not found: ' + ', '.join(missing) if missing else ''))
        return 1 if missing else 0
    print('\n'.join(out))
    return 1 if missing else 0


if __name__ == '__main__':
    sys.exit(main())
