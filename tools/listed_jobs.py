#!/usr/bin/env python3
"""Small jobs with what the original Rust answers to each. Document 01's own, and a few of document 02's chains, under stated limits and with numbers of
four bytes, are computed by the prover (crates/theory/proofs/Computed.antt); the program `replay` runs all of them, after its generated ones.

  listed_jobs.py write                       writes Computed.antt, and the listed jobs into crates/replay
  listed_jobs.py check                       exit status 1 where one of these is not what `write` would write
  listed_jobs.py compare ORACLE [requests]   asks a program that answers jobs (`ORACLE case FILE WORK ROOM [WIDTH TERMS]`) about every job; about those of
                                             the requests, which the original does not know, only where `requests` is said

A line of listed_jobs.txt: name; work bytes, and after `within` the width limit and the term limit where a caller states them; answer bytes; the job in hex; stop, records, terms, repeats; rule:code:depth of each answer."""
import os, subprocess, sys, tempfile

from replay_jobs import GENERATED, JOBS, STDOUT, head, printed

HERE = os.path.dirname(os.path.abspath(__file__))
LIST = os.path.join(HERE, 'listed_jobs.txt')
COMPUTED = ('document 01', 'document 02')    # how the names of the computed jobs begin
REQUEST = ('document 02', 'request ')        # of those with what the requests of document 02 brought, which the original does not know
OUT = os.path.join(HERE, '..', 'crates', 'theory', 'proofs', 'Computed.antt')

# What a run has to unfold to be computed, by the module of specs/ that defines it.
UNFOLD = {
    'Limit': '',
    'Term': 'fold same_op same_term',
    'Sort': 'guard',
    'Depth': 'depth',
    'Circuit': 'zip_with last clog2 ripple_carry_adder last_carry carry_out ult_from bitblast_ult slt_from slt gather add_rows '
               'shift_add_multiplier shl_bits shl_stages shr_bits shr_stages shl lshr ashr divide_step '
               'bitblast_udiv_urem_rec udiv urem',
    'Bits': 'select get_term_bits fold_terms add_bits concat_bits',
    'Rule': 'args_of literal_bits slices_verdict on_sides verdict',
    'Record': 'cut shape_of read number_length',
    'Plain': 'feed repeat_of',
    'Codes': 'fault',
    'Answer': '',
    'Chain': 'joins chain_verdict',
    'Job': 'answers_to recall run_from run',
}

HEAD = '''-- Document 01's own jobs, computed: each comes to what it says, which is what the original Rust answers; and a few of document 02's chains, jobs under
-- stated limits, and jobs whose numbers have four bytes. Written by tools/listed_jobs.py; the program `replay` runs these and many others.
use mathlib.Core.Path.{◌≡◌, refl}
use mathlib.Core.List.{List, [], ◌∷◌}
use Prim.Native.Nat.{ℕ}
%s
-- a job, its limits, the lent bytes of work memory and answers, and what a run of it comes to
record Case : Type 0 where
  limits : Limits
  job : Bytes
  work : ℕ
  space : ℕ
  outcome : Outcome

abbrev answer : ℕ → ℕ → ℕ → Answer
answer rule code depth = record { rule = rule; code = code; depth = depth }

abbrev case : Limits → Bytes → ℕ → ℕ → ℕ → ℕ → List Answer → ℕ → ℕ → Case
case limits job work space stop done answers terms repeats = record {
  limits = limits;
  job = job;
  work = work;
  space = space;
  outcome = record { stop = stop; records = done; answers = answers; terms = terms; repeats = repeats };
}

-- each comes to its outcome
abbrev Computed : List Case → Type 0
Computed [] = Unit {0}
Computed (c ∷ cs) = (run c.limits c.job c.work c.space ≡ c.outcome) × Computed cs

abbrev cases : List Case
cases =
'''


def jobs():
    for line in open(LIST, encoding='utf-8'):
        line = line.strip()
        if line and not line.startswith('#'):
            name, work, room, text, numbers, answers = [part.strip() for part in line.split(';')]
            work, _, limits = work.partition('within')
            stop, records, terms, repeats = map(int, numbers.split())
            answers = [tuple(map(int, a.split(':'))) for a in answers.split()]
            yield name, limits.split(), int(work), int(room), bytes.fromhex(text), stop, records, terms, repeats, answers


def antt():
    types = {'Limit': 'Limits stated rack', 'Record': 'Bytes', 'Answer': 'Answer', 'Job': 'Outcome'}
    uses = ''.join('use Rattle.theory.specs.%s.{%s}\n' % (m, ', '.join((types.get(m, '') + ' ' + names).split())) for m, names in UNFOLD.items())
    out, count = [HEAD % uses], 0
    for name, limits, work, room, job, stop, records, terms, repeats, answers in jobs():
        if not name.startswith(COMPUTED):
            continue
        listed = lambda items: ' ∷ '.join(items + ['[]']) if items else '[]'
        given = listed([str(b) for b in job])
        got = listed(['answer %d %d %d' % a for a in answers])
        under = '(stated %s %s)' % tuple(limits) if limits else 'rack'
        numbers = given, work, room, stop, records, got, terms, repeats
        out.append('    -- %s\n    %scase %s (%s) %d %d %d %d (%s) %d %d\n' % (name, '∷ ' if count else '', under, *numbers))
        count += 1
    out.append('    ∷ []\n\npub computed : Computed cases\nunfolding %s\n' % ' '.join(' '.join(UNFOLD.values()).split()))
    out.append('computed = %stt%s\n' % ('(refl, ' * count, ')' * count))
    return ''.join(out)


def number_bytes(job):
    """The bytes of a term's number in a job, and of the depth in its answers."""
    return 4 if job[:4] == bytes([2, 0, 103, 0]) else 2


def written(job, answers):
    """The bytes of a job's answers."""
    b = number_bytes(job)
    words = lambda *numbers: b''.join(n.to_bytes(2, 'little') for n in numbers)
    return b''.join(words(6 + b, 200, rule, code) + depth.to_bytes(b, 'little') for rule, code, depth in answers)


def compare(oracle, requests):
    wrong = total = 0
    for name, limits, work, room, job, stop, records, terms, repeats, answers in jobs():
        if name.startswith(REQUEST) and not requests:
            continue
        with tempfile.NamedTemporaryFile(suffix='.job') as f:
            f.write(job)
            f.flush()
            text = subprocess.run([oracle, 'case', f.name, str(work), str(room), *limits], capture_output=True, text=True, check=True).stdout
        got = dict((line + ' ').split(' ', 1) for line in text.splitlines())
        said = bytes.fromhex(got.get('bytes', '').strip())
        total += 1
        if (int(got['stop']), int(got['records']), int(got['terms']), int(got['repeats']), said) != (stop, records, terms, repeats, written(job, answers)):
            wrong += 1
            print('differs:', name, got, answers)
    print('%d jobs, %d differ' % (total, wrong))
    return 1 if wrong or not total else 0


def replayed():
    """The two files of crates/replay with the listed jobs after the generated ones, by their paths."""
    heads, lines = [], []
    for name, limits, work, room, job, stop, records, terms, repeats, answers in jobs():
        data = written(job, answers)
        fields = {'stop': stop, 'records': records, 'answers': len(answers), 'terms': terms, 'repeats': repeats, 'bytes': data.hex()}
        heads.append(head(work, room, job, tuple(map(int, limits))))
        lines.append(printed(fields))
    generated = lambda path: open(path).read().splitlines(keepends=True)[:GENERATED]
    return {JOBS: ''.join(generated(JOBS) + heads), STDOUT: ''.join(generated(STDOUT) + lines)}


def main():
    files = lambda: {OUT: antt(), **replayed()}
    if sys.argv[1:] == ['write']:
        for path, text in files().items():
            open(path, 'w', encoding='utf-8').write(text)
        return 0
    if sys.argv[1:] == ['check']:
        wrong = [os.path.relpath(path) for path, text in files().items() if open(path, encoding='utf-8').read() != text]
        print('not as listed: ' + ', '.join(wrong) if wrong else 'the computed and the replayed jobs are as listed')
        return 1 if wrong else 0
    if len(sys.argv) in (3, 4) and sys.argv[1] == 'compare' and sys.argv[3:] in ([], ['requests']):
        return compare(sys.argv[2], len(sys.argv) == 4)
    print(__doc__)
    return 2


if __name__ == '__main__':
    sys.exit(main())
