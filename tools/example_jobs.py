#!/usr/bin/env python3
"""The jobs of examples/, and what the programs of crates/ are run on.

    example_jobs.py write             make every examples/NAME.job from NAME.txt, and the programs' standard input
    example_jobs.py check             they are what `write` makes
    example_jobs.py compare COMMAND   COMMAND, given such a job on its standard input, prints what is stored

NAME.txt says in words and bytes what NAME.job contains: a line is bytes in hexadecimal, then `#` and words; a line that starts
with `> ` is what `bbcheck` prints. What the programs print is in crates/NAME/stdout."""
import glob, os, subprocess, sys

ROOT = os.path.join(os.path.dirname(os.path.abspath(__file__)), '..')
MEMORY = 65536  # what bbcheck lends
BACK = bytes.fromhex('040065000200')  # drops every term but `true` and `false`
VARIABLE = bytes.fromhex('04000A000000')


def example(path):
    """The bytes of a text's job, and what is printed for it."""
    lines = open(path, encoding='utf-8').read().splitlines()
    job = bytes.fromhex(''.join(line.split('#')[0] for line in lines if not line.startswith('> ')))
    return job, ''.join(line[2:] + '\n' for line in lines if line.startswith('> '))


def full(job):
    """The job and a back, again and again, and variables up to the last byte."""
    block = job + BACK
    times = MEMORY // len(block)
    while (MEMORY - times * len(block)) % len(VARIABLE):
        times -= 1
    return block * times + VARIABLE * ((MEMORY - times * len(block)) // len(VARIABLE))


def jobs():
    """Each job: the path of its file, its bytes, and what is printed."""
    for path in sorted(glob.glob(os.path.join(ROOT, 'examples', '*.txt'))):
        job, printed = example(path)
        yield path[:-4] + '.job', job, printed
    slt, _ = example(os.path.join(ROOT, 'examples', 'slt.txt'))
    for name, job in (('bbcheck', slt), ('bbcheck_empty', b''), ('bbcheck_full', full(slt)), ('bbcheck_long', full(slt) + b'\0')):
        crate = os.path.join(ROOT, 'crates', name)
        yield os.path.join(crate, 'stdin'), job, open(os.path.join(crate, 'stdout'), encoding='utf-8').read()


def main(words):
    if words not in (['write'], ['check']) and (len(words) < 2 or words[0] != 'compare'):
        sys.exit(__doc__)
    count = wrong = 0
    for path, job, printed in jobs():
        count += 1
        same = True
        if words[0] == 'write':
            open(path, 'wb').write(job)
        elif words[0] == 'check':
            same = os.path.exists(path) and open(path, 'rb').read() == job
        else:
            same = subprocess.run(words[1:], input=job, stdout=subprocess.PIPE).stdout.decode() == printed
        if not same:
            wrong += 1
            print('differs:', os.path.relpath(path, ROOT))
    print('%d jobs, %d wrong' % (count, wrong))
    return 1 if wrong or not count else 0


if __name__ == '__main__':
    sys.exit(main(sys.argv[1:]))
