#!/usr/bin/env python3
"""The must-fail edits that make functions wrong: each function that one names is refused for an error of its own.

A line `# wrong: MODULE::FUNCTION: WHAT` in crates/NAME/must-fail/LABEL.edit says that the edit makes this function wrong. A function is proved against
what its callees promise, so one edit makes many functions wrong at once, and the prover reports each at its own proof.

  edits.py fits [NAME..]        in a second: each text that an edit changes stands in its file once; each public function is named by two edits; of all crates,
                                or of those named
  edits.py check LOG [NAME..]   LOG is what `rt ci` or `rt must-fail` said, the first error of each edit. Exit status 1 where an edit is missing there or is not
                                refused, or where its first error says only that a proof no longer fits the text; where an edit of src/ names no function;
                                where a public function is named by fewer than two edits
  edits.py try [NAME..]         checks each edit in a copy of the crates, as `rt must-fail` does, and reads all that is said: exit status 1 also where a function
                                that an edit names has no error of its own, or none but that the proof no longer fits the text
  edits.py try --several [NAME..]   the same of the edits that name several functions, of whose errors a log has one
                                What was tried without a fault is kept on this machine, by the checksums of all that was read, and not tried again
  edits.py list [NAME..]        how many edits name each public function"""
import collections, concurrent.futures, contextlib, glob, hashlib, itertools, os, queue, re, shutil, subprocess, sys, tempfile

ROOT = os.path.normpath(os.path.join(os.path.dirname(os.path.abspath(__file__)), '..'))
# An error that follows from another one.
FOLLOWS = re.compile(r'was not admitted|was rejected|was not checked|cannot be checked')
# An error that says nothing of what a function answers: an invariant over other variables, a goal of the proof that the text no longer has, a name out of
# scope, or what follows from another error.
UNFIT = re.compile(r'can be named from here|not in scope|out of scope|unknown name|is no name|has no field|has no `|binders, but its type|' + FOLLOWS.pattern)
REFUSED = 'refused, as it must be'
# Where the checksums of the edits that were tried without a fault are kept on a machine.
KEPT = os.path.join(os.environ.get('XDG_CACHE_HOME') or os.path.expanduser('~/.cache'), 'kigbuleja', 'edits')


def read(path):
    with open(path, encoding='utf-8', errors='replace') as f:
        return f.read()


def wrong_lines(path):
    """(function, what is wrong in it) for each `# wrong:` line of an edit."""
    return re.findall(r'^# wrong: (\S+): (.+)$', read(path), re.M)


def edits():
    """(crate, label, path) of each edit."""
    for path in sorted(glob.glob(os.path.join(ROOT, 'crates', '*', 'must-fail', '*.edit'))):
        yield path.split(os.sep)[-3], os.path.basename(path)[:-len('.edit')], path


# An `impl` and its type: of a struct with lifetimes, and of a trait for a type, too.
IMPL = r'^impl(?:<[^>]*>)? (?:[\w:]+(?:<[^>]*>)? for )?(\w+)(?:<[^>]*>)? \{.*?^\}'


def sources():
    """(crate, module, text without comments) of each source file."""
    for path in sorted(glob.glob(os.path.join(ROOT, 'crates', '*', 'src', '**', '*.rt'), recursive=True)):
        crate, inside = os.path.relpath(path, os.path.join(ROOT, 'crates')).split(os.sep + 'src' + os.sep)
        module = [] if inside in ('lib.rt', 'main.rt') else inside[:-len('.rt')].split(os.sep)
        yield crate, module, re.sub(r'//[^\n]*', '', read(path))


def public_functions():
    """(crate, function) of each `pub fn`: the module, that of its type where it is a method, the type whose `impl` it stands in, and its name."""
    homes = {(crate, name): module for crate, module, text in sources() for name in re.findall(r'^\s*(?:pub(?:\([^)]*\))? )?(?:struct|enum) (\w+)', text, re.M)}
    for crate, module, text in sources():
        blocks = [(m.start(), m.end(), m.group(1)) for m in re.finditer(IMPL, text, re.M | re.S)]
        for m in re.finditer(r'\bpub\s+(extern\s+"C"\s+)?fn\s+(\w+)', text):
            kind = [name for start, end, name in blocks if start < m.start() < end]
            home = homes.get((crate, kind[0]), module) if kind else module
            yield crate, '::'.join(home + kind + [m.group(2)])


def first_in_log(log, crate, label):
    """What rt says of an edit, and the first error that it shows."""
    found = re.search(r'^rt: must-fail %s/%s\.edit: (.*)$' % (re.escape(crate), re.escape(label)), log, re.M)
    return found.group(1) if found else None


def folder_of(function):
    """A pattern for the folder of a function's proof; that of functions that call themselves, or each other, has their names after a +."""
    *module, name = function.split('::')
    return '/'.join(['proofs'] + module) + r'/(?:%s|\+(?:\w+_)?%s(?:_\w+)?)' % (name, name)


def faults_in_log(log, crate, label, path):
    """What is wrong with one edit, by the one line that rt says of it."""
    functions = {function for function, _ in wrong_lines(path)}
    if not functions and re.search(r'^file: src/', read(path), re.M):
        return ['it edits src/ and names no function']
    said = first_in_log(log, crate, label)
    if said is None:
        return ['it was not tried: run rt must-fail ' + crate]
    if not said.startswith(REFUSED):
        return [said[:200]]
    if 'only because a proof file names' in said or 'only by a limit' in said or UNFIT.search(said):
        return ['its first error shows nothing: ' + said[len(REFUSED):][:200].lstrip(': ')]
    place = re.match(r': \S*?(proofs/\S+)/\w+\.antt:', said[len(REFUSED):])
    if len(functions) == 1 and place and not re.fullmatch(folder_of(*functions), place.group(1)):
        return ['its first error is in another function\'s proof: ' + place.group(1)]
    return []


def own_errors(said, crate, function):
    """What a check says of the function's own proof: the errors in its proof files, or the goals that no search closed."""
    found = re.findall(r'^\S*/%s/\w+\.antt:\d+:\d+: error: (.*(?:\n  .*)*)' % folder_of(function), said, re.M)
    return found or re.findall(r'^fn %s::%s: no proof: .*(`search` did not prove .*)$' % (re.escape(crate), re.escape(function)), said, re.M)


def first_error(said):
    """The first error of an edit of definitions that does not follow from another one."""
    found = re.findall(r'^\S+\.antt:\d+:\d+: error: (.*(?:\n  .*)*)', said, re.M)
    found += re.findall(r'^fn \S+: no proof: .*(`search` did not prove .*)$', said, re.M)
    return next((error for error in found if not FOLLOWS.search(error)), None)


def faults_of(said, crate, path):
    """What is wrong with one edit, by all that a check of it says."""
    functions = sorted({function for function, _ in wrong_lines(path)})
    if not functions:
        if re.search(r'^file: src/', read(path), re.M):
            return ['it edits src/ and names no function']
        # in one line: below it antt may say what it shows is "not in scope"
        error = (first_error(said) or 'none').split('\n')[0]
        return ['its first error shows nothing: ' + error[:200]] if error == 'none' or UNFIT.search(error) else []
    faults = ['its own text has an error: ' + error[:200] for error in re.findall(r'^\S*(?:^|/)src/\S+: error.*', said, re.M)]
    for function in functions:
        # an edit that takes a variable away takes the goals away that are named after it: as rt does, go on to the first error that is another
        own = own_errors(said, crate, function)
        first = next((error for error in own if not UNFIT.search(error.split('\n')[0])), None)
        if not own:
            faults.append('%s has no error of its own' % function)
        elif not first:
            faults.append('no error of %s shows anything: %s' % (function, own[0].split('\n')[0][:200]))
    return faults


def applied(crate, path):
    """The texts of the files that an edit changes, by their place in the crate, and what does not fit: an `old:` text that does not stand once in what the
    earlier changes left, as rt applies them."""
    texts, faults, place, old = {}, [], None, None
    for line in read(path).split('\n'):
        if line.startswith('file: '):
            place = line[6:].strip()
        elif line.startswith('old: '):
            old = line[5:]
        elif line.startswith('new:'):
            text = texts.get(place) or read(os.path.join(ROOT, 'crates', crate, place))
            if text.count(old) != 1:
                faults.append('%d times in %s: %s' % (text.count(old), os.path.join('crates', crate, place), old))
            texts[place] = text.replace(old, line[4:].removeprefix(' '), 1)
    return texts, faults


def room_of(folder):
    """A copy of the crates in which edits are checked."""
    for name in ('crates.txt', 'HANDLES'):
        if os.path.exists(os.path.join(ROOT, name)):
            shutil.copy(os.path.join(ROOT, name), folder)
    for part in glob.glob(os.path.join(ROOT, 'crates', '*', '*')):
        if os.path.basename(part) in ('src', 'specs', 'proofs'):
            shutil.copytree(part, os.path.join(folder, os.path.relpath(part, ROOT)))


def tried_in(room, crate, path):
    """What is wrong with one edit, by a check of it in a room, which is then as it was."""
    folder = os.path.join(room, 'crates', crate)
    texts, faults = applied(crate, path)
    for place, text in texts.items():
        with open(os.path.join(folder, place), 'w', encoding='utf-8') as f:
            f.write(text)
    done = subprocess.run(['rt', 'check'], cwd=folder, stdin=subprocess.DEVNULL, stdout=subprocess.PIPE, stderr=subprocess.STDOUT, errors='replace')
    if done.returncode == 0:
        faults.append('it is not refused')
    for place in texts:
        shutil.copy(os.path.join(ROOT, 'crates', crate, place), os.path.join(folder, place))
    return faults or faults_of(done.stdout, crate, path)


def crates_below():
    """Each crate with those that it stands on, by crates.txt."""
    direct = {}
    for line in read(os.path.join(ROOT, 'crates.txt')).split('\n'):
        name, colon, below = line.split('#')[0].partition(':')
        if colon:
            direct[name.split()[0]] = below.split()

    def all_of(crate):
        return {crate}.union(*(all_of(one) for one in direct[crate] if one in direct))

    return {crate: sorted(all_of(crate)) for crate in direct}


def checksums(chosen):
    """For each edit by its path the checksum of all that its check reads: the kit, this script, the edit, and the sources of its crate and those below."""
    below, sums = crates_below(), {}
    kit = subprocess.run(['rt', 'version'], stdout=subprocess.PIPE).stdout + read(os.path.abspath(__file__)).encode()
    for crate in below:
        files = [f for part in ('src', 'specs', 'proofs') for f in glob.glob(os.path.join(ROOT, 'crates', crate, part, '**', '*.*'), recursive=True)]
        texts = [os.path.relpath(f, ROOT) + '\0' + read(f) for f in sorted(files)]
        sums[crate] = hashlib.sha256('\0'.join(texts).encode()).digest()
    return {path: hashlib.sha256(b'\0'.join([kit, read(path).encode(), *(sums[one] for one in below[crate])])).hexdigest() for crate, _, path in chosen}


def tried(chosen):
    """(crate, label, faults) of each edit, by checks in as many rooms as there are processors; a crate's edits are all checked in one. An edit that was
    tried before on this machine, over the same files, is not tried again."""
    sums, crates = checksums(chosen), queue.SimpleQueue()
    os.makedirs(KEPT, exist_ok=True)
    new = [edit for edit in chosen if not os.path.exists(os.path.join(KEPT, sums[edit[2]]))]
    print('%d edits to try, %d tried before' % (len(new), len(chosen) - len(new)), flush=True)
    for _, group in itertools.groupby(new, key=lambda edit: edit[0]):
        crates.put(list(group))

    def worker():
        found = []
        with tempfile.TemporaryDirectory() as room, contextlib.suppress(queue.Empty):
            room_of(room)
            while True:
                for crate, label, path in crates.get_nowait():
                    faults = tried_in(room, crate, path)
                    found.append((crate, label, faults))
                    if not faults:
                        open(os.path.join(KEPT, sums[path]), 'w').close()
        return found

    with concurrent.futures.ThreadPoolExecutor() as pool:
        for done in [pool.submit(worker) for _ in range(os.cpu_count() or 1)]:
            yield from done.result()


def main(verb, words):
    log = read(words.pop(0)) if verb == 'check' else ''
    is_several = verb == 'try' and words[:1] == ['--several']
    words = words[is_several:]
    chosen = [e for e in edits() if not words or e[0] in words]
    named = collections.Counter((crate, f) for crate, _, path in chosen for f in {function for function, _ in wrong_lines(path)})
    public = [p for p in public_functions() if not words or p[0] in words]
    few = ['%s: %s is made wrong by %d edits, and two are asked for' % (c, f, named[c, f]) for c, f in public if named[c, f] < 2]
    if verb == 'list':
        for crate, function in public:
            print('%d  %s: %s' % (named[crate, function], crate, function))
        print('%d public functions, %d of them made wrong by fewer than two edits' % (len(public), len(few)))
        return 0
    if verb == 'try':
        found = tried([e for e in chosen if not is_several or 1 < len({function for function, _ in wrong_lines(e[2])})])
    else:
        found = ((crate, label, faults_in_log(log, crate, label, path) if verb == 'check' else applied(crate, path)[1]) for crate, label, path in chosen)
    count = 0
    for fault in itertools.chain(('%s/%s: %s' % (crate, label, fault) for crate, label, faults in found for fault in faults), few):
        count += 1
        print(fault, flush=True)
    print('%d edits, %d wrong answers of %d functions, %d of them public: %d faults' % (len(chosen), sum(named.values()), len(named), len(public), count))
    return 1 if count or not public else 0


if __name__ == '__main__':
    if sys.argv[1:2] not in (['check'], ['fits'], ['try'], ['list']) or sys.argv[1:] == ['check']:
        sys.exit(__doc__)
    sys.exit(main(sys.argv[1], sys.argv[2:]))
