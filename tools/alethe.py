#!/usr/bin/env python3
"""Checks the bit-blasting steps of a proof that cvc5 prints for a problem.

  tools/alethe.py PROBLEM.smt2 [--proof FILE] [--keep FOLDER]

cvc5 is asked for a proof in Alethe's text, unless --proof names one that it printed before (with the options below). Each bit-blasting
step in it becomes a step of a job, which bbhost checks (host/: cargo build --release --offline; the environment variable BBHOST names another).
--keep leaves the proof and the jobs in a folder.

cvc5 prints operations of three and more arguments as nested ones of two, beside the circuit of all: such a step is written a second time
with the nested operations as one, and is held where that is.

The last line is `s HELD` where there is a bit-blasting step and all are held, else `s NOT HELD`. It is no verdict on the proof: the
steps that are not bit-blasting (resolution, cong, ..) are counted, and not looked at.
Exit status 0: held. 1: not held. 2: no proof, or a program is missing.
"""
import collections, json, os, re, shutil, subprocess, sys, tempfile

BBHOST = os.environ.get("BBHOST") or os.path.join(os.path.dirname(os.path.abspath(__file__)), "../host/target/release/bbhost")
CVC5 = ["cvc5", "--dump-proofs", "--proof-format-mode=alethe", "--proof-granularity=theory-rewrite",
        "--bv-solver=bitblast-internal", "--simplification=none"]

# The rules that a proof can have, by their numbers from 1.
RULES = ["value", "var", "and", "or", "xor", "xnor", "not", "ult", "slt", "add", "mult", "neg", "equality", "comp", "extract",
         "concat", "sign_extend", "shl", "lshr", "ashr", "udiv", "urem", "bitwise_slicing"]

# The operations whose body holds nothing but arguments.
KINDS = {"not": 20, "and": 21, "or": 22, "xor": 23, "=": 24, "ite": 25, "bbterm": 31, "bvnot": 40, "bvneg": 41, "bvand": 42,
         "bvor": 43, "bvxor": 44, "bvadd": 45, "bvmul": 46, "bvxnor": 47, "bvcomp": 48, "bvult": 49, "bvslt": 50, "bvshl": 51,
         "bvlshr": 52, "bvashr": 53, "bvudiv": 54, "bvurem": 55, "concat": 56}
INDEXED = {"bit_of": 30, "extract": 57, "sign_extend": 58}
# Operations of any number of arguments, which cvc5 prints as nested ones of two.
NESTED = {"bvand", "bvor", "bvxor", "bvadd", "bvmul", "concat"}
MOST_ARGUMENTS = MOST_WIDTH = 64
# A job keeps up to 65,535 terms; one step may need many.
FULL_JOB = 30000


def check(files):
    """What the checker says about the jobs in some files."""
    done = subprocess.run([BBHOST, "check", "--json", *files], capture_output=True, text=True)
    if done.returncode > 1:
        sys.exit("bbhost: " + done.stderr)
    return json.loads(done.stdout)["files"]


def words(numbers):
    return b"".join(n.to_bytes(2, "little") for n in numbers)


def expressions(text):
    """The s-expressions of a text, as nested lists."""
    stack = [[]]
    for token in re.findall(r"\|[^|]*\||[()]|[^\s()]+", re.sub(r";[^\n]*", "", text)):
        if token == "(":
            stack.append([])
        elif token == ")":
            done = stack.pop()
            stack[-1].append(done)
        else:
            stack[-1].append(token)
    return stack[0]


def variables(problem):
    """The widths of a problem's variables, 0 for a Bool."""
    widths = {}
    for e in expressions(problem):
        if e[:1] in (["declare-const"], ["declare-fun"]):
            sort = e[-1]
            if sort == "Bool":
                widths[e[1]] = 0
            elif isinstance(sort, list) and sort[:2] == ["_", "BitVec"]:
                widths[e[1]] = int(sort[2])
    return widths


def width_of(kind, extra, widths):
    """The width of a term, 0 for a Bool: by its kind, the numbers in it, and its arguments' widths."""
    if kind in (11, 12):
        return extra[0]
    if kind == 10 or kind in range(20, 31) or kind in (49, 50):
        return 0
    if kind == 31:
        return len(widths)
    if kind == 56:
        return sum(widths)
    if kind == 57:
        return extra[0] - extra[1] + 1
    if kind in (58, 60):
        return widths[0] + extra[0]
    if kind == 63:
        return widths[0] * extra[0]
    return 1 if kind == 48 else widths[0]


class Outside(Exception):
    """Something that a job has no record for."""


class Job:
    """A job that is written from terms of a proof; `flat`: nested operations of NESTED are written as one."""

    def __init__(self, widths, flat):
        self.names = {name: k for k, name in enumerate(widths)}
        self.widths = widths
        self.flat = flat
        self.parts = {}
        self.numbers = {}
        self.width = [0, 0]
        self.bytes = b""

    def record(self, kind, body):
        return words([2 + len(body), kind]) + body

    def kept(self, kind, body, extra=(), arguments=()):
        """The number of a term, written where it is new."""
        record = self.record(kind, body)
        if record not in self.numbers:
            width = width_of(kind, extra, [self.width[a] for a in arguments])
            if width > MOST_WIDTH:
                raise Outside("a width of %d" % width)
            if len(arguments) > MOST_ARGUMENTS:
                raise Outside("%d arguments" % len(arguments))
            self.numbers[record] = len(self.width)
            self.width.append(width)
            self.bytes += record
        return self.numbers[record]

    def number(self, t, bound):
        """The number of a term, with the names of some lets around it."""
        if isinstance(t, str):
            return self.leaf(t, bound)
        if t[0] == "let":
            values = {name: self.number(value, bound) for name, value in t[1]}
            return self.number(t[2], {**bound, **values})
        if t[0] == "_" and t[1].startswith("bv"):
            return self.constant(int(t[2]), int(t[1][2:]))
        head, indices = t[0], []
        if isinstance(head, list) and head[0] == "_":
            head, indices = head[1], [int(n) for n in head[2:]]
        if not isinstance(head, str):
            raise Outside("an operation that is no name")
        head = {"bbT": "bbterm", "bitOf": "bit_of"}.get(head.lstrip("@"), head.lstrip("@"))
        arguments = [self.number(a, bound) for a in t[1:]]
        if head in INDEXED and indices:
            return self.kept(INDEXED[head], words(indices + arguments), indices, arguments)
        if head in KINDS and not indices:
            if self.flat and head in NESTED:
                arguments = [part for a in arguments for part in self.parts.get((head, a), [a])]
            number = self.kept(KINDS[head], words(arguments), (), arguments)
            self.parts[head, number] = arguments
            return number
        raise Outside("operation " + head)

    def leaf(self, name, bound):
        if name in bound:
            return bound[name]
        if name in ("true", "false"):
            return int(name == "false")
        if name in self.names:
            width = self.widths[name]
            extra = [width] if width else []
            return self.kept(11 if width else 10, words(extra + [self.names[name]]), extra)
        if name.startswith("#b"):
            return self.constant(len(name) - 2, int(name[2:], 2))
        if name.startswith("#x"):
            return self.constant(4 * len(name) - 8, int(name[2:], 16))
        raise Outside("symbol " + name)

    def constant(self, width, value):
        if width > MOST_WIDTH:
            raise Outside("a width of %d" % width)
        return self.kept(12, words([width]) + value.to_bytes(8, "little"), [width])

    def step(self, rule, clause, bound):
        """Writes a step: a clause below some lets."""
        if clause[0] == "let":
            values = {name: self.number(value, bound) for name, value in clause[1]}
            return self.step(rule, clause[2], {**bound, **values})
        literals = [self.number(t, bound) for t in clause[1:]]
        self.bytes += self.record(100, words([rule] + literals))


def rule_number(name):
    """The number of a bit-blasting rule of Alethe, 0 where it has none here, None where the rule is about something else."""
    if name == "bv_bitwise_slicing":
        return 23
    found = re.fullmatch(r"(?:bv_bitblast_step|bitblast)_(?:bv)?(\w+)", name)
    if not found:
        return None
    short = {"const": "value", "equal": "equality", "mul": "mult"}.get(found[1], found[1])
    return RULES.index(short) + 1 if short in RULES else 0


def steps_of(proof):
    """The steps of a proof: name of the rule, clause."""
    for e in expressions(proof):
        if isinstance(e, list) and e[:1] == ["step"] and ":rule" in e:
            yield e[e.index(":rule") + 1], e[2]


def run_cvc5(path, seconds):
    """The proof that is printed, and what became of the problem."""
    try:
        done = subprocess.run(CVC5 + [path], capture_output=True, text=True, timeout=seconds)
    except subprocess.TimeoutExpired:
        return "", "no answer in %d s" % seconds
    answer, _, printed = done.stdout.partition("\n")
    if done.returncode == 0 and answer == "unsat":
        return printed, "unsat with a proof"
    return "", "%s, but no proof: %s" % (answer, (printed.strip() or "status %d" % done.returncode)[:60])


class Converted:
    """The bit-blasting steps of a proof as jobs, as printed and flat, and what is left out."""

    def __init__(self, widths, proof):
        self.widths, self.names, self.jobs = widths, [], []
        self.others, self.outside = collections.Counter(), collections.Counter()
        for name, clause in steps_of(proof):
            rule = rule_number(name)
            if rule is None:
                self.others[name] += 1
            else:
                self.add(name, rule, clause)

    def add(self, name, rule, clause):
        if not self.jobs or len(self.jobs[-1][0].width) > FULL_JOB:
            self.jobs.append([Job(self.widths, flat) for flat in (False, True)])
        try:
            if not rule:
                raise Outside("no rule of a job")
            for job in self.jobs[-1]:
                job.step(rule, clause, {})
            self.names.append(name)
        except Outside as why:
            self.outside["%s: %s" % (name, why)] += 1

    def verdicts(self, folder):
        """What the checker says of each step as printed and, where that is refused, of the flat one."""
        found = []
        for k, pair in enumerate(self.jobs):
            files = [os.path.join(folder, "%d.%s.job" % (k + 1, form)) for form in ("printed", "flat")]
            for file, job in zip(files, pair):
                with open(file, "wb") as f:
                    f.write(job.bytes)
            printed, flat = check(files)
            for report in (printed, flat):
                if report["stop"]:
                    sys.exit("%s: %s" % (report["file"], report["stop_meaning"]))
            found += zip(printed["steps"], flat["steps"])
        return found


def report(converted, found):
    """Prints what the steps came to; whether all are held."""
    classes = collections.Counter()
    for name, (step, flat) in zip(converted.names, found):
        verdict = step["verdict"]
        if verdict == "refused" and flat["verdict"] == "held":
            verdict = "held with nested operations as one"
        elif verdict != "held":
            print("  step %d, %s: %s: %s" % (step["step"], name, verdict, step["meaning"]))
        classes[verdict] += 1
    outside, others = sum(converted.outside.values()), sum(converted.others.values())
    print("  %d bit-blasting steps: %s" % (len(found) + outside, ", ".join("%d %s" % (n, c) for c, n in classes.most_common()) or "none in a job"))
    for why, n in converted.outside.most_common():
        print("  %d not checked, since no job can hold it: %s" % (n, why))
    some = ", ".join("%s %d" % o for o in converted.others.most_common(4))
    print("  %d other steps, which are not looked at%s" % (others, ": %s, .." % some if some else ""))
    return bool(found) and not outside and set(classes) <= {"held", "held with nested operations as one"}


def arguments():
    words, given = sys.argv[1:], {"--proof": None, "--keep": None}
    for option in given:
        if option in words[:-1]:
            k = words.index(option)
            given[option] = words[k + 1]
            del words[k:k + 2]
    if len(words) != 1 or words[0].startswith("-"):
        print(__doc__, file=sys.stderr)
        sys.exit(2)
    return words[0], given["--proof"], given["--keep"]


def main():
    problem, proof, keep = arguments()
    for program in [BBHOST] + ([] if proof else ["cvc5"]):
        if not shutil.which(program):
            print("there is no %s (see --help)" % os.path.basename(program), file=sys.stderr)
            sys.exit(2)
    sys.setrecursionlimit(100000)
    with open(problem) as f:
        widths = variables(f.read())
    if proof:
        with open(proof) as f:
            printed, answer = f.read(), "the proof of " + proof
    else:
        printed, answer = run_cvc5(problem, 600)
    print("%s: %s" % (problem, answer))
    if not printed:
        sys.exit(2)
    with tempfile.TemporaryDirectory() as scratch:
        folder = keep or scratch
        os.makedirs(folder, exist_ok=True)
        with open(os.path.join(folder, "proof.txt"), "w") as f:
            f.write(printed)
        converted = Converted(widths, printed)
        held = report(converted, converted.verdicts(folder))
    print("s HELD" if held else "s NOT HELD")
    sys.exit(0 if held else 1)


if __name__ == "__main__":
    main()
