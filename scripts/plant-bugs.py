#!/usr/bin/env python3
"""Plants bugs in a crate's code, and says what the prover makes of each.

    scripts/plant-bugs.py CRATE START COUNT [--only WORD] [--together N] [--scratch FOLDER] [--list]

Run it at the top of the repository, where CRATE is proved. It works on a copy, picks COUNT of the edits of function bodies
that it knows by random numbers from START, and runs `rt check` on them. The same START and COUNT give the same edits.

    refused    the edited code is not proved: a fact fails, or a promise is left open
    unfit      a proof file does not fit the edited code: it names a step that is gone, or answers a goal that is not there
    invalid    it does not compile
    accepted   it is proved: an equivalent program, or a contract that is too weak

Where a proof file names a step that only got another name from the edit, the name is changed in the copy and the check made again,
so that fewer edits are unfit; `(renamed)` marks those.

A function is proved from the contracts of those that it calls, and the prover tells of each function by itself. So up to N edits
(8 unless said), each of another function, are checked at once. Where that does not tell enough of one, as where the function that it
calls has a bug too, or where nothing was refused, it is checked again alone.

--only WORD      the edits of lines and functions with this word alone
--together N     so many edits in one check
--scratch FOLDER keeps the copy and the logs there; a later run takes the verdict of an edit from its log
--list           prints the edits and checks none
"""
import argparse
import dataclasses
import hashlib
import pathlib
import random
import re
import shutil
import subprocess
import sys
import tempfile

SWAPS = {
    '<': ['<='], '<=': ['<'], '>': ['>='], '>=': ['>'], '==': ['!='], '!=': ['=='], '&&': ['||'], '||': ['&&'],
    '+': ['-'], '-': ['+'], '+=': ['-='], '-=': ['+='], '*': ['+'], '/': ['*'], '%': ['/'],
}
OPERATOR = re.compile(r'(?<= )(?:' + '|'.join(re.escape(o) for o in sorted(SWAPS, key=len, reverse=True)) + r')(?= )')
NUMBER = re.compile(r'(?<![\w.<#])\d[\d_]*(?![\w.])|(?<![\w.<#])\d[\d_]*(?=\.\.)|(?<=\.\.)\d[\d_]*')
CONSTANT = re.compile(r'(?<!; )(?<!::)\b[A-Z][A-Z0-9_]+\b(?!::|\()')


def blanked(text):
    """The text, of the same length, without comments, ghost lines and what stands in quotes."""
    skip = re.compile(r'//[^\n]*|^ *ghost\b[^\n]*|b?"(?:\\.|[^"\\])*"', re.M)
    return skip.sub(lambda m: re.sub(r'[^\n]', ' ', m.group()), text)


def closing(text, at):
    """Where the bracket at `at` is closed."""
    depth = 0
    for i in range(at, len(text)):
        depth += text[i] in '([{'
        depth -= text[i] in ')]}'
        if depth == 0:
            return i
    raise ValueError('a bracket is never closed')


@dataclasses.dataclass(frozen=True)
class Function:
    """A function with a body: where it begins, its name, its head, and where its body stands. Clauses belong to neither."""
    at: int
    name: str
    head: str
    start: int
    end: int


def functions(text):
    """The functions with a body."""
    for m in re.finditer(r'\bfn (\w+)', text):
        at = m.end()
        head_end = None
        while text[at] != ';':
            if text[at] in '([':
                at = closing(text, at)
            elif text[at] == '{':
                end = closing(text, at)
                head_end = head_end or at
                if not re.search(r'\b(requires|ensures)(\s+\w+)?\s*$', text[m.end():at]):
                    yield Function(m.start(), m.group(1), text[m.end():head_end], at, end + 1)
                    break
                at = end
            at += 1


def groups(text, start, end):
    """The parts of each list in brackets, as (start, end) of each."""
    for i in range(start, end):
        if text[i] not in '([':
            continue
        close, parts, at = closing(text, i), [], i + 1
        j = at
        while j < close:
            if text[j] in '([{':
                j = closing(text, j)
            elif text[j] == ',':
                parts.append((at, j))
                at = j + 1
            j += 1
        parts.append((at, close))
        yield [(a + len(text[a:b]) - len(text[a:b].lstrip()), b) for a, b in parts if text[a:b].strip()]


def statements(text, start, end):
    """The statements of a body, as (start, end) of their lines, block by block. The layout tells them apart."""
    lines, at = [], start
    for line in text[start:end].splitlines(keepends=True):
        lines.append((at, at + len(line), len(line) - len(line.lstrip(' ')), line.strip()))
        at += len(line)
    blocks = {}
    for k, (a, b, indent, said) in enumerate(lines):
        if k == 0 or not said or re.match(r'[})\].&|?]|else\b', said):
            continue
        opener = next((p for p in reversed(lines[:k]) if p[3] and p[2] < indent), None)
        if opener and (not opener[3].endswith('{') or re.search(r'\bmatch .*\{$|\b[A-Z]\w* \{$', opener[3])):
            continue
        last = k
        while last + 1 < len(lines) - 1 and (
            lines[last + 1][2] > indent or re.match(r'[})\].&|?]|else\b', lines[last + 1][3]) and lines[last + 1][2] == indent
        ):
            last += 1
        whole = text[a:lines[last][1]].strip()
        if whole.endswith((';', '}')):
            blocks.setdefault(opener and opener[0], []).append((a, lines[last][1]))
    return blocks.values()


def alike(text):
    """What may stand for what: calls with the same signature, and fields of one type in one struct."""
    kin = {}
    for f in functions(text):
        kin.setdefault(' '.join(f.head.split()), set()).add(f.name)
    for m in re.finditer(r'\bstruct \w+[^;{]*\{([^}]*)\}', text):
        for field, kind in re.findall(r'(\w+): ([^,\n]+),', m.group(1)):
            kin.setdefault((m.start(), kind), set()).add(field)
    return [names for names in kin.values() if len(names) > 1]


def variants(texts):
    """The plain variants of each enum in the texts."""
    found = {}
    for text in texts:
        for m in re.finditer(r'\benum (\w+) \{([^}]*)\}', text):
            found[m.group(1)] = re.findall(r'^ *([A-Z]\w*)(?: = \d+)?,', m.group(2), re.M)
    return found


def edits(text, kin, enums):
    """(function, start, end, new text) of each edit of the bodies."""
    plain = blanked(text)
    for f in functions(plain):
        head, start, end, body = f.head, f.start, f.end, plain[f.start:f.end]

        def each(pattern):
            return ((start + m.start(), start + m.end(), m) for m in re.finditer(pattern, body))

        for a, b, m in each(OPERATOR):
            for new in SWAPS[m.group()]:
                yield f, a, b, new
        for a, b, m in each(NUMBER):
            n = int(m.group().replace('_', ''))
            yield f, a, b, str(n + 1)
            if n > 0:
                yield f, a, b, str(n - 1)
        for a, b, m in each(CONSTANT):
            yield f, a, b, f'({m.group()} + 1)'
            yield f, a, b, f'({m.group()} - 1)'
        for a, b, m in each(r'\b(?:true|false)\b'):
            yield f, a, b, {'true': 'false', 'false': 'true'}[m.group()]
        for a, b, m in each(r'\bif (?!let )([^\n{}]+) \{'):
            yield f, start + m.start(1), start + m.end(1), f'!({text[start + m.start(1):start + m.end(1)]})'
        for a, b, m in each(r'(?<=[^\s.{}])\?;\n'):
            line = plain.rindex('\n', 0, a) + 1
            if not re.match(r' *let\b', plain[line:a]):
                yield f, line, b, re.sub(r'\S', lambda s: 'let _ = ' + s.group(), text[line:a], count=1) + ';\n'
        for a, b, m in each(r'\bSome\((?![^()]*\) =)'):
            yield f, a, closing(plain, b - 1) + 1, 'None'
        if head.endswith('-> Result<(), Fault> '):
            for a, b, m in each(r'(?<=\n)( +(?:return )?)\(*[a-z*][\w.*()]*\([^\n]*\)(?=;?\n)'):
                if 'return' in m.group(1) or re.match(r'\n *\}$', plain[b:end]):
                    yield f, start + m.end(1), b, 'Ok(())'
        for parts in groups(plain, start, end):
            for (a, b), (c, d) in zip(parts, parts[1:]):
                alien = text[a].isupper() != text[c].isupper()
                if text[a:b] != text[c:d] and '\n' not in text[a:d] and not alien:
                    yield f, a, d, text[c:d] + text[b:c] + text[a:b]
        for block in statements(plain, start, end):
            # The value of a body is no statement.
            block = [(a, b) for a, b in block
                     if '->' not in head or text[a:b].strip().endswith(';') or not re.match(r'\s*\}$', plain[b:end])]
            for a, b in block:
                if not re.match(r'\s*let\b', plain[a:b]):
                    yield f, a, b, ''
            for (a, b), (c, d) in zip(block, block[1:]):
                if not text[b:c].strip():
                    yield f, a, d, text[c:d] + text[b:c] + text[a:b]
        kinds = {}
        for parameter, kind in re.findall(r'(\w+): ([^,)]+)', head):
            kinds.setdefault(kind, set()).add(parameter)
        for names in kinds.values():
            for a, b, m in each(r'(?<![.\w])(?:' + '|'.join(sorted(names)) + r')\b(?!:)'):
                for new in sorted(names - {m.group()}):
                    yield f, a, b, new
        for names in kin:
            for a, b, m in each(r'(?<=\.)(?:' + '|'.join(sorted(names)) + r')\b'):
                for new in sorted(names - {m.group()}):
                    yield f, a, b, new
        for a, b, m in each(r'\b([A-Z]\w*)::([A-Z]\w*)\b(?!\()'):
            others = enums.get(m.group(1), [])
            if len(others) > 1 and m.group(2) in others:
                yield f, start + m.start(2), b, others[(others.index(m.group(2)) + 1) % len(others)]


def path(file, text, function):
    """A function as the prover names it: its module, its type with the trait, its name."""
    parts = [p for p in file.with_suffix('').parts[file.parts.index('src') + 1:] if p != 'lib']
    for m in re.finditer(r'^impl(?:<[^{]*?>)? (?:(\w+)(?:<[^{]*?>)? for )?&?(?:mut )?(\w+)[^{]*\{', text, re.M):
        if m.end() <= function.at < closing(text, m.end() - 1):
            parts.append(m.group(2) + (m.group(1) or ''))
    return [*parts, function.name]


def with_all(text, edits):
    """The text with each of the edits, no two of which touch."""
    for edit in sorted(edits, key=lambda e: -e.start):
        text = text[:edit.start] + edit.new + text[edit.end:]
    return text


@dataclasses.dataclass(frozen=True)
class Edit:
    """One edit: of which function of which file, and what stands for what."""
    file: pathlib.Path
    text: str
    function: Function
    start: int
    end: int
    new: str

    def alone(self):
        """The file's text with this edit."""
        return with_all(self.text, [self])

    def log(self):
        """The name of the log with what was said of it."""
        return hashlib.sha256(f'{self.file}\n{self.alone()}'.encode()).hexdigest()[:16]

    def path(self):
        return path(self.file, self.text, self.function)

    def __str__(self):
        old, new = (' '.join(t.split()) for t in (self.text[self.start:self.end], self.new))
        return f'{self.file}:{self.text.count(chr(10), 0, self.start) + 1}: {self.function.name}: {old} -> {new}'


def planted(crate, start, count, only):
    """How many edits there are, and those that are picked."""
    sources = {f: f.read_text() for f in sorted(pathlib.Path('crates', crate, 'src').rglob('*.rt'))}
    kin = alike('\n'.join(blanked(t) for t in sources.values()))
    enums = variants(f.read_text() for f in sorted(pathlib.Path('crates').glob('*/src/*.rt')))
    found = []
    for file, text in sources.items():
        for function, a, b, new in edits(text, kin, enums):
            line = text[text.rindex('\n', 0, a) + 1:text.index('\n', a)]
            if only is None or only in function.name or only in line:
                found.append(Edit(file, text, function, a, b, new))
    random.Random(start).shuffle(found)
    return len(found), found[:count]


def check(folder, crate):
    """What `rt check` says of the crate in the copy."""
    try:
        run = subprocess.run(['rt', 'check'], cwd=folder / 'crates' / crate, text=True, timeout=1800,
                             stdout=subprocess.PIPE, stderr=subprocess.STDOUT)
        return run.stdout
    except subprocess.TimeoutExpired:
        return 'logic=not-proved\nno answer in half an hour\n'


GONE = re.compile(r'has no `([\w+-]+)` that can be named from here(?: \(did you mean `([\w+-]+)`)?')
UNFIT = re.compile(r'that can be named from here|has no field|is not in scope|was not admitted|replace that `_`')
FALSE = re.compile(r'^note: \S+: it is not proved .*is false.*$', re.M)
OPEN = re.compile(r'^note: \S+: it is not proved .*$', re.M)
ERROR = re.compile(r'^\S+: error\b.*$', re.M)
DIFFER = re.compile(r'(?:first differ|differ only) where one has `([^`]*)`.*?the other has `([^`]*)`', re.S)
STEP = re.compile(r'\.before\b|\bLts\b')


def verdict(said):
    """The verdict, and the line of the output that tells why: a goal that is false, one left open, or the first error."""
    if re.search(r'^logic=proved', said, re.M):
        return 'accepted', ''
    error = ERROR.search(said)
    if not re.search(r'^logic=not-proved', said, re.M):
        return 'invalid', (error or re.search(r'.*error.*|.*', said)).group()
    wrong, gone = FALSE.search(said), error and UNFIT.search(error.group())
    goal = wrong or not gone and OPEN.search(said)
    if goal or not error:
        return 'refused', (goal or re.search(r'^fn .*(?:no proof|not proved).*$|.*', said, re.M)).group()
    # The terms that differ are told as printed and as computed: one of the two may show that two values do.
    differ = DIFFER.findall(said[error.start():error.start() + 2000])
    return 'unfit' if gone or differ and all(moved(*terms) for terms in differ) else 'refused', error.group()


def moved(one, other):
    """Whether two terms may differ in a step alone, which has changed places; two values of one step that differ are a fact."""
    if not any(STEP.search(v) for v in (one, other)):
        return False
    ones, others = (v.replace('.before', '').split('.') for v in (one, other))
    apart = [i for i, (a, b) in enumerate(zip(ones, others)) if a != b]
    return len(ones) != len(others) or len(apart) != 1 or apart[0] < 2 or not all(re.fullmatch(r'[\w.-]+', v) for v in (one, other))


def rename(folder, said):
    """Gives a step its new name in the proof files of its function; answers their old texts."""
    gone = GONE.search(said)
    old, new = (gone.group(1).split('-'), gone.group(2).split('-')) if gone and gone.group(2) else ([], [])
    parts = [(o, n) for o, n in zip(old, new) if o != n]
    if len(old) != len(new) or len(parts) != 1:
        return {}
    file = folder / re.match(r'(\S+?):\d', said[said.rfind('\n', 0, gone.start()) + 1:]).group(1)
    texts = {proof: proof.read_text() for proof in file.parent.glob('*.antt')}
    for proof, text in texts.items():
        proof.write_text(re.sub(rf'(?<=-){parts[0][0]}(?![\w])', parts[0][1], text))
    return texts


def part(said, edit, edited):
    """What is said of the edit's function alone, where its file has further edits; nothing where that does not tell enough."""
    name = edit.path()
    status = re.search(rf'^fn \w+::{"::".join(name)}: .*$', said, re.M)
    if not status or status.group().endswith(': proved'):
        return None
    place = next(f for f in functions(blanked(edited)) if path(edit.file, blanked(edited), f) == name)
    first, last = (edited.count('\n', 0, at) + 1 for at in (place.at, place.end))
    kept = []
    for message in re.split(r'\n(?=\S)', said):
        proof = re.match(rf'\./proofs/(?:fn/)?{"/".join(name)}/', message)
        line = re.match(rf'(?:note: )?{"/".join(edit.file.parts[2:])}:(\d+):', message)
        if proof or line and first <= int(line.group(1)) <= last:
            kept.append(message)
    return '\n'.join([*kept, status.group(), 'logic=not-proved\n']) if kept else None


def misread(said, edit, edited):
    """Whether the compiler stops within the edit's function."""
    return '\nlogic=' not in said and part(f'{said}\nfn x::{"::".join(edit.path())}: ', edit, edited) is not None


def judged(folder, crate, batch):
    """What is said of each of these edits, planted together; nothing of one that has to be tried alone, or again with others.

    Names of steps that an edit changed are changed in the proof files too, and the check is made again.
    """
    texts = {e.file: e.text for e in batch}
    edited = {file: with_all(text, [e for e in batch if e.file == file]) for file, text in texts.items()}

    def of(edit, said):
        return said if len(batch) == 1 else part(said, edit, edited[edit.file])

    for file, text in edited.items():
        (folder / file).write_text(text)
    said, kept, renamed = check(folder, crate), {}, set()
    for _ in range(3):
        changed = {}
        for edit in batch:
            mine = of(edit, said)
            if mine and verdict(mine)[0] == 'unfit':
                old = rename(folder / 'crates' / crate, mine)
                changed.update(old)
                renamed.update([edit] if old else [])
        if not changed:
            break
        kept = {**changed, **kept}
        said = check(folder, crate)
    for file, text in [*texts.items(), *kept.items()]:
        (folder / file).write_text(text)
    answers = {e: of(e, said) for e in batch}
    if '\nlogic=' not in said and len(batch) > 1:
        wrong = [e for e in batch if misread(said, e, edited[e.file])] or batch
        answers = {e: None for e in wrong}
    return {e: mine and ('(renamed)\n' if e in renamed else '\n') + mine for e, mine in answers.items()}


def tried(folder, crate, edits, together):
    """Each edit with what is said of it, as it comes."""
    waiting, alone = list(edits), []
    while waiting or alone:
        batch = {}
        for edit in [alone[0]] if alone else waiting:
            batch.setdefault(tuple([str(edit.file), *edit.path()]), edit)
        for edit, said in judged(folder, crate, list(batch.values())[:together]).items():
            (alone if edit in alone else waiting).remove(edit)
            if said is None:
                alone.append(edit)
            else:
                yield edit, said


def main():
    parser = argparse.ArgumentParser(description=__doc__, formatter_class=argparse.RawDescriptionHelpFormatter)
    parser.add_argument('crate')
    parser.add_argument('start', type=int)
    parser.add_argument('count', type=int)
    parser.add_argument('--only')
    parser.add_argument('--together', type=int, default=8)
    parser.add_argument('--scratch', type=pathlib.Path)
    parser.add_argument('--list', action='store_true')
    args = parser.parse_args()
    places, picked = planted(args.crate, args.start, args.count, args.only)
    print(f'{args.crate}: {places} edits, {len(picked)} picked from {args.start}', flush=True)
    if args.list:
        print('\n'.join(map(str, picked)))
        return
    folder = args.scratch or pathlib.Path(tempfile.mkdtemp(prefix='planted-bugs.'))
    logs = folder / 'logs'
    logs.mkdir(parents=True, exist_ok=True)
    counts = dict.fromkeys(['refused', 'unfit', 'invalid', 'accepted'], 0)

    def tell(edit, said):
        word, why = verdict(said.split('\n', 1)[1])
        counts[word] += 1
        print(f'{word:8} {edit}\n         {said.splitlines()[0]} {why[:300]}  [{edit.log()}]', flush=True)

    try:
        shutil.copytree('crates', folder / 'crates', dirs_exist_ok=True, ignore=shutil.ignore_patterns('out'))
        shutil.copy('crates.txt', folder)
        if verdict(check(folder, args.crate))[0] != 'accepted':
            sys.exit(f'plant-bugs: {args.crate} is not proved as it stands')
        fresh = [e for e in picked if not (logs / e.log()).exists()]
        for edit in picked:
            if edit not in fresh:
                tell(edit, (logs / edit.log()).read_text())
        for edit, said in tried(folder, args.crate, fresh, args.together):
            (logs / edit.log()).write_text(said)
            tell(edit, said)
        print(f'{args.crate} {args.start}: {len(picked)} planted, ' + ', '.join(f'{n} {w}' for w, n in counts.items()))
    finally:
        if not args.scratch:
            shutil.rmtree(folder)


if __name__ == '__main__':
    main()
