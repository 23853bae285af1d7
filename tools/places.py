#!/usr/bin/env python3
"""Lists the places in the crates' src/ (and the answers in proofs/) that older forms of the language would leave,
point by point, as docs/DESIGN-PASS.md counts them.

    python3 tools/places.py            the tree as it stands
    python3 tools/places.py COMMIT     the tree at a commit
    python3 tools/places.py -v ..      with each line
A pattern finds candidates: which of them are places is for a reader to say."""
import collections, re, subprocess, sys

VERBOSE = '-v' in sys.argv
ARGS = [a for a in sys.argv[1:] if a != '-v']
COMMIT = ARGS[0] if ARGS else None


def files(pattern):
    if COMMIT:
        names = subprocess.run(['git', 'ls-tree', '-r', '--name-only', COMMIT], capture_output=True, text=True, check=True).stdout.split('\n')
        for name in names:
            if re.fullmatch(pattern, name):
                yield name, subprocess.run(['git', 'show', f'{COMMIT}:{name}'], capture_output=True, text=True, check=True).stdout
    else:
        names = subprocess.run(['git', 'ls-files', '-co', '--exclude-standard'], capture_output=True, text=True, check=True).stdout.split('\n')
        for name in sorted(set(names)):
            if re.fullmatch(pattern, name):
                try:
                    yield name, open(name).read()
                except FileNotFoundError:
                    pass


SOURCES = sorted(files(r'crates/\w+/src/.*\.rt'))


def code(text):
    return re.sub(r'//[^\n]*', '', text)


def show(title, found):
    print(f'{len(found):5}  {title}')
    if VERBOSE:
        for line in found:
            print('         ' + line)


def lines(pattern):
    found = []
    for name, text in SOURCES:
        for match in re.finditer(pattern, code(text), re.M):
            line = code(text)[:match.start()].count('\n') + 1
            found.append(f'{name}:{line}: {" ".join(match.group(0).split())[:110]}')
    return found


def functions():
    for name, text in SOURCES:
        for match in re.finditer(r'^( *)(?:pub(?:\(crate\))? )?fn (\w+)(.*?)^\1\{\n(.*?)^\1\}', code(text), re.M | re.S):
            yield name, match.group(2), match.group(3), ' '.join(match.group(4).split())


print('point 1: shapes of Option and Result, flags, numbers for kinds')
show('`let .. else { return None; }`', lines(r'else \{\s*return None;\s*\}'))
show('0 or 1 for a truth value', lines(r'(=> (?:if [^{]*\{ 1 \} else \{ 0 \}|[01]),)|(\{\s*1\s*\} else \{\s*0\s*\})'))
show('a match that only maps or unwraps', lines(r'(None => (?:None|false|0|return None),?)|(Err\(_\) => unreachable\(\))|(None => unreachable\(\))|(None => Ok\(\(\)\))'))
show('a flag beside a value', lines(r'^\s+(?:pub )?\w+: bool,$'))
show('a number for a kind', lines(r'-> u8$|matched: u8'))

print('point 2: twins')
by_body = collections.defaultdict(list)
by_name = collections.defaultdict(set)
for name, function, head, body in functions():
    if len(body) > 12:
        by_body[body].append(f'{name}:{function}')
    by_name[function].add(name)
show('functions with the same body as another', sorted(f for fs in by_body.values() if len(fs) > 1 for f in fs))
show('names of free functions or methods in more than one crate', sorted(f'{f}: {", ".join(sorted(n))}' for f, n in by_name.items() if len({x.split("/")[1] for x in n}) > 1))

print('point 3: loops that count by hand')
counted = []
for name, text in SOURCES:
    source = code(text)
    for match in re.finditer(r'for (\w+) in ([^{\n]*\.\.[^{\n]*)\{', source):
        rest = source[match.end():match.end() + 700]
        if match.group(1) != '_' and re.search(r'\[[^\]\n]*\b' + match.group(1) + r'\b[^\]\n]*\]', rest):
            counted.append(f'{name}:{source[:match.start()].count(chr(10)) + 1}: for {match.group(1)} in {match.group(2)}')
show('`for i in a..b` whose body indexes by i', counted)
show('`for i in a..b`, all', lines(r'for \w+ in [^{\n]*\.\.[^{\n]*\{'))
show('`while` and `loop`', lines(r'^\s*(while [^\n]*|loop) \{'))
show('`x += 1`, `x += 2`, ..', lines(r'^\s*\w+ \+= \d+;'))

print('point 4: equality, order, copying, conversion and printing by hand')
show('constructors of a fault outside crate fault', [x for x in lines(r'\bFault \{') if not x.startswith('crates/fault/')])
show('conversions and printing by hand', [f'{n}:{f}' for n, f, h, b in functions() if f in ('class_of', 'word', 'digits_of', 'put_decimal', 'decimal_len', 'put_signed', 'start', 'by_letter', 'number', 'tell')])
show('types with no derive of Debug', lines(r'(?<!Debug\)\]\n)^(?:pub(?:\(crate\))? )?(?:struct|enum) \w+'))

print('point 5: facts repeated, parameters that travel together')
facts = collections.Counter()
for name, text in SOURCES:
    crate = name.split('/')[1]
    for match in re.finditer(r'requires(?: \w+)? \{(.*)\}$', text, re.M):
        for fact in re.split(r' × ', re.sub(r'[()]', '', match.group(1))):
            facts[(crate, ' '.join(fact.split()))] += 1
show('facts that stand in the `requires` of three functions or more of a crate', sorted(f'{c}: {f} ({n})' for (c, f), n in facts.items() if n >= 3))
together = collections.Counter()
where = collections.defaultdict(set)
for name, function, head, body in functions():
    params = re.findall(r'(\w+): [^,()]+', head.split('requires')[0].split('ensures')[0])
    crate = name.split('/')[1]
    for a in range(len(params)):
        for b in range(a + 1, len(params)):
            for c in range(b + 1, len(params)):
                together[(crate, params[a], params[b], params[c])] += 1
show('three parameters together in five functions or more of a crate', sorted(f'{k[0]}: {", ".join(k[1:])} ({n})' for k, n in together.items() if n >= 5))

print('point 6: buffers with a length or place beside them, parallel arrays')
show('a place or length beside a buffer (at, count, rows, used, room, k: usize)', lines(r'^\s*(?:at|count|rows|used|room|from|base|k): usize,$') + lines(r'\b(?:at|count|rows|used|k|base): usize(?=[,)].*\{?$)'))
show('fixed arrays', lines(r'\[[^\[\]\n]*; (?:MOST_\w+|\d+)\]'))

print('point 7: switches on the step to run, tables of functions')
show('a text or a number that picks', lines(r'match kind \{|matched: \d'))
show('function pointers and dyn', lines(r'\bfn\(|\bdyn '))

print('point 8: proofs')
answers = collections.Counter()
size = collections.Counter()
for name, text in files(r'crates/\w+/proofs/.*\.antt'):
    crate = name.split('/')[1]
    size[crate] += text.count('\n')
    if name.endswith('Answers.antt'):
        answers[crate] += len(re.findall(r'^pub [^\n]* : goal\.', text, re.M))
print(f'{sum(answers.values()):5}  answers: ' + ', '.join(f'{c} {n}' for c, n in sorted(answers.items())))
print(f'{sum(size.values()):5}  lines of proofs: ' + ', '.join(f'{c} {n}' for c, n in sorted(size.items())))
