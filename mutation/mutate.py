#!/usr/bin/env python3
"""Mutation runs: one small change at a time, and whether the proofs refuse it.

    python3 mutation/mutate.py intops bounds            # programs: every site of the crates' src/
    python3 mutation/mutate.py --limit 40 --seed 1 units
    python3 mutation/mutate.py --specs --limit 60       # the definition: crates/definition/specs/
    python3 mutation/mutate.py --list padding           # print the sites and run nothing

Run it in a repository whose crates are proved (`rt all check`): the scratch copies stand outside the repository, and the checks in them
begin with what its own checks kept. --workers N makes N copies and works on N mutants at a time. --log names the file with a line for
each mutant (target/mutants.log), and one that it has already is not run again.
The table and the survivors are printed at the end. --together N makes up to N mutants in one check, of functions of which none
calls another: each function is proved by itself, so what is said of it is said of its mutant. One of which nothing is said is made again alone.

Programs: a mutant is refused where `rt check` in its crate reaches the prover and the prover does not prove it. A mutant that the
compiler declines (a type, a literal out of range) is `not a program`, and is counted apart. A mutant that is proved survived:
either it is the same program to every caller, or a contract does not say something.

Definition: a mutant is refused where a crate above it is not proved any more; `not a definition` where it has no types. The crates
are tried in the order of ABOVE, those of NEAREST first, by `rt check`, which first proves the libraries between over the changed definition
(where one of these fails, it is the one that refuses), and the first that fails ends it. For a survivor run `rt all check` with the change made.

Refused says that the proof at hand does not prove the mutant: a fact that it needs does not follow any more. A mutant that means the
same may be refused too. `refused by names` is weaker and counted apart: the proof only names a step that the mutant's code does not have.
"""
import argparse
import collections
import os
import queue
import random
import re
import shutil
import subprocess
import tempfile
import threading
import time

ROOT = os.path.dirname(os.path.dirname(os.path.abspath(__file__)))

# start and end in the file's text, what is put there, the kind of change, further changes that it needs (imports), and the function
Site = collections.namedtuple('Site', 'file start end new kind more fn')

# ---- programs

TOKEN = re.compile(r"""//[^\n]*|b"(?:\\.|[^"\\])*"|b'(?:\\.|[^'\\])'|[A-Za-z_]\w*|\d\w*"""
                   r"""|\.\.=|&&|\|\||==|!=|<=|>=|\+=|-=|\*=|->|=>|::|\.\.|<<|>>|\S""")
WORDS = set('if else while loop for in return break continue let mut match as const fn'.split())
CHANGED = {'<': '<=', '<=': '<', '>': '>=', '>=': '>', '==': '!=', '!=': '==', '+': '-', '-': '+', '*': '+', '/': '%', '%': '/',
           '&&': '||', '||': '&&', '+=': '-=', '-=': '+=', '*=': '+=', '<<': '>>', '>>': '<<', 'true': 'false', 'false': 'true'}
ORDERED = {'-', '/', '%', '<', '<=', '>', '>=', '<<', '>>'}
CHOOSERS = {'imin', 'imax', 'min', 'max', 'iclip', 'iclip64to32', 'choose', 'either', 'both'}
SIMPLE = re.compile(r'&?(mut )?[A-Za-z_][\w.]*$|\d\w*$')
NUMBER = re.compile(r'(\d[\d_]*)([iu](?:8|16|32|64|size))?$')
FN = re.compile(r'\s*(?:pub )?(?:extern "C" )?fn (\w+)')

# a function: its name, and the text from its signature to its end
Fn = collections.namedtuple('Fn', 'name start end')


def bodies(text):
    """Yields (start, end, types of the parameters, function) of each function's body and each constant's value."""
    at, where, start, indent, signature = 0, 'top', 0, '', ''
    for line in text.splitlines(True):
        bare = line.strip()
        if where == 'top' and FN.match(line):
            where, indent, signature = 'signature', line[:len(line) - len(line.lstrip())], ''
            name, first = FN.match(line).group(1), at
        if where == 'top' and re.match(r'(pub )?const ', bare):
            where, start = 'const', at + line.index('=') + 1
        if where == 'signature':
            contract = bare.startswith(('requires', 'ensures'))
            if not contract:
                signature += line
            if bare == '{' or (bare.endswith('{') and not contract):
                where, start = 'body', at + len(line)
        elif where == 'const' and bare.endswith(';'):
            yield start, at + len(line), {}, None
            where = 'top'
        elif where == 'body' and line.rstrip() == indent + '}':
            yield start, at, dict(re.findall(r"(\w+): ([^,)]+?)\s*(?=[,)])", signature)), Fn(name, first, at + len(line))
            where = 'top'
        at += len(line)


def matching(tokens, i):
    """The index of the token that closes the bracket at i."""
    depth = 0
    for k in range(i, len(tokens)):
        depth += (tokens[k][0] in '([{') - (tokens[k][0] in ')]}')
        if depth == 0:
            return k
    return len(tokens) - 1


def parts(tokens, i, j):
    """The spans between the commas of tokens i + 1 .. j - 1, of brackets at i and j."""
    spans, first, k = [], i + 1, i + 1
    while k <= j:
        if k == j or tokens[k][0] == ',':
            if first < k:
                spans.append((tokens[first][1], tokens[k - 1][2]))
            first = k + 1
        elif tokens[k][0] in '([{':
            k = matching(tokens, k)
        k += 1
    return spans


def changed_number(t):
    m = NUMBER.match(t)
    if not m:
        return []
    n = int(m.group(1).replace('_', ''))
    return [str(k) + (m.group(2) or '') for k in ([n + 1, n - 1] if n else [n + 1])]


def program_sites(file, text):
    for start, end, types, fn in bodies(text):
        tokens = [(m.group(), m.start(), m.end()) for m in TOKEN.finditer(text, start, end) if not m.group().startswith('//')]
        word = lambda k: tokens[k][0] if 0 <= k < len(tokens) else ''
        put = lambda a, b, new, kind: Site(file, a, b, new, kind, (), fn)
        for i, (t, a, b) in enumerate(tokens):
            before, behind = word(i - 1), word(i + 1)
            operand = (re.match(r'\w', before) and before not in WORDS) or before in (')', ']')
            # an array's length is its type
            if before == ';' and behind == ']':
                continue
            for new in changed_number(t):
                yield put(a, b, new, 'constant')
            if t.startswith('b"') and len(t) > 3:
                yield put(a, b, t[:2] + chr(ord(t[2]) ^ 1) + t[3:], 'constant')
            if t.startswith("b'"):
                yield put(a, b, "b'" + chr(ord(t[2]) ^ 1) + "'", 'constant')
            if t in ('true', 'false') or (t in CHANGED and operand and t not in ('true', 'false')):
                yield put(a, b, CHANGED[t], 'comparison' if t[0] in '<>=!' and t not in ('<<', '>>') else 'operator')
            if t in ('-', '!') and not operand and t != behind:
                yield put(a, b, '', 'operator')
            if t in ('min', 'max') and before == '.':
                yield put(a, b, 'max' if t == 'min' else 'min', 'operator')
            # the condition of an if, a name or a call, turned round
            if t == 'if' and re.match(r'[a-z_]', behind) and behind != 'let':
                k = i + 1
                while word(k) != '{':
                    k = matching(tokens, k) + 1 if word(k) in ('(', '[') else k + 1
                inner = [word(m) for m in range(i + 1, k)]
                if not any(x in CHANGED and x not in '+-*/%' for x in inner):
                    yield put(tokens[i + 1][1], tokens[i + 1][1], '!', 'comparison')
            # operands changed round
            if t in ORDERED and operand and re.match(r'\w', before) and re.match(r'\w', behind):
                if word(i - 2) not in ('.', '::', 'as') and word(i + 2) not in ('.', '::', '(', '[', 'as'):
                    left, right = tokens[i - 1], tokens[i + 1]
                    if left[0] != right[0]:
                        yield put(left[1], right[2], right[0] + text[left[2]:right[1]] + left[0], 'operand')
            # neighbours of one kind: arguments, entries of an array, fields of a struct
            call = t == '(' and re.match(r'\w', before) and before not in WORDS
            fields = t == '{' and re.match(r'[A-Z]', before)
            if call or fields or (t == '[' and not operand):
                spans = parts(tokens, i, matching(tokens, i))
                if fields:
                    spans = [(p + m.end(), q) for p, q in spans for m in [re.match(r'\w+:\s*', text[p:q])] if m]
                spans = [(p, q, text[p:q]) for p, q in spans]
                # of a chooser that is a method, what it is asked of stays
                if call and before in CHOOSERS and word(i - 2) == '.':
                    yield put(tokens[i - 2][1], tokens[matching(tokens, i)][2], '', 'operand')
                elif call and before in CHOOSERS:
                    k = i - 1
                    while word(k - 1) == '::':
                        k -= 2
                    close = tokens[matching(tokens, i)][2]
                    for p, q, s in spans:
                        yield put(tokens[k][1], close, s if SIMPLE.match(s) else '(' + s + ')', 'operand')
                kind = lambda s: 'number' if s[0].isdigit() else types.get(s.replace('&mut ', '').lstrip('&'), 'local')
                spans = [x for x in spans if SIMPLE.match(x[2])]
                for k, (p, q, s) in enumerate(spans):
                    for p2, q2, s2 in spans[k + 1:]:
                        if kind(s) == kind(s2) and s != s2:
                            yield put(p, q2, s2 + text[q:p2] + s, 'argument')
                            yield put(p, q, s2, 'argument')
                            yield put(p2, q2, s, 'argument')
                            break


# ---- the definition

ABOVE = ('samples laws tables model vectors intops bounds operations blocks history card_laws text_laws plane_laws text card_reader features padding qval class_index filter refusals units'
         ' whole plane claims card_answer paused gihvendu skip_sums state_texts').split()
# the crates that lean on a file most, a lower one first: they are tried first, behind `samples`
NEAREST = {'Card': 'card_reader card_answer', 'StateText': 'text_laws text card_reader units', 'Refusals': 'model operations refusals', 'ClassIndex': 'qval class_index features model', 'Sample': 'model vectors filter',
           'Padding': 'model operations padding', 'Blocks': 'blocks vectors', 'Units': 'model vectors', 'Rows': 'blocks features padding', 'Numbers': 'intops qval',
           'Leaves': 'blocks qval features class_index padding filter', 'Calls': 'units card_answer', 'Limits': 'bounds refusals',
           'Answers': 'laws blocks qval refusals',
           'Planes': 'plane_laws vectors plane', 'SkipSums': 'laws tables class_index skip_sums'}
# a field is a token of its own, with its dot
RULE = re.compile(r'[()]|"(?:\\.|[^"\\])*"|\.?[^\s();.]+|[;.]')
TURNED = {'ltb': ['leb'], 'leb': ['ltb'], '+': ['-'], '-': ['+'], '*': ['+'], '/': ['%'], '%': ['/'], '+ℤ': ['-ℤ'], '-ℤ': ['+ℤ'], '*ℤ': ['+ℤ'],
          '&&': ['||'], '||': ['&&'], 'min': ['max'], 'true': ['false'], 'false': ['true'], 'not': [''], 'pos': ['negsuc'], 'negsuc': ['pos']}
SIBLINGS = ('has_left has_right,has_top has_bottom,top_integrated bottom_integrated,.w .h,.ss_hor .ss_ver,.top .bottom,.top_off .bottom_off,.luma_top .luma_bottom,'
            '.luma_top_off .luma_bottom_off,.stride .luma_stride,vertical step,upper_saved lower_saved,top_row bottom_row,luma_top_row luma_bottom_row,'
            'plane_row own_row,upper lower,left_of right_of,width_limit height_limit,least_i32 most_i32,dy_of dx_of,newline comma,row_bytes luma_row_bytes')
for pair in SIBLINGS.split(','):
    one, other = pair.split()
    TURNED[one], TURNED[other] = [other], [one]
HOME = {'Rattle.std.specs.Prelude': ['ltb', 'leb', '◌+◌', '◌-◌', '◌/◌', '◌%◌', 'max', '◌&&◌', '◌||◌', 'true', 'false', '◌+ℤ◌', '◌-ℤ◌', 'pos', 'negsuc']}


def rules(text):
    """Yields the spans of the right-hand sides: no comments, imports, types or declarations."""
    at, inside = 0, False
    for line in text.splitlines(True):
        code = re.sub(r'--( .*)?$', '', line.rstrip('\n'))
        equals = re.search(r' =(?= |$)', code)
        if not code.strip() or re.match(r'\s*(use|abbrev|unfoldable|module|infix|pub|mod)\b', code):
            # a comment inside a rule does not end it
            inside = inside and code.strip() == '' and line.strip() != ''
        elif equals:
            inside = True
            yield at + equals.end(), at + len(code)
        elif inside:
            yield at, at + len(code)
        at += len(line)


def imported(text, name):
    """What has to be put where, so that a name of the libraries may be used: nothing where it is imported."""
    for module, names in HOME.items():
        if name in names:
            m = re.search(r'use ' + re.escape(module) + r'\.\{([^}]*)\}', text)
            if not m:
                at = text.index('use ')
                return [(at, at, 'use %s.{%s}\n' % (module, name))]
            if name not in m.group(1).split(', '):
                return [(m.start(1), m.start(1), name + ', ')]
    return []


def definition_sites(file, text):
    for start, end in rules(text):
        tokens = [(m.group(), m.start(), m.end()) for m in RULE.finditer(text, start, end)]
        for i, (t, a, b) in enumerate(tokens):
            follows = tokens[i + 1][0] if i + 1 < len(tokens) else ''
            news = changed_number(t) if t.isdigit() else TURNED.get(t, [])
            if t in ('pos', 'negsuc') and not follows.isdigit():
                news = []
            if t[0] == '"':
                news = [t[:1] + chr(ord(t[1]) ^ 1) + t[2:]]
            for new in news:
                need = imported(text, new) + imported(text, '◌%s◌' % new)
                kind = 'constant' if t[0] in '"0123456789' else 'rule'
                yield Site(file, a, b, new, kind, tuple(need), None)
    # the branches of a cond, which may stand on further lines
    for m in re.finditer(r'\bcond ', text):
        atoms, at = [], m.end()
        while len(atoms) < 3:
            at += len(text[at:]) - len(text[at:].lstrip())
            depth, stop = 0, at
            while stop < len(text) and (depth or text[stop] not in ' \n)'):
                depth += (text[stop] == '(') - (text[stop] == ')')
                stop += 1
            atoms.append((at, stop))
            at = stop
        if not text[:m.start()].rsplit('\n', 1)[-1].startswith(('use', '--')):
            (p, q), (p2, q2) = atoms[1:]
            yield Site(file, p, q2, text[p2:q2] + text[q:p2] + text[p:q], 'branches', (), None)


# ---- running

def mutated(text, site):
    """The text with the site changed; further changes stand before it."""
    text = text[:site.start] + site.new + text[site.end:]
    for a, b, new in site.more:
        text = text[:a] + new + text[b:]
    return text


def short(text, n):
    text = ' '.join(text.split())
    return text if len(text) <= n else text[:n - 2] + '..'


def described(site, text):
    line = text.count('\n', 0, site.start) + 1
    a = text.rfind('\n', 0, site.start) + 1
    b = text.find('\n', site.end)
    old, new = text[a:b], text[a:site.start] + site.new + text[site.end:b]
    if len(' '.join(old.split())) > 150:
        a, b = max(a, site.start - 60), min(b, site.end + 60)
        old, new = text[a:b], text[a:site.start] + site.new + text[site.end:b]
    return '%s:%d' % (site.file, line), ' '.join(old.split()), ' '.join(new.split())


def check(folder, crate, seconds):
    """The exit status of a crate's check and what was said; status 3, could not tell, where the time is over."""
    try:
        r = subprocess.run(['rt', 'check', '--jobs', '1'], cwd=os.path.join(folder, 'crates', crate), stdout=subprocess.PIPE, stderr=subprocess.STDOUT, timeout=seconds)
        # what a long check says as it goes
        return r.returncode, re.sub('^so far: ', '', r.stdout.decode('utf-8', 'replace'), flags=re.M)
    except subprocess.TimeoutExpired:
        return 3, 'error: time is over'


# errors that say no more than that a proof names something that the code does not have now, or that an earlier error stands in the way
NAMES = re.compile(r'that can be named from here|has no field|no module, record or data type .* is in scope|is not in scope|(is|was) not admitted|which was rejected|'
                   r'no proof: it calls|_spec`: ')


def reason(said, folder):
    """The first error that is about a fact; where there is none, the first about a name, marked so."""
    lines = [l for l in said.splitlines() if re.search(r': error\b|^note: .* it is not proved that|^fn .*no proof', l)]
    facts = [l for l in lines if not NAMES.search(l)]
    # a goal whose answer has the name of one that is gone: that a search does not find another says nothing, unless the goal is false
    if any('.Goals` has no ' in l for l in lines):
        facts = [l for l in facts if not l.startswith('note: ') or 'goal is false' in l]
    mark = '' if facts else 'NAMES: '
    return mark + short((facts + lines + ['no error line'])[0].replace(folder + '/', ''), 200)


def verdict_of_program(folder, crate, seconds):
    status, said = check(folder, crate, seconds)
    if status == 0:
        return 'survived', ''
    if status == 1 and re.search(r'^logic=not-proved', said, re.M):
        why = reason(said, folder)
        return 'refused by names' if why.startswith('NAMES') else 'refused', why
    if status == 1 and 'error[' in said:
        return 'not a program', reason(said, folder)
    return 'could not tell', 'exit %d: %s' % (status, reason(said, folder))


def relatives(texts, crate):
    """For each function of a crate, those that it calls or that call it, over any number of steps."""
    calls = collections.defaultdict(set)
    for file, text in texts.items():
        if file.startswith(os.path.join('crates', crate, 'src')):
            for start, end, _, fn in bodies(text):
                if fn:
                    calls[fn.name] |= set(re.findall(r'(\w+)\(', text[start:end]))
    below = {}
    for name in calls:
        seen, ahead = set(), [name]
        while ahead:
            for n in calls[ahead.pop()]:
                if n in calls and n not in seen:
                    seen.add(n)
                    ahead.append(n)
        below[name] = seen
    return {a: {b for b in calls if a == b or b in below[a] or a in below[b]} for a in calls}


def batches(crate, sites, texts, size):
    """The sites, up to `size` at a time, of functions that have nothing to do with each other; one of no function stands alone."""
    kin, left = relatives(texts, crate), collections.defaultdict(list)
    for s in sites:
        left[s.fn.name if s.fn else None].append(s)
    for s in left.pop(None, []):
        yield [s]
    while any(left.values()):
        batch, barred = [], set()
        for name in sorted(left, key=lambda n: -len(left[n])):
            if left[name] and name not in barred and len(batch) < size:
                batch.append(left[name].pop())
                barred |= kin[name]
        yield batch


def own_errors(site, text, said):
    """What was said of the proof of the site's function."""
    stem = os.path.splitext(os.path.basename(site.file))[0]
    # a method's proof stands under its type, which may be declared in another file
    method = r'(?:\w+/)?[A-Z]\w*/'
    proof = re.compile(r'/proofs/(?:%s|%s)%s/' % ('' if stem == 'lib' else stem + '/', method, site.fn.name))
    place = re.compile(re.escape(os.path.join('src', os.path.basename(site.file))) + r':(\d+):')
    first, last = text.count('\n', 0, site.fn.start) + 1, text.count('\n', 0, site.fn.end) + 1
    for line in said.splitlines():
        where = place.search(line)
        if proof.search(line.split(': error')[0]) or (where and first <= int(where.group(1)) <= last):
            yield line


def verdicts_of_programs(folder, crate, batch, texts, seconds):
    """Of each mutant of a batch its verdict, or None where it has to be made alone."""
    changed = collections.defaultdict(list)
    for s in batch:
        changed[s.file].append(s)
    for file, sites in changed.items():
        text = texts[file]
        for s in sorted(sites, key=lambda s: -s.start):
            text = mutated(text, s)
        open(os.path.join(folder, file), 'w', encoding='utf-8').write(text)
    if len(batch) == 1:
        found, said, proving = [verdict_of_program(folder, crate, seconds)], '', False
    else:
        status, said = check(folder, crate, seconds)
        found, proving = [None] * len(batch), status == 1 and re.search(r'^logic=not-proved', said, re.M)
    for file in changed:
        open(os.path.join(folder, file), 'w', encoding='utf-8').write(texts[file])
    for k, s in enumerate(batch):
        lines = '\n'.join(own_errors(s, texts[s.file], said)) if said else ''
        if proving and re.search(r': error\b|it is not proved that', lines):
            why = reason(lines, folder)
            found[k] = 'refused by names' if why.startswith('NAMES') else 'refused', why
        elif not proving and 'error[' in lines:
            found[k] = 'not a program', reason(lines, folder)
    # what the compiler declines keeps the others from the prover
    rest = [k for k, f in enumerate(found) if f is None]
    if said and not proving and len(rest) < len(batch) and rest:
        for k, f in zip(rest, verdicts_of_programs(folder, crate, [batch[k] for k in rest], texts, seconds)):
            found[k] = f
    return found


def verdict_of_definition(folder, file, seconds):
    status, said = check(folder, 'definition', seconds)
    if status != 0:
        return 'not a definition', reason(said, folder)
    near = NEAREST.get(os.path.splitext(os.path.basename(file))[0], '').split()
    for crate in ABOVE[:1] + near + [c for c in ABOVE[1:] if c not in near]:
        status, said = check(folder, crate, seconds)
        # a library between that is not proved ends the check of the crate
        between = re.search(r'^rt: the library (\w+) did not build', said, re.M)
        crate = between.group(1) if between else crate
        if status == 1 and re.search(r'^logic=not-proved', said, re.M):
            why = reason(said, folder)
            return 'refused by names' if why.startswith('NAMES') else 'refused', 'by %s: %s' % (crate, why)
        if status != 0:
            return 'could not tell', 'exit %d at %s: %s' % (status, crate, reason(said, folder))
    return 'survived', ''


def drawn(sites, limit, chance):
    """A random sample that takes the kinds of change in turn, so that swapped arguments do not crowd out the rest."""
    chance.shuffle(sites)
    seen, rank = collections.Counter(), {}
    for s in sites:
        seen[s.kind] += 1
        rank[s] = seen[s.kind]
    return sorted(sorted(sites, key=lambda s: rank[s])[:limit], key=lambda s: s[:6])


def main():
    p = argparse.ArgumentParser(description=__doc__, formatter_class=argparse.RawDescriptionHelpFormatter)
    p.add_argument('crates', nargs='*')
    p.add_argument('--specs', action='store_true', help='change the definition instead of programs')
    p.add_argument('--seed', type=int, default=1)
    p.add_argument('--limit', type=int, help='at most so many sites of each crate, drawn at random')
    p.add_argument('--workers', type=int, default=1)
    p.add_argument('--together', type=int, default=1, help='mutants of a program in one check')
    p.add_argument('--seconds', type=int, default=600, help='time for one check')
    p.add_argument('--log', default=os.path.join(ROOT, 'target/mutants.log'))
    p.add_argument('--files', help='only of these files, by their names without the ending: Leaves,Calls')
    p.add_argument('--list', action='store_true')
    o = p.parse_args()
    names = ['definition'] if o.specs else o.crates
    if not names:
        p.error('name a crate, or --specs')

    texts, work = {}, []
    for crate in names:
        folder = os.path.join('crates', crate, 'specs' if o.specs else 'src')
        sites = []
        for name in sorted(os.listdir(os.path.join(ROOT, folder))):
            if o.files and name.split('.')[0] not in o.files.split(','):
                continue
            file = os.path.join(folder, name)
            texts[file] = open(os.path.join(ROOT, file), encoding='utf-8').read()
            sites += sorted(set((definition_sites if o.specs else program_sites)(file, texts[file])), key=lambda s: s[:6])
        print('%s: %d sites' % (crate, len(sites)), flush=True)
        if o.limit and len(sites) > o.limit:
            sites = drawn(sites, o.limit, random.Random('%d %s' % (o.seed, crate)))
        work += [(crate, s) for s in sites]
    if o.list:
        for crate, s in work:
            print('%s\n    %s\n    %s' % described(s, texts[s.file]))
        return

    # a mutant that the log already has is not run again
    todo, lock, results, known, fresh = queue.Queue(), threading.Lock(), [], {}, collections.defaultdict(list)
    if os.path.exists(o.log):
        known = {tuple(f[2:5]): f[0] for f in (l.split('\t') for l in open(o.log, encoding='utf-8'))}
    os.makedirs(os.path.dirname(os.path.abspath(o.log)), exist_ok=True)
    log = open(o.log, 'a', encoding='utf-8')
    for crate, s in work:
        what = described(s, texts[s.file])
        if what in known:
            results.append((crate, known[what]) + what)
        else:
            fresh[crate].append(s)
    for crate, sites in fresh.items():
        for batch in [[s] for s in sites] if o.specs else batches(crate, sites, texts, o.together):
            todo.put((crate, batch))
    scratch = tempfile.mkdtemp(prefix='mutants-')

    def worker(k):
        folder = os.path.join(scratch, str(k))
        shutil.copytree(ROOT, folder, symlinks=True, ignore=shutil.ignore_patterns('.git', 'target', 'out'))
        while True:
            try:
                crate, batch = todo.get_nowait()
            except queue.Empty:
                return
            began = time.time()
            if o.specs:
                path = os.path.join(folder, batch[0].file)
                open(path, 'w', encoding='utf-8').write(mutated(texts[batch[0].file], batch[0]))
                found = [verdict_of_definition(folder, batch[0].file, o.seconds)]
                open(path, 'w', encoding='utf-8').write(texts[batch[0].file])
            else:
                found = verdicts_of_programs(folder, crate, batch, texts, o.seconds)
            took = (time.time() - began) / len(batch)
            for s, f in zip(batch, found):
                if f is None:
                    began = time.time()
                    f = verdicts_of_programs(folder, crate, [s], texts, o.seconds)[0]
                    took = time.time() - began
                with lock:
                    place, old, new = described(s, texts[s.file])
                    results.append((crate, f[0], place, old, new))
                    log.write('\t'.join((f[0], s.kind, place, old, new, f[1], '%.1f s' % took)) + '\n')
                    log.flush()

    workers = [threading.Thread(target=worker, args=(k,)) for k in range(o.workers)]
    for w in workers:
        w.start()
    for w in workers:
        w.join()
    shutil.rmtree(scratch)

    odd = 'not a definition' if o.specs else 'not a program'
    kinds = [odd, 'refused', 'refused by names', 'survived', 'could not tell']
    print('| crate | tried | ' + ' | '.join(kinds) + ' |')
    print('|---|' + '---|' * (len(kinds) + 1))
    for crate in names:
        mine = [r[1] for r in results if r[0] == crate]
        print('| %s | %d | ' % (crate, len(mine)) + ' | '.join(str(mine.count(k)) for k in kinds) + ' |')
    for r in sorted(results):
        if r[1] in ('survived', 'could not tell'):
            print('%s: %s\n    %s\n    %s' % (r[1], r[2], r[3], r[4]))


if __name__ == '__main__':
    main()
