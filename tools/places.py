"""Counts, in src/ of the crates below a folder, the places that docs/DESIGN-PASS.md speaks of: python3 tools/places.py [FOLDER] [-v]. With -v each place is named."""
import collections
import glob
import os
import re
import sys

ROOT = next((a for a in sys.argv[1:] if not a.startswith('-')), '.')
LONG = 7
NUMBERS = 'usize|u8|u16|u32|u64|i8|i16|i32|i64'
# Groups of functions or types that differ in a type, a size, a constant or the function that they call.
TWINS = [
    'y_eight|y_narrow_eight|pc_eight|pc_narrow_eight|uv_eight|uv_narrow_eight', 'ns_wiener_fir_run|pc_wiener_fir_run|uv_run|uv_narrow_run',
    'y_step|uv_step|pc_step|uv_luma_step', 'y_narrow_step|uv_narrow_step|uv_narrow_luma_step|pc_narrow_step', 'y_sum|uv_own_sum|uv_luma_sum|pc_sum',
    'y_narrow_sum|uv_narrow_own_sum|uv_narrow_luma_sum|pc_narrow_sum', 'y_pair|uv_pair|pc_pair', 'y_eight_by|pc_eight_by', 'is_small|is_small_set', 'put_eight|put_some',
    'luma_mixed|repeat_into', 'before_luma|behind_luma', 'iclip|iclip64to32', 'pcw_features|row_features', 'open_y|open_n|open_p|open_c',
    'advance_y|advance_n|advance_p|advance_c', 'ns_wiener_single_y_8bpc|ns_wiener_multi_8bpc|pc_wiener_8bpc|ns_wiener_single_uv_8bpc', 'run_y|run_p|run_c',
    'sixteen|thirteen|eighteen', 'put_row|put_luma_row', 'read_taps|read_groups|read_samples', 'negated|unsigned', 'signed8|signed16|signed32', 'narrow_sets|wide_sets',
    'traps/number|traps/wide_number', 'fill_narrow|fill_wide',
]
EXPORTS = 'gihvendu'
# Names in capitals that are no facts.
CASES = ('Chroma', 'Luma', 'User', 'Pretrained', 'Fn')


def functions(text):
    """Name, parameters, clauses and body of each function."""
    for m in re.finditer(r'\bfn (\w+)(?:<[^(]*?>)?\(', text):
        depth, i = 1, m.end()
        while depth:
            depth += {'(': 1, ')': -1}.get(text[i], 0)
            i += 1
        params = text[m.end():i - 1]
        end = re.compile(r'\n *\{\n|\{\n|;\n').search(text, i)
        yield m.group(1), params, text[i:end.start() if end else i]


def main():
    places = collections.defaultdict(list)
    facts = collections.defaultdict(set)
    twins = collections.defaultdict(list)
    for path in sorted(glob.glob(os.path.join(ROOT, 'crates/*/src/**/*.rt'), recursive=True)):
        crate = path.split('crates/')[1].split('/')[0]
        text = open(path).read()
        code = re.sub(r'//[^\n]*', '', text)
        where = crate + '/' + os.path.basename(path)
        fns = list(functions(code))
        for m in re.finditer(r'pub struct (\w+)[^{]*\{[^}]*\bstatus: u8', code):
            places['1 a status beside a value'].append(where + ' ' + m.group(1))
        for m in re.finditer(r'enum (Number|Tap|Line)\b', code):
            places['1 an own Option'].append(where + ' ' + m.group(1))
        for name, params, clauses in fns:
            if re.match(r'\s*-> u8\b', clauses) and 'status' in clauses:
                places['1 a function that answers a status'].append(where + ' ' + name)
            if re.search(r'\bop: usize|\blist: (usize|u8)|\bshape: (usize|u64)', params):
                places['1 a number for a kind'].append(where + ' ' + name)
        if crate != EXPORTS:
            for n, _, _ in fns:
                twins[next((g for g in TWINS if re.fullmatch(g, n) or re.fullmatch(g, crate + '/' + n)), None), crate].append(where + ' ' + n)
        for m in re.finditer(r'^ *(?:let \w+ = )?(while|loop)\b[^\n]*', code, re.M):
            places['3 a while or a loop'].append(where + ' ' + m.group(0).strip())
        for m in re.finditer(r'\bas (?:%s)\b' % NUMBERS, code):
            places['4 a conversion by as'].append(where)
        for m in re.finditer(r'\b(?:io::)?(?:print_decimal|print_hex|print_number|write_all)\(', code):
            places['4 printing by hand'].append(where)
        for name, params, clauses in fns:
            count = params.count(':')
            if LONG < count and crate != EXPORTS:
                places['5 more than seven parameters'].append('%s %s %d' % (where, name, count))
            for clause in re.findall(r'requires[^{]*\{(.*?)\}\n', clauses + '\n'):
                for fact in re.findall(r'\b[A-Z]\w*[a-z]\w*(?=[ )}])', clause):
                    facts[crate + ' ' + fact].add(name)
    for (group, _), names in twins.items():
        if group and len(names) > 1:
            places['2 a function with a twin in its crate'] += names
    for fact, names in facts.items():
        if len(names) >= 3 and fact.split()[1] not in CASES:
            places['5 a fact that three or more functions ask'].append('%s (%d)' % (fact, len(names)))
    for kind in ('Answers', 'Invariants'):
        files = glob.glob(os.path.join(ROOT, 'crates/*/proofs/**/%s.antt' % kind), recursive=True)
        places['8 files %s.antt' % kind] = files
    lemmas = [f for f in glob.glob(os.path.join(ROOT, 'crates/*/proofs/*.antt'))]
    lines = sum(len(open(f).readlines()) for f in glob.glob(os.path.join(ROOT, 'crates/*/proofs/**/*.antt'), recursive=True))
    for kind in sorted(places):
        print('%4d  %s' % (len(places[kind]), kind))
        if '-v' in sys.argv and not kind.startswith('8'):
            print('      ' + '; '.join(places[kind]))
    print('%4d  8 files of lemmas\n%5d lines of proofs' % (len(lemmas), lines))


if __name__ == '__main__':
    main()
