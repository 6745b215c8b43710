#!/usr/bin/env python3
"""Places in src/ where an older form may stand, by the points of docs/DESIGN-PASS.md.

  tools/places.py [COMMIT] [-v]   counts them in COMMIT (the files as they stand, if none is named); -v lists each

It finds candidates by their look, and no more: the page says which of them are kept, and why.
"""
import collections, os, re, subprocess, sys

ROOT = subprocess.run(['git', 'rev-parse', '--show-toplevel'], capture_output=True, text=True).stdout.strip()


def files(commit):
    """The path and text of each source file of each crate."""
    if commit:
        names = subprocess.run(['git', 'ls-tree', '-r', '--name-only', commit, 'crates'], capture_output=True, text=True, cwd=ROOT).stdout.split()
    else:
        names = subprocess.run(['git', 'ls-files', 'crates'], capture_output=True, text=True, cwd=ROOT).stdout.split()
    for name in sorted(n for n in names if re.fullmatch(r'crates/\w+/src/\w+\.rt', n)):
        if commit:
            yield name, subprocess.run(['git', 'show', f'{commit}:{name}'], capture_output=True, text=True, cwd=ROOT).stdout
        elif os.path.exists(os.path.join(ROOT, name)):
            yield name, open(os.path.join(ROOT, name)).read()


def functions(text):
    """The line, name, parameters, result and body of each function."""
    for m in re.finditer(r'^( *)(?:pub )?(?:extern "C" )?(?:const )?fn (\w+)(?:<[^(]*>)?\(', text, re.M):
        depth, i = 1, m.end()
        while depth:
            depth += {'(': 1, ')': -1}.get(text[i], 0)
            i += 1
        params = re.sub(r'\s+', ' ', text[m.end():i - 1]).strip().rstrip(',')
        head = re.search(r'^' + m.group(1) + r'\{$|\{\}$| \{$|;$', text[i:], re.M)
        result = re.match(r'\s*->\s*([^\n{]*)', text[i:])
        end = re.search(r'^' + m.group(1) + r'\}$', text[i:], re.M)
        body = text[i + head.end():i + end.start()] if head and end and head.end() < end.start() else ''
        yield text.count('\n', 0, m.start()) + 1, m.group(2), params, result.group(1).strip() if result else '', body


def shaped(body):
    """Is an enum of the shape of Option or Result: of two or three variants, one that carries a value, and one that carries none or a refusal?"""
    variants = [v for v in re.split(r',\s*(?:\n|$)', re.sub(r'//[^\n]*', '', body)) if v.strip()]
    bare = [v for v in variants if '(' not in v]
    refused = [v for v in variants if 'Refusal' in v]
    return 2 <= len(variants) <= 3 and len(bare) < len(variants) and (bare or refused)


def twin(params, result, body):
    """A function with its names, types and numbers taken out."""
    code = re.sub(r'//[^\n]*', '', body)
    code = re.sub(r'\b(usize|u8|u16|u32|i32)\b|\b\d[\d_]*\b', 'T', code)
    names = {}
    code = re.sub(r'\b(?!let\b|mut\b|if\b|else\b|while\b|for\b|in\b|return\b|match\b|as\b|T\b)[A-Za-z_]\w*(?:::\w+)*', lambda m: names.setdefault(m.group(0), f'x{len(names)}'), code)
    return re.sub(r'\s+', ' ', re.sub(r'\b(usize|u8|u16|u32|i32)\b', 'T', result) + ' ' + code).strip()


def places(commit):
    found = collections.defaultdict(list)
    bodies, bundles, facts = collections.defaultdict(list), collections.defaultdict(list), collections.defaultdict(list)
    for name, text in files(commit):
        crate = name.split('/')[1]
        for m in re.finditer(r'^(?:pub )?enum (\w+)[^{]*\{(.*?)^\}', text, re.M | re.S):
            if shaped(m.group(2)):
                found['1 enums of the shape of Option or Result'].append(f'{name} {m.group(1)}')
        for m in re.finditer(r'^//[^\n]*(?:where none|where there is none|or the length|0 says|; 6 for|; 0 where|hi where|or where the line ends|0 while none)[^\n]*', text, re.M):
            found['1 numbers that stand for nothing found'].append(f'{name}:{text.count(chr(10), 0, m.start()) + 1} {m.group(0)[3:70]}')
        for m in re.finditer(r'^ *(?:while|loop)\b.*', text, re.M):
            found['3 loops by hand'].append(f'{name}:{text.count(chr(10), 0, m.start()) + 1} {m.group(0).strip()}')
        for line, fn, params, result, body in functions(text):
            place = f'{name}:{line} {fn}'
            if len(body.strip()) > 20 and crate != 'yukemasop_c':
                bodies[twin(params, result, body)].append(place)
            if re.search(r'^\s*if (\w+) < (\w+) \{\s*(?:\1|\2)(?: - \w+)?\s*\} else|^\s*if \w+ \{\s*1\s*\} else \{\s*0\s*\}|^\s*x as usize$', body):
                found['4 order and conversion by hand'].append(place)
            if re.search(r'Record \{\s*length: \w+\.length,\s*gap: \w+\.gap,?\s*\}', body):
                found['4 order and conversion by hand'].append(place)
            if crate not in ('yukemasop', 'yukemasop_c', 'flat'):
                ps = [p.strip() for p in params.split(', ') if ':' in p and 'rt:' not in p]
                for i in range(len(ps) - 2):
                    bundles[', '.join(re.sub(r'&mut ', '&', p) for p in ps[i:i + 3])].append(place)
            if re.search(r'(?:out|line): &mut \[[^,]*, at: usize|list: &mut \[u8\], n: usize', params):
                found['6 a buffer with a place or length beside it'].append(place)
            if re.search(r'^\s*match (?:job|kind|choose\(.*)\s*\{', body, re.M):
                found['7 a switch on which step to run'].append(place)
        for m in re.finditer(r'^ *requires (?:\w+ )?\{(.*?)\}$', text, re.M | re.S):
            for fact in re.split(r' × (?![^(]*\))', re.sub(r'\s+', ' ', m.group(1)).strip()):
                fact = fact.strip('() ')
                if re.search(r'\.(?:now|old)\b', fact):
                    facts[crate, fact].append(f'{name}:{text.count(chr(10), 0, m.start()) + 1}')
    for (crate, fact), where in facts.items():
        if len(where) > 2:
            found['5 a fact in the contracts of three functions or more'].append(f'{crate}: {fact} ({len(where)})')
    for group in bodies.values():
        if len(group) > 1:
            found['2 twins: functions that are alike but for names, types and numbers'].append(' = '.join(group))
    for run, fns in bundles.items():
        if len(fns) > 2:
            found['5 three parameters that travel together through three functions or more'].append(f'({run}) in {len(fns)}: ' + ', '.join(f.split()[-1] for f in fns))
    return found


def main():
    args = [a for a in sys.argv[1:] if a != '-v']
    found = places(args[0] if args else None)
    for point in sorted(found):
        print(f'{len(found[point]):4}  {point}')
        if '-v' in sys.argv:
            for place in found[point]:
                print(f'        {place}')


main()
