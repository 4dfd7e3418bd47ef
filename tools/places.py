#!/usr/bin/env python3
"""Lists the places in src/ that docs/DESIGN-PASS.md counts, a heading for each of its points.

    tools/places.py [COMMIT]        of a commit, or of the working tree

It goes by text, so it lists what may be a place; what each one is, the page says.
"""
import collections
import re
import subprocess
import sys


def sources(commit):
    if commit:
        names = subprocess.run(['git', 'ls-tree', '-r', '--name-only', commit, 'crates'], check=True, capture_output=True, text=True).stdout
    else:
        names = subprocess.run(['git', 'ls-files', 'crates'], check=True, capture_output=True, text=True).stdout
    for name in sorted(names.split()):
        if re.fullmatch(r'crates/\w+/src/.*\.rt', name):
            if commit:
                text = subprocess.run(['git', 'show', f'{commit}:{name}'], check=True, capture_output=True, text=True).stdout
            else:
                text = open(name, encoding='utf-8').read()
            yield name[len('crates/'):], text


# The functions of a file: its name, parameters, result, and what its contract requires.
def functions(text):
    for m in re.finditer(r'^ *(?:pub )?(?:extern "C" )?fn (\w+)(?:<.*?>)?\((.*?)\)(?: -> ([^\n{]+))?', text, re.S | re.M):
        ends = [e for e in (text.find('\n{', m.end()), text.find('\n    {', m.end())) if e > 0]
        contract = text[m.end():min(ends)] if ends and '{' not in text[m.end():m.end() + 2] else ''
        requires = ' '.join(re.findall(r'requires[^{]*\{(.*?)\}\s*(?=\n|$)', contract, re.S))
        yield m.group(1), [p for p in re.split(r',\s*(?![^(<]*[)>])', m.group(2).strip()) if p], (m.group(3) or '').strip(), requires


def lines(files, pattern):
    return [f'{name}:{n} {line.strip()}' for name, text in files for n, line in enumerate(text.split('\n'), 1)
            if re.search(pattern, line) and not line.lstrip().startswith('//')]


def enums(files):
    found = []
    for name, text in files:
        for m in re.finditer(r'^(?:pub )?enum (\w+)(?:<.*?>)? \{\n(.*?)^\}', text, re.S | re.M):
            variants = [v.strip() for v in m.group(2).split('\n') if v.strip() and not v.strip().startswith('//')]
            bare = [v for v in variants if '(' not in v]
            full = [v for v in variants if '(' in v and not v.startswith('Refused(')]
            if full and (bare or len(full) < len(variants)):
                found.append(f'{name} {m.group(1)} {{ {" ".join(variants)} }}')
    return found


FACTS = {
    'sizes hold': r'sizes_ok [^≡]*≡ true', 'known map of the length of the floor': r'length known', 'plan of the length of the floor': r'length plan',
    'estimates of the length of the floor': r'length est', 'room of the length of the floor': r'length room|Room ', 'room with no way': r'Clean ',
    'the open list': r'Queued |Piled ', 'maps': r'Maps ', 'a route ahead': r'Ahead ', 'ways only in the lists': r'Held ', 'rows of a floor': r'rest_ok', 'maps lent': r'Lent ',
}


def main():
    files = list(sources(sys.argv[1] if len(sys.argv) > 1 else None))
    of = [(name.split('/')[0] + '::' + f, parameters, result, requires) for name, text in files for f, parameters, result, requires in functions(text)]
    show = lambda title, found: print(f'## {title}: {len(found)}', *('   ' + x for x in found), sep='\n')
    show('1a enums with a value in one case and none, or a refusal, in another', enums(files))
    show('1b functions that answer a refusal or a kind as a number', [f for f, _, r, _ in of if r == 'u8' and not f.split('::')[1].startswith('wexlund_')])
    show('1c refusals written as literal numbers', lines(files, r'(return|Refused\() *\d+\)?[;,)]'))
    show('1d a bool beside a value that is written through a parameter', [f for f, p, r, _ in of if r == 'bool' and any('&mut' in x for x in p)])
    show('1e constants that number kinds', lines(files, r'^(pub )?const [A-Z_]+: (usize|i32) = [0-9];'))
    show('2 functions that may differ in a type, a size or a constant alone, by their names', [f for f, _, _, _ in of if re.search(r'lesser|tell_|_hold$|offer|mark$', f)])
    show('3a loops over a condition', lines(files, r'^ *(let \w+ = )?(while|loop) '))
    show('3b loops over numbers', lines(files, r'^ *for \w+ in [^/]*\.\.'))
    show('4a equality by pattern', lines(files, r'if let \w+::\w+ = '))
    show('4b conversions by hand', lines(files, r'% 256|/ 256|256 \*|65536 \*') + [f for f, _, _, _ in of if re.search(r'(number_of|cart_of|four_of|::values|::layout|two_at|four_at)$', f)])
    show('4c printing by hand', lines(files, r'io::(write_all|print_decimal|print_hex|decimal)') + [f for f, _, _, _ in of if re.search(r'::(put|say)(_|$)', f)])
    show('5a functions of more than six parameters (the interface for C apart)', [f'{f} {len(p)}' for f, p, _, _ in of if len(p) > 6 and '::wexlund_' not in f])
    for fact, pattern in FACTS.items():
        show(f'5b {fact}, asked by', [f for f, _, _, r in of if re.search(pattern, r)])
    show('6a places counted out in woven numbers', lines(files, r'COLUMNS|\[u16; 16384\]'))
    show('6b a buffer with a place or a length beside it', [f for f, p, _, _ in of if any(re.search(r'&(mut )?\[\w+\]|&mut \[u8; 32768\]', x) for x in p) and any(re.match(r'(at|from|to|end|n|m|count|moves|opened|ahead): usize', x) for x in p)])
    show('7 a match on which step comes', lines(files, r'match turn '))


main()
