#!/usr/bin/env python3
# Counts, over the Rattle sources of the repository whose top it is run in, the places that docs/DESIGN-PASS.md speaks of. `places.py -v` names them too.
import glob
import re
import sys

verbose = '-v' in sys.argv


def sources():
    for path in sorted(glob.glob('crates/*/src/**/*.rt', recursive=True)):
        yield path, re.sub(r'//[^\n]*', '', open(path).read())


def show(what, found):
    print(f'{len(found):5} {what}')
    if verbose:
        for each in found:
            print('        ', each)


def lines(pattern):
    return [f'{p}: {m.group(0).strip()}' for p, s in sources() for m in re.finditer(pattern, s, flags=re.M)]


# A function's name, its parameters, and its body as tokens in which names, types and numbers are told apart only by where they came first.
def functions():
    head = re.compile(r'^[ \t]*(?:pub(?:\([a-z]+\))? )?(?:extern "C" )?fn (\w+)(?:<[^(]*>)?\(', flags=re.M)
    for path, text in sources():
        for m in head.finditer(text):
            depth, i = 1, m.end()
            while depth:
                depth += {'(': 1, ')': -1}.get(text[i], 0)
                i += 1
            parameters = [p for p in re.split(r',(?![^(<\[]*[)>\]])', text[m.end():i - 1]) if p.strip()]
            if ';\n' in text[i:text.index('{\n', i)]:
                continue  # a trait's, without a body
            begin = text.index('{\n', i) + 1
            depth, end = 1, begin
            while depth:
                depth += {'{': 1, '}': -1}.get(text[end], 0)
                end += 1
            yield path, m.group(1), parameters, text[begin:end - 1]



def shape(body):
    seen, out = {}, []
    for token in re.findall(r'[A-Za-z_]\w*|\d[\w.]*|\S', body):
        if token in ('let', 'mut', 'if', 'else', 'for', 'while', 'in', 'return', 'match', 'loop', 'break', 'continue', 'as', 'true', 'false'):
            out.append(token)
        elif re.match(r'\w', token):
            out.append(f'#{seen.setdefault(token, len(seen))}' if re.match(r'[A-Za-z_]', token) else 'n')
        else:
            out.append(token)
    return tuple(out)


show('enums of our own', lines(r'^\s*(?:pub(?:\([a-z]+\))? )?enum \w+'))
show('numbers of a refusal in the code', lines(r'Refused\(\d+\)|refus(?:al|ed)\(\d+[,)]'))
show('`let` of a variant of an enum of our own, with an `else`', lines(r'^\s*let [A-Z]\w+::\w+'))
show('`while` loops', lines(r'^\s*while [^\n]*'))
alike = {}
for path, name, parameters, body in functions():
    tokens = shape(body)
    if len(tokens) >= 30:
        alike.setdefault(tokens, []).append(f'{path}: {name}')
twins = [', '.join(each) for each in alike.values() if len(each) > 1]
show('groups of functions whose bodies differ in names, types and numbers alone', twins)
many = [f'{len(p)} {path}: {name}' for path, name, p, _ in functions() if len(p) >= 8]
show('functions of eight parameters or more', sorted(many, key=lambda x: -int(x.split()[0])))
goals = [m for p in glob.glob('crates/*/proofs/**/*.antt', recursive=True) for m in re.findall(r'^pub .*: goal\.', open(p).read(), flags=re.M)]
print(f'{len(goals):5} goals that a proof file answers')
