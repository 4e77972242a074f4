#!/usr/bin/env python3
"""places.py [COMMIT] [POINT]: places in crates/*/src that older Rattle wrote by hand, at a commit or as the files stand.

The points are those of docs/DESIGN-PASS.md. A line names the point, a kind, the file and line, and the function. It is a
place to look, and not a verdict."""
import re
import subprocess
import sys
from collections import defaultdict

arguments = sys.argv[1:]
point_wanted = arguments.pop() if arguments and re.fullmatch(r'[1-8]', arguments[-1]) else None
commit = arguments[0] if arguments else None


def git(*words):
    return subprocess.run(['git', *words], capture_output=True, text=True, check=True).stdout


def sources():
    if commit:
        names = git('ls-tree', '-r', '--name-only', commit, 'crates').split()
    else:
        names = git('ls-files', '-co', '--exclude-standard', 'crates').split()
    for name in sorted(n for n in names if re.search(r'/src/.*\.rt$', n)):
        yield name, git('show', f'{commit}:{name}') if commit else open(name, encoding='utf8').read()


def brace_end(text, at):
    depth = 0
    for i in range(at, len(text)):
        depth += {'{': 1, '}': -1}.get(text[i], 0)
        if depth == 0:
            return i + 1
    return len(text)


def plain(text):
    """Comments as blanks, so that places keep their lines."""
    return re.sub(r'//[^\n]*', lambda m: ' ' * len(m.group()), text)


def functions(text):
    """name, its place, signature, clauses, body, place of the body"""
    for m in re.finditer(r'^[ ]*(?:pub(?:\(crate\))? )?fn (\w+)', text, re.M):
        i = text.find('(', m.end())
        depth, j = 0, i
        while j < len(text):
            depth += {'(': 1, ')': -1}.get(text[j], 0)
            j += 1
            if depth == 0:
                break
        k = j
        while k < len(text) and text[k] not in '{;':
            hit = re.compile(r'(requires|ensures)( \w+)? \{').match(text, k)
            k = brace_end(text, hit.end() - 1) if hit else k + 1
        if k < len(text) and text[k] == '{':
            yield m.group(1), m.start(), text[m.start():j], text[j:k], text[k:brace_end(text, k)], k


def line_of(text, at):
    return text.count('\n', 0, at) + 1


found = defaultdict(list)


def place(point, kind, file, line, what):
    found[point].append((kind, file, line, what))


clauses, travels, shapes = defaultdict(set), defaultdict(set), defaultdict(set)
for file, raw in sources():
    text = plain(raw)
    crate = file.split('/')[1]
    for m in re.finditer(r'enum (\w+)[^{]*\{', text):
        body = re.sub(r'\s+', ' ', text[m.end():brace_end(text, m.end() - 1) - 1])
        arms = [a for a in re.findall(r'(\w+) ?(\([^()]*\)|\{[^{}]*\})?,?', body) if a[0][:1].isupper()]
        if len(arms) == 2 and any(a[1] for a in arms):
            place(1, 'enum of two arms', file, line_of(text, m.start()), m.group(1))
    for name, start, signature, contract, body, at in functions(text):
        line = lambda offset: line_of(text, at + offset)
        head = line_of(text, start)
        for m in re.finditer(r'(None|Err\(_\)|_) => (false|true|None|0|at|Ok\(false\)|Ok\(0\)|Err\((?:ListFault|Fault)::\w+\)),?\n', body):
            place(1, 'match by hand', file, line(m.start()), name)
        for m in re.finditer(r'unwrap_or\((0|at)\)', body):
            place(1, 'number for none', file, line(m.start()), name)
        if re.search(r'\b(number|player|kind): (u8|usize|u16)\b', signature):
            place(1, 'number for a kind', file, head, name)
        if re.search(r'&mut', signature) and re.search(r'-> bool', contract):
            place(1, 'flag beside what is changed', file, head, name)
        for m in re.finditer(r'(?:^|\n)\s*(?:(while|loop)\b[^{]*|for ([^{]*?) in ([^{]*?))\{\n', body):
            inner = body[m.end() - 2:brace_end(body, m.end() - 2)]
            kinds = []
            if m.group(1):
                kinds.append('while')
            var = re.sub(r'\W', '', m.group(2) or '')
            if m.group(3) and '..' in m.group(3) and var and re.search(r'\[[^\]]*\b' + var + r'\b[^\]]*\]', inner):
                kinds.append('index')
            if re.search(r'return (true|false|None|Some\(|\w+;|&)', inner) and not re.search(r'\?;?\n', inner):
                kinds.append('search')
            if re.search(r'\n\s*\w+ (\+|-|\||&)?= (?!match)', inner) and not re.search(r'let mut', inner):
                kinds.append('counter')
            if kinds:
                place(3, '+'.join(kinds), file, line(m.start() + 1), name)
        for m in re.finditer(r'% 256\b|/ 256\b|256 \*|% 65536\b|65536 \*', body):
            place(4, 'bytes of a number', file, line(m.start()), name)
        if re.match(r'(show_|same_|entry_of|outcome_of|larger|write$|one_more|or_none|all_zero|only$)', name):
            place(4, 'printing, equality, copy or conversion', file, head, name)
        for m in re.finditer(r'\bmacro_rules!|: fn\(|dyn |match (number|kind)\b|kind ==', body):
            place(7, 'step switch', file, line(m.start()), name)
        for m in re.finditer(r'(requires|ensures)( \w+)? \{', contract):
            end = brace_end(contract, m.end() - 1)
            fact = re.sub(r'\s+', ' ', contract[m.end():end - 1]).strip()
            clauses[crate, m.group(1), fact].add((file, head, name))
        names = re.findall(r'\b([a-z]\w*): ', signature)
        for i in range(len(names)):
            for j in range(i + 1, len(names)):
                travels[crate, names[i], names[j]].add((file, head, name))
        shape = re.sub(r'\b(?!let|if|else|match|for|in|return|while|self|mut|Some|None|Ok|Err|true|false)\w+', 'x', re.sub(r'\s+', ' ', body))
        if len(shape) > 60:
            shapes[shape].add((file, head, name))
    for m in re.finditer(r'macro_rules! (\w+)', text):
        place(7, 'macro', file, line_of(text, m.start()), m.group(1))
    for m in re.finditer(r'struct (\w+)[^{;]*\{', text):
        body = text[m.end():brace_end(text, m.end() - 1)]
        if re.search(r': \[\w+; \w+\]', body) and re.search(r'(tail|len|count|head): (usize|u\d+)', body):
            place(6, 'buffer with a length', file, line_of(text, m.start()), m.group(1))
        if re.search(r'(head|link|next): \[', body):
            place(6, 'arena of indices', file, line_of(text, m.start()), m.group(1))
def group(kind, where):
    file, line, name = sorted(where)[0]
    place(5, f'{len(where)} times {kind}', file, line, name + ', ..')


for (crate, kind, fact), where in sorted(clauses.items()):
    if len(where) >= 3:
        group(f'{kind} {{ {fact[:70]} }}', where)
for (crate, a, b), where in sorted(travels.items()):
    if len(where) >= 3:
        group(f'({a}, {b})', where)
for shape, where in sorted(shapes.items()):
    if len(where) >= 2:
        for file, line, name in sorted(where):
            place(2, 'same shape', file, line, name)
for point in sorted(found):
    if point_wanted in (None, str(point)):
        for kind, file, line, what in found[point]:
            print(f'{point}  {kind}  {file}:{line}  {what}')
totals = ', '.join(f'{p}: {len(found[p])}' for p in sorted(found))
print('places:', totals)
