#!/usr/bin/env python3
"""Spells the repository's own definitions and lemmas in snake case, as today's Rattle spells words: `nextUse` and `next-use` become `next_use`.

usage: python3 tools/snake_names.py [--check]        at the top of the repository, once, right after the kit's port.py

It turns each name that a file of specs/ or of proofs/ declares and that begins with a small letter: dashes and inner capitals become
underscores. What begins with a capital (types, facts, modules), the names of src/, and the names that the check makes in a function's
folder stay. A name that would meet another of the repository's gets `_lem` behind it (a lemma beside its function). --check writes
nothing, and lists what is turned and where two names would meet.
"""
import glob
import os
import re
import sys

WORD = re.compile(r'[^\s(){}.;,@"«»]+')
MODIFIER = r'(?:(?:abbrev|pub|unfoldable|opaque|record|data|mutual|private)\s+)*'
DECLARED = re.compile(r'^(\s*)(' + MODIFIER + r')([^\s(){}.;,@"«»]+)((?:\s+\{[^{}\n]*\}|\s+\([^()\n]*\))*)\s+:(?=\s|$)')
FIXED = {'module', 'where', 'use', 'let', 'in', 'open', 'ruleset'}


def code_of(text):
    """The text with comments blanked, same length."""
    return re.sub(r'(?<![^\s(){}.;,])--[^\n]*', lambda m: ' ' * len(m[0]), text)


def snake(name):
    parts = []
    for part in name.split('-'):
        if part[:1].islower():
            part = re.sub(r"(?<=[a-z0-9])([A-Z])", lambda m: '_' + m[1].lower(), part)
        parts.append(part)
    return re.sub(r'_+', '_', '_'.join(parts))


def is_function_folder(path):
    return os.path.basename(path) in ('Proof.antt', 'Answers.antt', 'Invariants.antt')


def sources():
    return sorted(p for p in glob.glob('crates/*/specs/**/*.antt', recursive=True) + glob.glob('crates/*/proofs/**/*.antt', recursive=True))


def gather():
    """Declared names, each with the files that declare it, and those that are fields of records."""
    names, fields = {}, set()
    for p in sources():
        if is_function_folder(p):
            continue
        text = code_of(open(p, encoding='utf-8').read())
        record = None
        for line in text.split('\n'):
            if not line.strip():
                continue
            indent = len(line) - len(line.lstrip())
            if record is not None and indent <= record:
                record = None
            m = re.match(r'^(\s*)(?:abbrev |pub )*record\s', line)
            if m:
                record = indent
                continue
            m = DECLARED.match(line)
            if not m:
                continue
            name = m[3]
            if name in FIXED:
                continue
            names.setdefault(name, set()).add(p)
            if record is not None:
                fields.add(name)
    return names, fields


def all_words():
    """Every word of any text, to see what a new name could meet."""
    seen = {}
    for p in sources():
        for w in set(WORD.findall(code_of(open(p, encoding='utf-8').read()))):
            seen.setdefault(w, set()).add(p)
    return seen


def source_names():
    seen = {}
    for p in glob.glob('crates/*/src/**/*.rt', recursive=True):
        for w in set(re.findall(r'\b(?:fn|let(?: mut)?|for|const|static)\s+\(?(\w+)|\b(\w+)\s*:(?!:)', re.sub(r'//[^\n]*', '', open(p, encoding='utf-8').read()))):
            for it in w:
                if it:
                    seen.setdefault(it, set()).add(p)
    return seen


def table():
    names, fields = gather()
    words, rust = all_words(), source_names()
    new, said = {}, []
    for n in sorted(names):
        if not re.match(r'[a-z]', n) or not re.fullmatch(r"[A-Za-z0-9_'′⁺⁻₀-₉-]+", n):
            continue
        to = snake(n)
        if to != n:
            new[n] = to
    # two of ours that would be one, or one that stands already
    by = {}
    for n, to in new.items():
        by.setdefault(to, []).append(n)
    for to, olds in by.items():
        camel = [n for n in olds if '-' not in n]
        dashed = [n for n in olds if '-' in n]
        taken = to in names or bool(camel)
        if taken:
            for n in dashed:
                new[n] = to + '_lem'
                said.append(f'meets: {n} -> {to}_lem ({to} is {"the definition " + camel[0] if camel else "declared in " + sorted(names[to])[0]})')
        elif len(dashed) > 1:
            said.append(f'meets: {dashed} -> {to}')
        if camel and (len(camel) > 1 or to in names):
            said.append(f'MEETS: {camel} -> {to} {sorted(names.get(to, []))[:2]}')
    # a lemma that has the new name of a definition already
    for to, olds in by.items():
        if to in names and any('-' not in n for n in olds):
            new[to] = to + '_lem'
    for n, to in sorted(new.items()):
        if to in words and to not in names:
            both = [p for p in words[to] if n in words and p in words[n]]
            if both:
                said.append(f'look: {n} -> {to}, which stands in {both[:3]} too')
        if to.endswith('_lem') and (to in names or to in words):
            said.append(f'MEETS: {n} -> {to}')
    return new, fields, names, said, rust


def turn_code(text, new, fields, in_function_folder):
    code = code_of(text)
    imported = set()
    if in_function_folder:
        for m in re.finditer(r'(?m)^\s*use\s+Rattle\.(\w+)\.([\w.+-]+?)\.\{([^}]*)\}', code):
            imported |= {w for w in WORD.findall(m[3])}
    out, last = [], 0
    for m in WORD.finditer(code):
        w = m[0]
        if w not in new:
            continue
        before = code[m.start() - 1:m.start()]
        if before == '.' and snake(w) == w:
            continue
        if before == '.':
            # a field of a record, or a name of a module
            line = code.rfind('\n', 0, m.start()) + 1
            head = re.search(r'([^\s(){};,@"«»]*)\.$', code[line:m.start()])[1]
            own_module = head.startswith('Rattle.') or head[:1].isupper() or head in aliases(code)
            if not own_module and w not in fields:
                continue
            if in_function_folder and not own_module and w not in fields:
                continue
        elif in_function_folder and w not in imported and w not in fields:
            continue
        out.append(text[last:m.start()])
        out.append(new[w])
        last = m.end()
    out.append(text[last:])
    text = ''.join(out)
    # a comment's camel words, and dashed words in code spans
    def comment(m):
        t = re.sub(r"(?<![\w-])[a-z]+[A-Za-z0-9]*[A-Z][A-Za-z0-9]*(?![\w-])", lambda k: new.get(k[0], k[0]), m[0])
        return re.sub(r'`([^`\n]+)`', lambda k: '`' + WORD.sub(lambda q: new.get(q[0], q[0]), k[1]) + '`', t)
    return re.sub(r'(?<![^\s(){}.;,])--[^\n]*', comment, text)


def aliases(code):
    return {m[1] for m in re.finditer(r'(?m)^\s*use\s+Rattle\.[^\s{]+\s+as\s+([^\s;]+)', code) if 'Need' not in m[0]}


CLAUSE_HEAD = re.compile(r'\b(?:requires|ensures|ghost)\s*\*?\s*(?:\w+\s*)?(?::\s*|=\s*)?\{')


def turn_rt(text, new):
    """Clauses, ghost fields and ghost use items of a source file, and code spans of its comments."""
    spans = []
    for m in re.finditer(r'ghost\s+use\b[^;]*;', text):
        spans.append((m.start(), m.end()))
    for m in CLAUSE_HEAD.finditer(text):
        depth, i = 1, m.end()
        while depth and i < len(text):
            depth += text[i] == '{'
            depth -= text[i] == '}'
            i += 1
        spans.append((m.end(), i - 1))
    spans.sort()
    out, last = [], 0
    for a, b in spans:
        if a < last:
            continue
        out.append(comments(text[last:a], new))
        out.append(WORD.sub(lambda k: new.get(k[0], k[0]), text[a:b]))
        last = b
    out.append(comments(text[last:], new))
    return ''.join(out)


def comments(text, new):
    def comment(m):
        t = re.sub(r"(?<![\w-])[a-z]+[A-Za-z0-9]*[A-Z][A-Za-z0-9]*(?![\w-])", lambda k: new.get(k[0], k[0]), m[0])
        return re.sub(r'`([^`\n]+)`', lambda k: '`' + WORD.sub(lambda q: new.get(q[0], q[0]), k[1]) + '`', t)
    return re.sub(r'//[^\n]*', comment, text)


def turn_edit(text, new, fields):
    lines = text.split('\n')
    antt = any(l.startswith('file:') and l.strip().endswith('.antt') for l in lines)
    for i, l in enumerate(lines):
        m = re.match(r'(old: |new: )(.*)$', l)
        if not m:
            continue
        if antt:
            lines[i] = m[1] + turn_code(m[2], new, fields, False)
        elif re.match(r'\s*(requires|ensures|ghost)', m[2]):
            lines[i] = m[1] + WORD.sub(lambda k: new.get(k[0], k[0]), m[2])
    return '\n'.join(lines)


def turn_page(text, new):
    def span(k):
        body = k[1]
        return '`' + WORD.sub(lambda q: new.get(q[0], q[0]) if q[0] in new and ('-' in q[0] or re.search('[A-Z]', q[0])) else q[0], body) + '`'
    return re.sub(r'`([^`\n]+)`', span, text)


def main(argv):
    new, fields, names, said, rust = table()
    if '--check' in argv:
        for s in said:
            print(s)
        print(len(new), 'names turned')
        if '--list' in argv:
            for n, to in sorted(new.items()):
                print(n, to)
        return 0
    n = 0
    for p in sources():
        text = open(p, encoding='utf-8').read()
        to = turn_code(text, new, fields, is_function_folder(p))
        if to != text:
            open(p, 'w', encoding='utf-8').write(to)
            n += 1
    for p in glob.glob('crates/*/src/**/*.rt', recursive=True):
        text = open(p, encoding='utf-8').read()
        to = turn_rt(text, new)
        if to != text:
            open(p, 'w', encoding='utf-8').write(to)
            n += 1
    for p in glob.glob('crates/*/must-fail/*.edit'):
        text = open(p, encoding='utf-8').read()
        to = turn_edit(text, new, fields)
        if to != text:
            open(p, 'w', encoding='utf-8').write(to)
            n += 1
    for p in glob.glob('docs/*.md') + glob.glob('*.md') + glob.glob('crates/*/*.md'):
        text = open(p, encoding='utf-8').read()
        to = turn_page(text, new)
        if to != text:
            open(p, 'w', encoding='utf-8').write(to)
            n += 1
    print(f'{len(new)} names turned in {n} files')
    return 0


if __name__ == '__main__':
    raise SystemExit(main(sys.argv[1:]))
