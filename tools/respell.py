#!/usr/bin/env python3
"""Brings the repository's own names in specs/, proofs/ and clauses to snake case.

Run once, at the top, after the toolchain's own script: `tools/respell.py`. A function, a lemma, a field, a constructor or a
variable is in snake case; types, facts and modules stay in camel case, and so do names of the library and names that the
check makes (goals, steps, the fields of a step). It prints the names that would fall together with another of the same file.
"""
import glob
import os
import re

WORD = re.compile(r"(?<![A-Za-z0-9_'\-])[A-Za-z][A-Za-z0-9_'\-]*")
# What the check makes, and names that a projection reaches only in what it makes.
MADE = re.compile(r'^(invariant|decreases)-loop-')
OWN = tuple(f'Rattle.{c}.' for c in os.listdir('crates'))
# Names that would fall together with one of ours, and what they become first.
FIRST = {'crates/rules/proofs/Counting.antt': {'in_use': 'reached_in_use'}}


def files(kind):
    return [f for f in sorted(glob.glob(f'crates/*/{kind}/**/*', recursive=True)) if f.endswith(('.antt', '.rt'))]


def text_of(path):
    with open(path, encoding='utf-8') as f:
        return f.read()


def rewrite(path, text):
    if text != text_of(path):
        with open(path, 'w', encoding='utf-8') as f:
            f.write(text)


def is_foreign(word):
    """Not in snake case: a dash, or a capital after a small first letter."""
    return word[0].islower() and ('-' in word or re.search(r'[a-z0-9][A-Z]', word)) or '-' in word


def respelt(word):
    if word[0].islower():
        word = re.sub(r'(?<=[a-z0-9])([A-Z]+)', lambda m: '_' + m[1].lower(), word)
    return word.replace('-', '_')


def without_comments(text):
    return re.sub(r'--.*$', '', text, flags=re.M)


def foreign_names(text):
    """Names that a proof file takes from the library or from what the check makes."""
    names = set()
    for path, items in re.findall(r'^use (\S+)\.\{([^}]*)\}', text, re.M):
        if not path.startswith(OWN) or path.endswith(('.Goals', '.Given')):
            names |= {i.split(' as ')[-1].strip() for i in items.split(',')}
    return names | set(re.findall(r'^pub (\S+) : goal\.', text, re.M))


def own_names():
    """Each name of our own that is not in snake case: every word that is neither foreign nor reached by a projection alone."""
    foreign, words, fields = set(), set(), set()
    for path in files('specs') + files('proofs'):
        text = without_comments(text_of(path))
        foreign |= foreign_names(text)
        for m in WORD.finditer(re.sub(r'^use .*$', '', text, flags=re.M)):
            if m.start() == 0 or text[m.start() - 1] != '.':
                words.add(m[0])
    for path in files('specs') + files('proofs'):
        fields |= set(re.findall(r'^ +pub ([A-Za-z0-9_\-]+) :', text_of(path), re.M))
    for path in files('src'):
        fields |= set(re.findall(r'ghost ([A-Za-z]+)(?::| =)', text_of(path)))
    own = {w for w in words if w not in foreign and not MADE.match(w)}
    return {w: respelt(w) for w in own | fields if is_foreign(w)}


def renamed(path, names):
    text = text_of(path)
    made = path.count('/proofs/') and path.count('/') > 3

    def one(m):
        word = m[0]
        before = text[m.start() - 1:m.start()]
        # A projection in a function's own proof reaches what the check made; only a name with a capital is a field of ours there.
        if made and before == '.' and '-' in word:
            return word
        return names.get(word, word)

    return WORD.sub(one, text)


def main():
    names = own_names()
    todo = files('specs') + files('proofs') + files('src')
    for path in FIRST:
        rewrite(path, WORD.sub(lambda m: FIRST[path].get(m[0], m[0]), text_of(path)))
    for path in todo:
        words = set(WORD.findall(without_comments(text_of(path))))
        for word in sorted(words & names.keys()):
            if names[word] in words:
                print(f'{path}: {word} falls together with {names[word]}')
    for path in todo:
        rewrite(path, renamed(path, names))


main()
