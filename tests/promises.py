#!/usr/bin/env python3
"""Every name that the documents cite is in the tree, and every must-fail edit can be applied.

usage: promises.py      run in the project's root

`crate/File.name`   a definition or theorem: crates/crate/specs/File.antt or proofs/File.antt declares it
`crate::function`   a function of crates/crate/src, `crate::Type::function` a method
`crate!label`       a must-fail edit: crates/crate/must-fail/label.edit
`path/to/file`      anything else with a slash is a path in the tree
A must-fail edit that no row cites is an error too, as is one whose `old:` text does not stand in its file exactly once, and a row of a
table with no name in it.
"""
import pathlib
import re
import sys

ROOT = pathlib.Path(__file__).resolve().parent.parent
CRATES = ROOT / 'crates'


def declared(crate, file, name):
    for folder in ('specs', 'proofs'):
        path = CRATES / crate / folder / f'{file}.antt'
        if path.is_file():
            text = path.read_text(encoding='utf-8')
            word = re.escape(name)
            if re.search(rf'^\s*((unfoldable|abbrev|pub|record|data) )+{word}( |$)', text, re.M):
                return True
    return False


def function(crate, name):
    word = re.escape(name.split('::')[-1])
    sources = (CRATES / crate / 'src').glob('**/*.rt')
    return any(re.search(rf'\bfn {word}\b', p.read_text(encoding='utf-8')) for p in sources)


def found(span):
    if '/' in span and (ROOT / span).exists():
        return True
    m = re.fullmatch(r'([a-z0-9_]+)!([a-z0-9_]+)', span)
    if m:
        return (CRATES / m[1] / 'must-fail' / f'{m[2]}.edit').is_file()
    m = re.fullmatch(r'([a-z0-9_]+)::([A-Za-z0-9_:]+)', span)
    if m:
        return function(m[1], m[2])
    m = re.fullmatch(r'([a-z0-9_]+)/([A-Z][A-Za-z0-9]*)\.([^\s`]+)', span)
    if m:
        return declared(m[1], m[2], m[3])
    if re.fullmatch(r'[A-Za-z0-9_.-]+(/[A-Za-z0-9_.-]+)+/?', span):
        return (ROOT / span).exists() or span.startswith('target/')
    return None


def misplaced(edit):
    """The first old text that does not stand exactly once in its file, after the replacements before it."""
    crate, path, old, texts = edit.parent.parent, None, None, {}
    for line in edit.read_text(encoding='utf-8').split('\n'):
        key, _, value = line.partition(': ')
        if key == 'file':
            path = crate / value
            if path not in texts:
                texts[path] = path.read_text(encoding='utf-8') if path.is_file() else ''
        elif key == 'old':
            old = value
        elif key == 'new':
            if texts[path].count(old) != 1:
                return old
            texts[path] = texts[path].replace(old, value)
    return None if old else 'nothing'


def main():
    wrong = []
    cited = set()
    for document in ('docs/PROMISES.md', 'README.md', 'docs/DECISIONS.md'):
        for number, line in enumerate((ROOT / document).read_text(encoding='utf-8').split('\n'), 1):
            spans = re.findall(r'`([^`]+)`', line)
            cited.update(spans)
            for span in spans:
                if found(span) is False:
                    wrong.append(f'{document}:{number}: `{span}` is not in the tree')
            row = document == 'docs/PROMISES.md' and line.startswith('| ') and not line.startswith(('| Sentence', '| Fraud', '| Call', '|---'))
            if row and not any(found(s) for s in spans):
                wrong.append(f'{document}:{number}: a row that cites nothing')
    for edit in sorted(CRATES.glob('*/must-fail/*.edit')):
        label = f'{edit.parts[-3]}!{edit.stem}'
        if label not in cited:
            wrong.append(f'docs/PROMISES.md does not cite the edit `{label}`')
        old = misplaced(edit)
        if old:
            wrong.append(f'{label}: not exactly once in its file: {old}')
    for line in wrong:
        print(line)
    print(f'promises: {len(cited)} names cited, {len(wrong)} wrong')
    return 1 if wrong else 0


sys.exit(main())
