#!/usr/bin/env python3
"""The repository's own check: that documents name what there is, and that the tree keeps its form. Prints each fault; ends with 1 if there is one.
With the word `believed` it writes the first table of docs/DEFINITIONS.md anew, and checks then.

Of each crate: its must-fail edits can be applied, and its README names these and no others; the architecture names it. Of definitions: each word that
a public contract cites is listed, each word that is listed exists where its row says, and none that a public contract cites stands in two crates; the
words to which the contracts of the top crate lead are those of the first table. Of documents: links, paths, crates and calls that they name exist,
lines keep to the limit, the README to its words, and the list of rules is that of the definitions, no sentence of more than eight words stands in
two. Of the tree: sources stand in crates that are listed, comments keep to the limit, nothing names the machine that it was made on, and nothing else
stands at the top.
"""
import re
import sys
from fnmatch import fnmatch
from functools import cache
from pathlib import Path

TOP = Path(__file__).resolve().parent.parent
COMMENT_LIMIT = 120
PROSE_LIMIT = 150
README_WORDS = 500
REPEATED_WORDS = 8
AT_TOP = {'README.md', 'HANDLES', 'crates.txt', 'siit', '.gitignore', '.gitattributes', '.ci', 'docs', 'examples', 'crates', '.git'}
NAME = r"[A-Za-z_][\w'◌-]*"
PUBLIC = re.compile(rf'^(?:[ \t]*abbrev pub|[ \t]*unfoldable pub|pub record|pub data|pub) ({NAME})', re.M)
MACHINE = re.compile(r'(?<![\w.])/(?:work|opt/rattle|root|home)/')
faults = []


def fault(path, text):
    faults.append(f'{path.relative_to(TOP)}: {text}')


@cache
def read(path):
    return path.read_text()


def crates():
    lines = read(TOP / 'crates.txt').splitlines()
    return [line.split(':')[0].split()[0] for line in lines if line.strip() and not line.startswith('#')]


def sources(crate):
    """The files of a crate's code, without those of its tests, by their texts without tests."""
    for source in sorted((TOP / 'crates' / crate / 'src').rglob('*.rt')):
        if source.stem != 'tests':
            yield source, read(source).split('#[cfg(test)]')[0]


def definitions(crate):
    """The files of a crate's definitions, but for those of its examples."""
    for spec in sorted((TOP / 'crates' / crate / 'specs').rglob('*.antt')):
        if 'Examples' not in spec.stem and spec.stem != 'Lib':
            yield spec


@cache
def defined(crate):
    """The public words of a crate's definitions."""
    return {name: spec for spec in definitions(crate) for name in PUBLIC.findall(read(spec)) if name not in ('mod', 'record', 'data', 'use')}


# EDITS

def check_edit(folder, edit):
    """Each text that an edit replaces stands once in its file, after what its earlier lines made of it."""
    texts, path, old = {}, None, None
    for line in read(edit).splitlines():
        kind, _, text = line.partition(': ')
        if kind == 'file':
            path = folder / text.strip()
            if not path.exists():
                return fault(edit, f'there is no {text.strip()}')
            texts.setdefault(path, read(path))
        elif kind == 'old':
            old = text
        elif kind == 'new':
            count = texts[path].count(old)
            if count != 1:
                return fault(edit, f'what it replaces stands {count} times in {path.name}')
            texts[path] = texts[path].replace(old, text)


def check_edits(crate):
    """The section of a crate's README on wrong bodies names the must-fail edits that are there, and no others."""
    folder = TOP / 'crates' / crate
    readme = folder / 'README.md'
    if not readme.exists():
        return fault(folder, 'no README.md')
    edits = {edit.stem: edit for edit in (folder / 'must-fail').glob('*.edit')}
    section = re.search(r'^## Wrong bodies that are refused\n(.*?)(?=^## |\Z)', read(readme), re.M | re.S)
    named = set(re.findall(r'`(\w+)`', section.group(1))) if section else set()
    for edit in sorted(edits.keys() - named):
        fault(readme, f'the edit {edit} is not named')
    for edit in sorted(named - edits.keys()):
        fault(readme, f'there is no edit {edit}')
    for edit in edits.values():
        check_edit(folder, edit)


# DEFINITIONS

def contracts(text):
    """The contracts of the public functions of a file, and of the methods of its public traits."""
    for found in re.finditer(r'^[ \t]*pub fn .*?(?=^[ \t]*\{|;[ \t]*$|\{\}[ \t]*$)', text, re.M | re.S):
        yield found.group(0)
    for found in re.finditer(r'^pub trait .*?^\}', text, re.M | re.S):
        yield found.group(0)


@cache
def cited(crate):
    """The words of this repository's definitions that public contracts of a crate cite."""
    words = set()
    for _, text in sources(crate):
        names = set()
        for group in re.findall(r'ghost use Rattle\.siit_\w+\.specs\.(?!declared)[\w.]+\.\{([^}]*)\}', text):
            names |= {name.strip().split(' as ')[-1].strip() for name in group.split(',') if name.strip()}
        for contract in contracts(text):
            words |= {name for name in names if re.search(rf"(?<![\w']){re.escape(name)}(?![\w'])", contract)}
    return words


def rows(document):
    """Of each row of a table: the crate that its section names, the words of its first cell, and the files that its last one names."""
    crate = None
    for line in read(document).splitlines():
        heading = re.match(r'## .*?(?:`crates/(siit_\w+)|$)', line)
        if heading:
            crate = heading.group(1)
        elif line.startswith('| `') and crate:
            cells = line.strip('|').split(' | ')
            yield crate, re.findall(r'`([^`]+)`', cells[0]), re.findall(r'`([\w.]+\.antt)`', cells[-1])


def check_words(names):
    document = TOP / 'docs' / 'DEFINITIONS.md'
    listed = {word for entry in re.findall(r'`([^`]+)`', read(document)) for word in re.split(r'[ ,]+', entry)}
    contract_words = set().union(*(cited(crate) for crate in names))
    homes = {}
    for crate in names:
        for word, spec in defined(crate).items():
            if word in homes and homes[word] != crate and word in contract_words:
                fault(spec, f'the word {word}, which public contracts cite, stands in {homes[word]} too')
            homes.setdefault(word, crate)
    for crate in names:
        for word in sorted(cited(crate) & homes.keys()):
            if word not in listed:
                fault(document, f'{word}, which a public contract of {crate} cites, is not listed')
    for crate, words, files in rows(document):
        known = defined(crate) if crate in names else {}
        for word in words:
            if word not in known and crate not in names:
                fault(document, f'{word} is listed for {crate}, which is no crate')
            elif word not in known and not re.search(rf'\b{re.escape(word)}\b', ''.join(read(spec) for spec in definitions(crate))):
                fault(document, f'{word} is listed for {crate}, which has no such word')
        for file in files:
            if not any(spec.name == file for spec in (TOP / 'crates' / crate / 'specs').rglob('*.antt')) and 'of `siit_' not in file:
                fault(document, f'{file} is no file of the definitions of {crate}')


# WHAT IS TO BE BELIEVED

class Definitions:
    """The definitions of a file: the text of each, the words that it imports, and the modules that it names as a whole."""

    def __init__(self, spec):
        self.texts, self.imports, self.modules, self.kinds = {}, {}, {}, {}
        word, data = None, False
        for line in read(spec).splitlines():
            if line.startswith('use '):
                self.read_import(line)
                word = None
                continue
            start = re.match(rf'(?:abbrev |unfoldable )?(?:pub )?(?:record |data )?({NAME})', line)
            if start and not line.startswith('--'):
                word = start.group(1)
            elif data and (variant := re.match(rf'  ({NAME}) :', line)):
                self.kinds[variant.group(1)] = word
            if start:
                data = line.startswith('pub data')
            if word:
                self.texts[word] = self.texts.get(word, '') + line.partition('--')[0] + '\n'

    def read_import(self, line):
        found = re.match(r'use Rattle\.(siit_\w+)\.specs\.(?!declared)([\w.]+?)(?:\.\{([^}]*)\}| as (\w+))', line)
        if found and found.group(4):
            self.modules[found.group(4)] = found.group(1, 2)
        elif found:
            for entry in filter(None, map(str.strip, found.group(3).split(','))):
                word, _, name = entry.partition(' as ')
                self.imports[name or word] = (*found.group(1, 2), word)

    def cited_by(self, word, place):
        """The words that a definition cites, each with its crate and module."""
        text = self.texts.get(word, '')
        for name in set(re.findall(r"[A-Za-z_][\w']*(?:-[\w']+)*", text)):
            if name in self.texts:
                yield (*place, name)
            elif name in self.kinds:
                yield (*place, self.kinds[name])
            elif name in self.imports:
                yield self.imports[name]
        for module, name in re.findall(r"(\w+)\.([\w'-]+)", text):
            if module in self.modules:
                yield (*self.modules[module], name)


def believed(names):
    """The words to which the public contracts of the top crate lead, by their crates."""
    files = {}
    for crate in names:
        base = TOP / 'crates' / crate / 'specs'
        for spec in base.rglob('*.antt'):
            files[crate, '.'.join(spec.relative_to(base).with_suffix('').parts)] = Definitions(spec)
    left, seen = [], set()
    for _, text in sources('siit_top'):
        public = ''.join(contract for contract in contracts(text) if not re.match(r'\s*pub fn \w+\(\)', contract))
        for crate, module, group in re.findall(r'ghost use Rattle\.(siit_\w+)\.specs\.(?!declared)([\w.]+)\.\{([^}]*)\}', text):
            left += [(crate, module, word) for word in map(str.strip, group.split(',')) if re.search(rf'(?<![\w.]){re.escape(word)}(?!\w)', public)]
    while left:
        crate, module, word = left.pop()
        file = files.get((crate, module))
        if file and (crate, module, word) not in seen:
            seen.add((crate, module, word))
            left += file.cited_by(file.kinds.get(word, word), (crate, module))
    return {crate: {word for home, _, word in seen if home == crate} for crate in names}


BELIEVED = '## What the promises of the program rest on'


def believed_table(names):
    words = believed(names)
    lines = ['| crate | words |', '|---|---|']
    for crate in names:
        listed = [word for home, group, _ in rows(TOP / 'docs' / 'DEFINITIONS.md') if home == crate for word in group if word in words[crate]]
        if listed:
            lines.append(f"| `{crate}` | {', '.join(f'`{word}`' for word in dict.fromkeys(listed))} |")
    return '\n'.join(lines)


def check_believed(names, is_written):
    document = TOP / 'docs' / 'DEFINITIONS.md'
    text, table = read(document), believed_table(names)
    found = re.search(rf'^{BELIEVED}\n.*?(\| crate .*?)\n\n', text, re.M | re.S)
    if not found:
        fault(document, f'has no section {BELIEVED}')
    elif found.group(1) != table and is_written:
        document.write_text(text[: found.start(1)] + table + text[found.end(1) :])
        read.cache_clear()
    elif found.group(1) != table:
        fault(document, 'its first table is stale: python3 .ci/check.py believed')


# SOURCES

def check_sources(names):
    """Sources stand in crates that are listed. Comments keep to the limit; code is laid out by the toolchain."""
    for path in sorted((TOP / 'crates').rglob('*')):
        inner = path.relative_to(TOP / 'crates').parts
        if path.suffix not in ('.rt', '.antt') or 'out' in inner[1:2]:
            continue
        if inner[0] not in names or inner[1] not in ('src', 'specs', 'proofs'):
            fault(path, 'does not stand in the src, specs or proofs of a crate that is listed')
        mark = '--' if path.suffix == '.antt' else '//'
        for number, line in enumerate(read(path).splitlines(), 1):
            if len(line) > COMMENT_LIMIT and line.lstrip().startswith(mark):
                fault(path, f'line {number} has {len(line)} columns')
            if MACHINE.search(line):
                fault(path, f'line {number} names a folder of a machine')


# DOCUMENTS

def documents():
    return [TOP / 'README.md', *sorted((TOP / 'docs').glob('*.md')), *sorted((TOP / 'examples').rglob('*.md')), *sorted((TOP / 'crates').glob('*/README.md'))]


def anchor(heading):
    return re.sub(r'[^\w\- ]', '', heading.strip().lower()).replace(' ', '-')


def check_links(document):
    """Links and paths lead to what is there."""
    text = read(document)
    for link in re.findall(r'\]\(([^)\s]+)\)', text):
        if re.match(r'[a-z]+:', link):
            continue
        path, _, place = link.partition('#')
        target = (document.parent / path).resolve() if path else document
        if not target.exists():
            fault(document, f'there is no {path}')
        elif place and place not in {anchor(heading) for heading in re.findall(r'^#+ (.*)$', read(target), re.M)}:
            fault(document, f'{target.name} has no heading #{place}')
    for path in re.findall(r'(?<![\w/])((?:crates|docs|examples|\.ci)/[\w./-]*\w)', text):
        if not (TOP / path).exists() and not (document.parent / path).exists():
            fault(document, f'there is no {path}')


@cache
def identifiers():
    """All words of the code, and of the contracts and definitions."""
    texts = [text for crate in crates() for _, text in sources(crate)] + [read(spec) for crate in crates() for spec in definitions(crate)]
    return set(re.findall(r'\w+', ''.join(texts)))


def check_names(document, names):
    """Crates that are named exist; so do the calls and clauses that the page of proofs names."""
    text = read(document)
    for word in sorted(set(re.findall(r'`(siit_\w+)`', text)) - set(names)):
        if word not in identifiers() and not (TOP / 'examples' / word).exists():
            fault(document, f'there is no crate or call {word}')
    if document.name == 'PROOFS.md':
        for word in sorted({word for entry in re.findall(r'`([\w:]+)`', text) for word in entry.split('::')} - identifiers() - set(names)):
            fault(document, f'there is no call, clause or word {word}')


def check_prose(document):
    """Lines of prose keep to the limit. Tables, commands and code do as they must."""
    is_code = False
    for number, line in enumerate(read(document).splitlines(), 1):
        is_code ^= line.startswith('```')
        if MACHINE.search(line):
            fault(document, f'line {number} names a folder of a machine')
        if len(line) > PROSE_LIMIT and not is_code and not line.startswith(('|', '    ')):
            fault(document, f'line {number} has {len(line)} columns')


def sentences(document):
    """The sentences of a document's prose and of the cells of its tables, as their words. Commands and code are none."""
    text = re.sub(r'^```.*?^```|^    .*?$', '', read(document), flags=re.M | re.S)
    for block in re.split(r'\n\s*\n|\n(?=[-|] )|(?<=\|)\n| \| ', text):
        for sentence in re.split(r'(?<=[.;:?])\s+', ' '.join(block.split())):
            yield ' '.join(re.findall(r"[\w'`/.-]+", sentence.lower())).rstrip('.')


def check_repeats():
    homes = {}
    for document in documents():
        for sentence in sentences(document):
            if len(sentence.split()) > REPEATED_WORDS and homes.setdefault(sentence, document) != document:
                fault(document, f'a sentence of {homes[sentence].relative_to(TOP)}: {sentence}')


def check_rules():
    """Number, name and answer of each rule in the document are those of its row in the definitions."""
    document = TOP / 'docs' / 'RULES.md'
    rows = read(TOP / 'crates' / 'siit_rules' / 'specs' / 'Rows.antt')
    defined_rows = re.findall(r'^row_of \w+ = row (\d+) \(codes "(\w+)"\) (?:(Silent)|\(Icmp[46] (\d+) (\d+)\))', rows, re.M)
    wanted = {(number, name, silent.lower() or f'{kind}/{code}') for number, name, silent, kind, code in defined_rows}
    said = set(re.findall(r'^\| (\d+) \| (\w+) \| .* \| ([\w/]+)[^|]* \|$', read(document), re.M))
    for row in sorted(wanted ^ said, key=lambda row: int(row[0])):
        fault(document, f"{'there is no such rule' if row in said else 'it lacks the rule'}: {' '.join(row)}")


def check_documents(names):
    for document in documents():
        check_links(document)
        check_names(document, names)
        check_prose(document)
    for crate in names:
        if f'`{crate}`' not in read(TOP / 'docs' / 'ARCHITECTURE.md'):
            fault(TOP / 'docs' / 'ARCHITECTURE.md', f'{crate} is not named')
    check_repeats()
    check_rules()
    words = len(read(TOP / 'README.md').split())
    if words > README_WORDS:
        fault(TOP / 'README.md', f'{words} words, and {README_WORDS} are its limit')


def check_top():
    ignored = [line.strip('/') for line in read(TOP / '.gitignore').splitlines()]
    for entry in TOP.iterdir():
        if entry.name not in AT_TOP and not any(fnmatch(entry.name, pattern) for pattern in ignored):
            fault(entry, 'does not belong at the top')
    if read(TOP / 'HANDLES') != 'Handles allowed: none.\n':
        fault(TOP / 'HANDLES', 'is changed')


def main():
    names = crates()
    for crate in names:
        check_edits(crate)
    check_believed(names, is_written='believed' in sys.argv[1:])
    check_words(names)
    check_sources(names)
    check_documents(names)
    check_top()
    for line in faults:
        print(line)
    print(f'{len(names)} crates are as they say' if not faults else f'{len(faults)} faults')
    return 1 if faults else 0


if __name__ == '__main__':
    sys.exit(main())
