#!/usr/bin/env python3
"""Places in crates/*/src that an older style of Rattle leaves, by point, as docs/DESIGN-PASS.md counts them.

    tools/places.py [FOLDER]           the count of each point
    tools/places.py --list [FOLDER]    and each place

A text search: it finds candidates, and what is said of each stands in docs/DESIGN-PASS.md.
"""
import collections
import glob
import os
import re
import sys

KEYWORDS = set('as break const continue crate else enum false fn for if impl in let loop match mod move mut pub ref return '
               'self Self static struct super trait true type unsafe use where while Some None Ok Err'.split())


def sources(top):
    for path in sorted(glob.glob(os.path.join(top, 'crates/*/src/**/*.rt'), recursive=True)):
        yield os.path.relpath(path, top), open(path).read()


def crate_of(path):
    return path.split('/')[1]


def plain(text):
    """The text without comments, one line for each line."""
    return re.sub(r'//[^\n]*', '', text)


def line_at(text, place):
    return text.count('\n', 0, place) + 1


CLAUSE = re.compile(r'\s*(requires|ensures|ghost)\*?\b')


def functions(text):
    """name, first line, parameters, clauses, body of each function."""
    text = plain(text)
    for m in re.finditer(r'\bfn (\w+)', text):
        name, at = m.group(1), m.end()
        depth = 0
        while at < len(text) and text[at] != '(':
            at += 1
        begin = at
        while at < len(text):
            depth += {'(': 1, ')': -1}.get(text[at], 0)
            at += 1
            if depth == 0:
                break
        parameters = text[begin + 1:at - 1]
        clauses = []
        while at < len(text) and text[at] not in '{;':
            n = CLAUSE.match(text, at)
            if n and text[at - 1] in '\n ':
                brace = text.index('{', n.end())
                end, depth = brace, 0
                while True:
                    depth += {'{': 1, '}': -1}.get(text[end], 0)
                    end += 1
                    if depth == 0:
                        break
                clauses.append((n.group(1), text[brace + 1:end - 1].strip()))
                at = end
            else:
                at += 1
        if at >= len(text) or text[at] == ';':
            continue
        end, depth = at, 0
        while end < len(text):
            depth += {'{': 1, '}': -1}.get(text[end], 0)
            end += 1
            if depth == 0:
                break
        yield name, line_at(text, m.start()), parameters, clauses, text[at + 1:end - 1]


def shape(body):
    """The tokens of a body, with its names, numbers and texts left out."""
    tokens = re.findall(r'b?"[^"]*"|b?\'[^\']\'|\w+|[^\w\s]', body)
    return tuple(t if t in KEYWORDS or not re.match(r'\w|b?["\']', t) else '_' for t in tokens)


def grep(top, *patterns):
    for path, text in sources(top):
        code = plain(text)
        for pattern in patterns:
            for m in re.finditer(pattern, code, re.M):
                yield '%s:%d: %s' % (path, line_at(code, m.start()), ' '.join(m.group(0).split()))


def point1(top):
    """own enums like Option and Result; numbers for kinds and refusals; flags with a value beside"""
    for path, text in sources(top):
        code = plain(text)
        for m in re.finditer(r'enum (\w+)[^{]*\{(.*?)\n\}', code, re.S):
            if re.search(r'^\s*(Refused|Failed|End|Nothing|Missing)\b', m.group(2), re.M):
                yield '%s:%d: enum %s' % (path, line_at(code, m.start()), m.group(1))
    yield from grep(top, r'(None|Ok\(\w*\)|Ok\(_\)|TooLong) => 0,', r'^    0\n\}', r'Refusal::\w+ => 1,',
                    r'\w+: bool\b', r'let mut \w+ = (false|true);')


def point2(top):
    """functions whose bodies differ in names, numbers and texts alone; structs with the same fields"""
    same, fields = collections.defaultdict(list), collections.defaultdict(list)
    for path, text in sources(top):
        for name, line, _, _, body in functions(text):
            s = shape(body)
            if len(s) >= 16:
                same[s].append('%s:%d: fn %s' % (path, line, name))
        code = plain(text)
        for m in re.finditer(r'struct (\w+)[^{;]*\{(.*?)\n\}', code, re.S):
            own = [re.sub(r'pub(\(crate\))? ', '', f.strip()) for f in m.group(2).split('\n') if f.strip()]
            own = tuple(re.sub(r'\b\w+\b', '_', f) if f.startswith('ghost') else
                        re.sub(r'\d+', 'N', re.sub(r'^\w+:', '_:', f)) for f in own)
            kinds = tuple(re.sub(r'\[.*;', '[_;', f) for f in own)
            if len(own) >= 2:
                fields[kinds].append('%s:%d: struct %s' % (path, line_at(code, m.start()), m.group(1)))
    for places in list(same.values()) + list(fields.values()):
        if len(places) > 1:
            yield '  =  '.join(places)


def point3(top):
    """loops that count an index by hand"""
    yield from grep(top, r'^\s*while [^\n]*[^=-](<|<=|>|>=) [^\n]*\{', r'^\s*for \w+ in [^\n&]*\.\.[^\n]*\{',
                    r'^\s*for \((\w+), \w+\) in [^\n]*\.enumerate\(\)', r'^\s*\w+ (\+|-)= 1;')


def point4(top):
    """equality, order, copying, conversion and printing by hand"""
    yield from grep(top, r'^impl(<[^>]*>)? (PartialEq|Eq|PartialOrd|Ord|Clone|From<\w+>|TryFrom<[^\n]*>|fmt::Display|Error) for [^\n{]*',
                    r'fn (refusal|number|text|letter_byte|layer_name|by_start|by_end|start_mark|charge_of|width_of|missing_range|lawful_range|place_of|digits|put_digits)\b\(',
                    r'Ok\((\w+)\) => Ok\(\w+\)|Err\(_\) => None|Err\(_\) => Err\(|None => None|None => Ok\(\(\)\)|None => Err\(|Ok\(\(\)\) => \{\}|Ok\(\(\)\) => Ok\(\(\)\)')


def point5(top):
    """facts required in three or more functions of a crate; parameters that stand together in three or more"""
    facts, groups = collections.defaultdict(list), collections.defaultdict(set)
    for path, text in sources(top):
        for name, line, parameters, clauses, _ in functions(text):
            place = '%s:%d: fn %s' % (path, line, name)
            for kind, fact in clauses:
                if kind == 'requires':
                    facts[crate_of(path), ' '.join(fact.split())].append(place)
            given = [' '.join(p.split()) for p in re.split(r',(?![^<(]*[>)])', parameters) if ':' in p]
            for i, a in enumerate(given):
                for b in given[i + 1:]:
                    groups[crate_of(path), a, b].add(place)
    for (crate, fact), places in sorted(facts.items()):
        if len(places) > 2:
            yield '%s: { %s } in %d functions' % (crate, fact, len(places))
    for (crate, a, b), places in sorted(groups.items()):
        if len(places) > 2 and 'rt:' not in a:
            yield '%s: (%s, %s) in %d functions' % (crate, a, b, len(places))


def point6(top):
    """buffers with a length beside them, fields that are arrays"""
    yield from grep(top, r'^\s*pub(\(crate\))? (len|motifs|m): usize,', r'^\s*(pub(\(crate\))? )?\w+: \[[^\n]*; [^\n]*\],',
                    r'^\s*pub(\(crate\))? (starts|sums|ends): Vec<')


def point7(top):
    """switches on which step to run: a match with two arms or more that are calls"""
    for path, text in sources(top):
        code = plain(text)
        for m in re.finditer(r'match [^\n]*\{\n', code):
            end, depth = m.end(), 1
            while depth and end < len(code):
                depth += {'{': 1, '}': -1}.get(code[end], 0)
                end += 1
            arms = re.findall(r'=> (?:return )?(?:Some\(|Ok\()?(?:\w+(?:\.\w+)*)(?:::<[^>]*>)?\([a-z&]', code[m.end():end])
            if len([a for a in arms if not re.search(r'=> (return )?(Some|Ok|Err)\(\w*$|=> Err', a)]) > 1:
                yield '%s:%d: %s' % (path, line_at(code, m.start()), ' '.join(m.group(0).split()))


def point8(top):
    """answers in proofs/, by crate"""
    count = collections.Counter()
    for path in glob.glob(os.path.join(top, 'crates/*/proofs/**/Answers.antt'), recursive=True):
        crate = os.path.relpath(path, top).split('/')[1]
        count[crate] += len(re.findall(r'^pub [^\n]* : goal\.', open(path).read(), re.M))
    for crate, n in sorted(count.items()):
        yield from ['%s: answer' % crate] * n


def main():
    listed = '--list' in sys.argv
    rest = [a for a in sys.argv[1:] if a != '--list']
    top = rest[0] if rest else '.'
    for number, point in enumerate((point1, point2, point3, point4, point5, point6, point7, point8), 1):
        places = list(point(top))
        print('%d. %s: %d' % (number, point.__doc__, len(places)))
        if listed and number < 8:
            for place in places:
                print('   ' + place)


main()
