#!/usr/bin/env python3
"""Lists the clauses that stand in the contracts of three or more functions, and the parameters that three or more functions of a crate take together."""
import collections
import glob
import itertools
import re
import sys

HEAD = re.compile(r'^ *(?:pub(?:\(\w+\))? )?fn (\w+)', re.M)
CLAUSE = re.compile(r'^\s*(requires|ensures)(?: \w+)? \{ (.*) \}[\s;]*$', re.M)
PARAMETER = re.compile(r'(?:^|[,(\n])\s*(?:mut )?(\w+)\s*:\s*')


def parameters(text, start):
    """The names of the parameters of the function whose head ends at start."""
    depth, i = 0, text.index('(', start)
    first = i
    while True:
        depth += {'(': 1, ')': -1}.get(text[i], 0)
        if depth == 0:
            return set(PARAMETER.findall(text[first:i]))
        i += 1


def main():
    clauses, pairs, functions = collections.defaultdict(set), collections.defaultdict(set), 0
    for path in sorted(glob.glob('crates/*/src/**/*.rt', recursive=True)):
        text = open(path).read()
        crate = path.split('/')[1]
        heads = list(HEAD.finditer(text))
        functions += len(heads)
        for head, after in itertools.zip_longest(heads, heads[1:]):
            body = text[head.start():after.start() if after else len(text)]
            name = path.removeprefix('crates/') + ' ' + head.group(1)
            for kind, clause in CLAUSE.findall(body):
                parts = clause.split(' × ') if kind == 'requires' else [clause]
                for part in parts:
                    clauses[re.sub(r'\.(now|old|new|entry)\b', '', part.strip('() '))].add(name)
            for pair in itertools.combinations(sorted(parameters(text, head.end())), 2):
                pairs[crate, *pair].add(name)
    print(f'{functions} functions')
    print('clauses in three or more contracts:')
    for clause, names in sorted(clauses.items(), key=lambda x: -len(x[1])):
        if len(names) >= 3:
            print(f'  {len(names)}  {clause}  | ' + ', '.join(sorted(names)))
    print('parameters that three or more functions take together:')
    for pair, names in sorted(pairs.items(), key=lambda x: (x[0][0], -len(x[1]))):
        if len(names) >= 3:
            print(f'  {len(names)}  {", ".join(pair)}  | ' + ', '.join(sorted(n.split(' ')[1] for n in names)))


main()
