"""Writes a module of about a megabyte to standard output: the same classes, functions and tables again and
again under other names, with comments, templates, strings with escapes and numbers.

Usage: module.py [BYTES]     (1,000,000 where no number is given)
"""

import sys

PART = """\
// Part {n}: a table, a class and what goes over them.
const table{n} = [{n}, 0x{n:x}, {square}, 1 << {shift}, -{n}];

/* A queue of entries,
   each with a name. */
class Queue{n} {{
    constructor(name, limit) {{
        this.name = name;
        this.entries = [];
        this.limit = limit;
    }}

    get length() {{
        return this.entries.length;
    }}

    push(entry) {{
        if (this.entries.length >= this.limit) {{
            throw new RangeError(`queue ${{this.name}} has ${{this.limit}} entries`);
        }}
        this.entries[this.entries.length] = {{ entry, at: this.entries.length }};
        return this;
    }}
}}

function total{n}(list, weight) {{
    let sum = 0;
    for (let at = 0; at < list.length; at++) {{
        const value = list[at];
        sum += value !== undefined && value > 0 ? value * weight : value === null ? 0 : -value;
    }}
    return sum;
}}

export const report{n} = (queue, other) => {{
    const text = 'report {n}:\\t' + queue.name + "\\u00e9\\n";
    return other ?? {{ text, total: total{n}(table{n}, {limit}), "key {n}": Object.keys(queue) }};
}};

"""


def parts(size):
    written = 0
    n = 0
    while written < size:
        n += 1
        part = PART.format(n=n, square=n * n, shift=n % 31, limit=n % 100 + 1)
        written += len(part)
        yield part


def main():
    size = int(sys.argv[1]) if len(sys.argv) > 1 else 1_000_000
    sys.stdout.writelines(parts(size))


main()
