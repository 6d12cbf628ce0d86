#!/usr/bin/env python3
"""Finds examples of doc comments that no test runs as they stand.

    tools/checks/doc_examples.py

An example is a block between a line `/// ```rust` and a line `/// ```` of a doc comment below crates/; its name is the crate, the type where the
item is a method, and the item, as scenario::read. In a file doc_examples.rt the lines from `// example NAME` to `// end` are the example of NAME,
within a test or a function that is called there, so that the gate proves and runs them. Both have the same lines, but for blanks at their ends, and
each entry point of ENTRIES has an example. Prints each name for which one of these is not so, and ends with status 1 where there is one.
"""
import pathlib
import re
import sys

ROOT = pathlib.Path(__file__).resolve().parent.parent.parent
# What a user of the crates calls first.
ENTRIES = (
    "bus_engine::run", "bus_transcript::transcribe", "cdb_codec::from_cdb", "msg_grammar::decode_in", "msg_grammar::decode_out", "scenario::read",
    "trace_checker::Judge",
)
COMMENT = re.compile(r"\s*///(.*)")
ITEM = re.compile(r"\s*pub (?:fn|struct|enum|const|type|trait) (\w+)")
FUNCTION = re.compile(r"fn (\w+)")
IMPL = re.compile(r"impl(?:<.*?>)? (?:\w+ for )?(\w+)")


def shown():
    """The examples of doc comments: each name with its lines."""
    for path in sorted(ROOT.glob("crates/*/src/**/*.rt")):
        crate, kind, examples, lines = path.relative_to(ROOT).parts[1], "", [], None
        for line in path.read_text().splitlines():
            comment, item = COMMENT.match(line), ITEM.match(line)
            kind = IMPL.match(line)[1] if IMPL.match(line) else "" if line == "}" else kind
            words = comment[1].strip() if comment else None
            if lines is not None and comment and words != "```":
                lines.append(words)
            elif lines is not None:
                examples.append(lines)
                lines = None
            elif words == "```rust":
                lines = []
            elif item:
                for example in examples:
                    yield "::".join([crate, *[kind] * bool(kind), item[1]]), example
                examples = []


def ran():
    """The examples of tests that run: each name with its lines."""
    for path in sorted(ROOT.glob("crates/*/src/doc_examples.rt")):
        text = path.read_text()
        name, lines, before, runs = None, [], "", False
        for line in map(str.strip, text.splitlines()):
            if line.startswith("// example "):
                name, lines = line[len("// example ") :], []
            elif line == "// end":
                if runs:
                    yield name, lines
                name = None
            elif name:
                lines.append(line)
            elif FUNCTION.match(line):
                runs = before == "#[test]" or len(re.findall(r"\b%s\b" % FUNCTION.match(line)[1], text)) > 1
            before = line


def main():
    wrong = []
    docs, tests = list(shown()), list(ran())
    for what, found in (("doc comment", docs), ("test", tests)):
        names = [name for name, _ in found]
        wrong += [f"{name}: no {what} has an example of it" for name in sorted({*ENTRIES, *dict(docs), *dict(tests)} - set(names))]
        wrong += [f"{name}: more than one {what} has an example of it" for name in sorted({name for name in names if names.count(name) > 1})]
    both = dict(tests)
    wrong += [f"{name}: its doc comment and its test have other lines" for name, lines in docs if name in both and lines != both[name]]
    print("\n".join(wrong) if wrong else "each example of a doc comment stands in a test")
    sys.exit(1 if wrong else 0)


main()
