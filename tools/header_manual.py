#!/usr/bin/env python3
"""Makes the manual page of a C header, of its comments and declarations: header_manual.py HEADER, which prints the page.

The first comment is the description: its first sentence is the name's line, a paragraph that is indented is an example, and one that begins like `RESULTS.`
has that as its heading. Each further comment stands before what it is about, up to an empty line.
"""
import pathlib
import re
import sys
import textwrap


def escaped(text):
    """A text as roff takes it."""
    text = text.replace("\\", "\\e").replace("-", "\\-")
    return re.sub(r"^([.'])", r"\\&\1", text, flags=re.MULTILINE)


def comment(text):
    """The lines of a comment, without what marks it as one."""
    body = re.sub(r"\s*\*/$", "", re.sub(r"^/\*\s?", "", text.strip()))
    return textwrap.dedent("\n".join(re.sub(r"^ \* ?", "", line) for line in body.split("\n"))).strip("\n")


def paragraphs(text):
    """A comment in roff."""
    for part in re.split(r"\n\s*\n", text):
        heading = re.match(r"([A-Z]+)\. ", part)
        if part.startswith("    "):
            yield f".PP\n.in +4n\n.EX\n{escaped(textwrap.dedent(part))}\n.EE\n.in"
        elif part.startswith("- "):
            for item in re.split(r"(?m)^- ", part)[1:]:
                yield f".IP \\(bu 2\n{escaped(' '.join(item.split()))}"
        else:
            words = escaped(" ".join(part.split()))
            yield f".SS {heading[1].capitalize()}\n{words[len(heading[0]):]}" if heading else f".PP\n{words}"


def declared(code):
    """Declarations in roff."""
    return f".PP\n.nf\n\\fB{escaped(code.strip())}\\fP\n.fi"


def page(header):
    text = header.read_text()
    name = header.stem
    first = re.match(r"/\*.*?\*/", text, re.DOTALL)[0]
    inside = text[text.index('extern "C" {\n#endif') + len('extern "C" {\n#endif') : text.rindex("#ifdef __cplusplus")]
    yield f'.TH {name.upper()} 3 "" "reqkeyd" "Library Functions"'
    summary, _, rest = comment(first).partition(". ")
    summary = escaped(" ".join(summary.split()))
    yield f".SH NAME\n{name} \\- {summary[0].lower()}{summary[1:]}"
    yield f".SH SYNOPSIS\n.nf\n\\fB#include <{header.name}>\\fP\n.fi\n.PP\ncc $(pkg\\-config \\-\\-cflags \\-\\-libs {name})"
    yield ".SH DESCRIPTION"
    yield from paragraphs(rest)
    yield ".SH CALLS"
    for part in re.split(r"\n\n(?=/\*)", inside.strip()):
        said = re.match(r"/\*.*?\*/\n", part, re.DOTALL)
        yield declared(part[said.end() :])
        yield ".RS 4"
        yield from paragraphs(comment(said[0]))
        yield ".RE"
    yield ".SH SEE ALSO\n\\fBreqkeyd\\fR(8), \\fBreqkeyd.conf\\fR(5), \\fBreqkeyctl\\fR(1)"


if __name__ == "__main__":
    if len(sys.argv) != 2:
        sys.exit("usage: header_manual.py HEADER")
    print("\n".join(page(pathlib.Path(sys.argv[1]))))
