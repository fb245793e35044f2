"""Makes a man page from a frame and the documents, so that a sentence stands in one place.

    manual.py FRAME DOCUMENTS VERSION SECONDS

The frame is a man page. A line `@take FILE HEADING` stands for what is under that heading of that document,
`@take FILE HEADING | FROM` for what is there from the line on that begins so, and `@take FILE HEADING | FROM | UNTIL` for what is
there before the next line that begins so. `@commands FILE` stands for every section whose heading is a command. @VERSION@ and
@DATE@ are filled in. Of Markdown this reads what the documents use: paragraphs, lists, tables, indented code, `code`, **bold** and
links.
"""
import re
import sys
import textwrap
import time


def section(text, heading):
    """The lines under a heading, up to the next heading of whatever depth."""
    lines = text.split("\n")
    starts = [number for number, line in enumerate(lines) if re.fullmatch("#+ " + re.escape(heading), line)]
    if len(starts) != 1:
        sys.exit("manual: %d headings are %r" % (len(starts), heading))
    body = []
    for line in lines[starts[0] + 1:]:
        if re.match("#+ ", line):
            break
        body.append(line)
    return body


def between(lines, start="", stop=None):
    """The lines from the one that begins with `start`, before the next one that begins with `stop`."""
    first = next((number for number, line in enumerate(lines) if line.startswith(start)), None)
    if first is None:
        sys.exit("manual: no line begins with %r" % start)
    lines = lines[first:]
    if stop is None:
        return lines
    last = next((number for number, line in enumerate(lines) if line.startswith(stop)), None)
    if last is None:
        sys.exit("manual: no line begins with %r" % stop)
    return lines[:last]


def escaped(text):
    """A text as it is typed: no character is set as another one."""
    for character, name in (("\\", "\\e"), ("-", "\\-"), ("'", "\\(aq"), ("`", "\\(ga"), ("^", "\\(ha"), ("~", "\\(ti")):
        text = text.replace(character, name)
    return text


def inline(text):
    """A text of one paragraph, with the fonts of code and bold."""
    text = re.sub(r"\[([^]]*)\]\([^)]*\)", r"\1", text)
    parts = re.split(r"(`[^`]*`|\*\*.*?\*\*)", text)
    out = []
    for part in parts:
        if part.startswith("`"):
            out.append("\\fB" + escaped(part[1:-1]) + "\\fR")
        elif part.startswith("**"):
            out.append("\\fB" + inline(part[2:-2]) + "\\fR")
        else:
            out.append(part.replace("\\", "\\e").replace("'", "\\(cq"))
    return "".join(out)


def filled(text):
    lines = textwrap.wrap(inline(text), 78, break_long_words=False, break_on_hyphens=False)
    return ["\\&" + line if line[0] in ".'" else line for line in lines]


def table(lines):
    """The titles, and then the first column as terms and the others as sentences, of which a third one begins with its title."""
    rows = [[cell.strip() for cell in line.strip("|").split("|")] for line in lines]
    titles = rows[0]
    out = [".PP", "\\fI%s\\fR: %s" % (inline(titles[0]), ", ".join(inline(title) for title in titles[1:] if title))]
    for row in rows[2:]:
        out.append(".TP")
        out += filled(row[0]) or ["\\&"]
        cells = [row[1]] + ["%s: %s" % (title.capitalize(), cell) for title, cell in zip(titles[2:], row[2:]) if cell]
        text = ". ".join(cell for cell in cells if cell)
        out += filled(text + ".") if text else ["\\&"]
    return out


def paragraph(lines):
    if lines[0].startswith("|"):
        return table(lines)
    if lines[0].startswith("    "):
        code = [escaped(line[4:]) for line in lines]
        return [".PP", ".nf", ".RS 4"] + ["\\&" + line if line[:1] in (".", "\\") else line for line in code] + [".RE", ".fi"]
    item = re.match(r"(- |\d+\. )", lines[0])
    if not item:
        return [".PP"] + filled(" ".join(line.strip() for line in lines))
    out, items = [], []
    for line in lines:
        if re.match(r"(- |\d+\. )", line):
            items.append(line)
        else:
            items[-1] += " " + line.strip()
    for number, text in enumerate(items, 1):
        mark, words = text.split(" ", 1)
        out += [".IP \\(bu 2" if mark == "-" else ".IP %d. 4" % number] + filled(words)
    return out


def page(lines):
    """The paragraphs of a section. An empty line within indented code belongs to it."""
    blocks, gap = [], True
    for line in lines:
        if not line.strip():
            gap = True
            continue
        if gap and blocks and blocks[-1][0].startswith("    ") and line.startswith("    "):
            blocks[-1] += ["", line]
        elif gap:
            blocks.append([line])
        else:
            blocks[-1].append(line)
        gap = False
    return [line for block in blocks for line in paragraph(block)]


def main():
    frame, documents, version, seconds = sys.argv[1:]
    read = lambda name: open("%s/%s" % (documents, name), encoding="utf-8").read()
    date = time.strftime("%Y-%m-%d", time.gmtime(int(seconds)))
    for line in open(frame, encoding="utf-8").read().splitlines():
        take = re.fullmatch(r"@take (\S+) (.*)", line)
        commands = re.fullmatch(r"@commands (\S+)", line)
        if take:
            name, wanted = take.groups()
            heading, *bounds = wanted.split(" | ")
            print("\n".join(page(between(section(read(name), heading), *bounds))))
        elif commands:
            text = read(commands.group(1))
            for heading in re.findall(r"(?m)^## (`acng .*`)$", text):
                print("\n".join([".SS " + inline(heading)] + page(section(text, heading))))
        else:
            print(line.replace("@VERSION@", version).replace("@DATE@", date))


main()
