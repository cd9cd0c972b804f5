"""What `ffv1restore help` and `ffv1restore version` have to print, made of the pages.

The synopses and the lines on them are those of the README's table of commands; all else stands in the man page: what the program is,
what the option means, the exit statuses, the faults and their numbers.
"""
import re
import textwrap

WIDTH = 80
CLOSING = "The manual page has more: man ffv1restore."


def plain(text):
    """Text of the man page without its marks of type."""
    return re.sub(r"\\f[BIR]", "", text).replace("\\-", "-")


def words_of(line):
    """The words of a macro's line, as a shell would have them."""
    return [quoted or bare for quoted, bare in re.findall(r'"([^"]*)"|(\S+)', line)]


def running(lines):
    """Lines of the man page as one paragraph."""
    said = []
    for line in lines:
        macro, _, rest = line.partition(" ")
        if macro in (".BR", ".RB", ".BI", ".IB", ".IR"):
            said.append("".join(words_of(rest)))
        elif macro in (".B", ".I"):
            said.append(" ".join(words_of(rest)))
        elif not line.startswith("."):
            said.append(line)
    return plain(" ".join(said))


def section(page, name):
    return re.search(rf"^\.SH {name}\n(.*?)(?=^\.SH |\Z)", page, re.S | re.M).group(1)


def tagged(part):
    """The tags of a part of the man page with their paragraphs."""
    for item in re.split(r"^\.TP.*\n", part, flags=re.M)[1:]:
        tag, *lines = item.splitlines()
        yield running([tag]), running(lines)


def paragraph(text, indent):
    return textwrap.wrap(text, WIDTH, initial_indent=indent, subsequent_indent=indent, break_on_hyphens=False, break_long_words=False)


def beside(tag, text, indent):
    """A short tag, and its paragraph beside it."""
    return textwrap.wrap(text, WIDTH, initial_indent=f"{indent}{tag:>2}  ", subsequent_indent=f"{indent}    ", break_on_hyphens=False)


def command_lines(readme):
    for synopsis, what in re.findall(r"^\| `(ffv1restore [^`]*)` \| (.*?) \|$", readme, re.M):
        yield f"  {synopsis}"
        yield from paragraph(what.replace("`", ""), "      ")


def option_lines(page):
    for option, text in tagged(section(page, "OPTION")):
        yield f"  {option}"
        yield from paragraph(text, "      ")


def status_lines(page):
    for status, text in tagged(section(page, "EXIT STATUS")):
        yield from beside(status, text, " ")


def fault_lines(page):
    named, *numbered = re.split(r"^\.SS ", section(page, "FAULTS"), flags=re.M)
    for fault, text in tagged(named):
        yield f"  {fault}"
        yield from paragraph(text, "      ")
    for part in numbered:
        title, _, rest = part.partition("\n")
        yield f"  {title} N"
        yield from paragraph(running(rest.split(".TP")[0].splitlines()), "      ")
        for number, text in tagged(rest):
            yield from beside(number, text, "      ")


def help_of(page, readme):
    parts = [
        [running(section(page, "NAME").splitlines())],
        ["Commands", *command_lines(readme)],
        ["Option", *option_lines(page)],
        ["Exit statuses", *status_lines(page)],
        ["Faults", *fault_lines(page)],
        [CLOSING],
    ]
    return "\n\n".join("\n".join(part) for part in parts) + "\n"


def version_of(changes, readme):
    version = re.search(r"^## (\S+)$", changes, re.M).group(1)
    kit = re.search(r"\(proved with (\S+)\)", readme).group(1)
    return f"ffv1restore {version}\nproved with {kit}\n"
