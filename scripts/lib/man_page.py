"""A man page of the program, made of its own help."""
import re
import subprocess
import time

FILES = r""".SH FILES
.TP
.I /etc/default/daghzimo
What the service daghzimo is started with: CLIENTS is the value of \-\-clients, and OPTIONS has the other options of
.BR serve .
.SH SIGNALS
SIGTERM and SIGINT end the program at once. With \-\-until\-eof it ends in order once its standard input ends, as the service
has it: clients are given five seconds, and the totals are told.
.SH EXIT STATUS
0 after an end in order; 2 where the options are wrong; 1 where it can't listen, or where something else failed.
.SH SEE ALSO
.BR systemctl (1),
.BR journalctl (1)
"""


def help_of(program, *words):
    """Its help, under the name that it has once it is installed."""
    text = subprocess.run([program, *words, "--help"], stdout=subprocess.PIPE, text=True, check=True).stdout
    name = re.search(r"^Usage: (\S+)", text, re.M)[1]
    return text.replace(f"Usage: {name}", "Usage: daghzimo")


def escaped(text):
    return re.sub(r"^([.'])", r"\\&\1", text.replace("\\", r"\e").replace("-", r"\-"), flags=re.M)


def entries_of(text, heading):
    """The options or commands under a heading of help: each with what it says."""
    section = re.search(rf"^{heading}:\n((?:[ ].*\n?|\n)*)", text, re.M)
    found = re.findall(r"^ {2,6}(\S.*?)(?:\n {10}| {2,})(\S.*)$", section[1], re.M)
    if len(found) != len(re.findall(r"^ {2,6}\S", section[1], re.M)):
        raise ValueError(f"the help has other lines than was thought:\n{section[1]}")
    return found


def listed(entries):
    rows = []
    for name, says in entries:
        words = re.sub(r"<(.*?)>", lambda value: rf"\fI{escaped(value[1])}\fB", escaped(name))
        rows.append(f".TP\n\\fB{words}\\fR\n{escaped(says)}\n")
    return "".join(rows)


def man_page(program, version, moment):
    whole, serve = help_of(program), help_of(program, "serve")
    about = whole.partition("\n")[0]
    usages = [re.search("^Usage: (.*)", it, re.M)[1] for it in (whole, serve)]
    head = f'.TH DAGHZIMO 1 "{time.strftime("%Y-%m-%d", time.gmtime(moment))}" "daghzimo {version}" "User Commands"\n'
    parts = [
        head,
        f".SH NAME\ndaghzimo \\- {escaped(about[0].lower() + about[1:])}\n",
        ".SH SYNOPSIS\n" + "\n.br\n".join(f".B {escaped(it)}" for it in usages) + "\n",
        ".SH COMMANDS\n" + listed(entries_of(whole, "Commands")),
        f".SH OPTIONS OF SERVE\n{escaped(serve.partition(chr(10))[0])}.\n" + listed(entries_of(serve, "Options")),
        FILES,
    ]
    return "".join(parts)
