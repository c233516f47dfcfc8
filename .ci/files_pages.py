"""A test that the manual page and the completion of `rs_files` have the commands and the options of its help texts."""
import os
import re
import subprocess

from files_common import TOP, printed, read, wrong

FOLDER = os.path.join(TOP, "crates/rs_files")
COMPLETE = "COMP_WORDS=(rs_files {words}); COMP_CWORD={last}; . rs_files.bash; _rs_files; printf '%s\\n' \"${{COMPREPLY[@]}}\""


def options_in(text):
    """Returns the options in a text, as `--name`."""
    return set(re.findall(r"--[a-z][a-z-]*", text))


def completed(*words):
    """Returns what the completion offers for the last word."""
    line = COMPLETE.format(words=" ".join(f"'{word}'" for word in words), last=len(words))
    done = subprocess.run(["bash", "-c", line], cwd=FOLDER, stdout=subprocess.PIPE, check=True)
    return set(done.stdout.decode().split())


def pages():
    """The help texts, the manual page and the completion name the same commands and options."""
    front = printed("--help")[0]
    commands = set(re.findall(r"^  ([a-z]+) ", front.split("Commands:")[1].split("Options:")[0], re.M)) - {"help"}
    if completed("") != commands | {"--help", "--version"}:
        wrong(f"the completion offers other commands: {completed('')}")
    every = set()
    for command in sorted(commands):
        options = options_in(printed(command, "--help")[0].split("Options:")[1].replace("default: --", ""))
        if completed(command, "--") != options:
            wrong(f"the completion of {command} offers {sorted(completed(command, '--') ^ options)} wrongly or not")
        every |= options
    page = read(os.path.join(FOLDER, "rs_files.1")).decode().replace("\\-", "-")
    if f' "{printed("--version")[0].strip()}" ' not in page.splitlines()[0]:
        wrong("the manual page has another version than the program")
    if options_in(page.split(".SH OPTIONS")[1].split(".SH EXIT")[0]) != every:
        wrong(f"the manual page has other options: {options_in(page.split('.SH OPTIONS')[1].split('.SH EXIT')[0]) ^ every}")
    if set(re.findall(r"^\.B ([a-z]+)$", page.split(".SH DESCRIPTION")[1].split(".SH OPTIONS")[0], re.M)) != commands:
        wrong("the manual page has other commands")
    if completed("verify", "--progress", "a") != {"auto", "always"}:
        wrong("the completion does not offer when progress is shown")


TESTS = (pages,)
