"""Plays transcripts of a shell, in the form of cram: a line `$ COMMAND`, lines `> ..` that go on with it, and below
them what it writes, standard error too; `[N]` stands for a status that isn't 0, and `(re)` behind a line that is a
regular expression. Those of documents, of tests and of pictures are played here."""
import os
import pathlib
import re
import shutil
import subprocess

END = "== end of a command =="


def set_in(text):
    """The lines of a text that are set in by two spaces."""
    return [line[2:] for line in text.split("\n") if line.startswith("  ")]


def steps(lines):
    """The commands, each with the lines that are wanted below it."""
    found = []
    for line in lines:
        if line.startswith("$ "):
            found.append([line[2:], []])
        elif line.startswith("> ") and found and not found[-1][1]:
            found[-1][0] += f"\n{line[2:]}"
        elif found:
            found[-1][1].append(line)
    return found


def outputs(commands, bx, folder, head="", with_status=False, **env):
    """What each command writes, in lines; all run by one bash, in the folder `work`, and each sees the status of the
    one before. `head` comes first. What a shell that ends before writes last is one more."""
    folder = pathlib.Path(folder)
    for name in ("bin", "work"):
        (folder / name).mkdir()
    shutil.copy(bx, folder / "bin" / "bx")
    script = head + "".join(f"{command}\nstatus=$?; echo '{END}' $status; (exit $status)\n" for command in commands)
    (folder / "commands").write_text(script, encoding="utf-8")
    env = {**os.environ, "LC_ALL": "C", "PATH": f"{folder}/bin:{os.environ['PATH']}", **env}
    with subprocess.Popen(["bash", folder / "commands"], stdin=subprocess.DEVNULL, stdout=subprocess.PIPE,
                          stderr=subprocess.STDOUT, cwd=folder / "work", env=env) as shell:
        try:
            written = shell.communicate(timeout=3600)[0].decode(errors="backslashreplace")
        except BaseException:
            shell.terminate()  # what it traps puts devices and mounts away
            raise
    text = re.sub(r"[\0-\x08\x0b-\x1f\x7f]", lambda it: f"\\x{ord(it[0]):02x}", written)
    *parts, rest = re.split(f"{END} (\\d+)\n", text)
    given = [lines.removesuffix("\n").split("\n") if lines else [] for lines in parts[::2]]
    given = [lines + [f"[{status}]"] * (with_status and status != "0") for lines, status in zip(given, parts[1::2])]
    return given + [rest.splitlines()] * bool(rest)


def differences(tour, given):
    """Each command that wrote something else, as text."""
    for number, (command, wanted) in enumerate(tour):
        got = given[number] if number < len(given) else ["(not run)"]
        is_so = [line == it or it.endswith(" (re)") and re.fullmatch(it.removesuffix(" (re)"), line)
                 for line, it in zip(got, wanted)]
        if len(got) != len(wanted) or not all(is_so):
            yield "\n".join([f"$ {command}", "wanted:", *wanted, "got:", *got])
