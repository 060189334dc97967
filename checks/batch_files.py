#!/usr/bin/env python3
"""What lp_relay puts into batches: files of a few lines, or of a few bytes, each.

  checks/batch_files.py RELAY [SEED]

RELAY: a built lp_relay. What each batch must hold is worked out here, from a list of pieces with what comes of each: so many of the next
lines as fit, and at least one. All batches, one after another, must be what the same relay writes without them, with the same faults and
the same status. Then come names that are there already, folders and devices that fail, and words that are refused.
"""

import os
import random
import resource
import shutil
import signal
import subprocess
import tempfile
import time
from pathlib import Path

import relay_runs
from relay_runs import Wrong, same

NAME = "b-%03d.lp"
FAULT = "A generic parsing error occurred: TakeWhile1"
UNWRITTEN = "lp_relay: cannot write the output: "
UNNAMED = "lp_relay: batches need an --output with one %0Nd in the name of the file, as lines-%06d.lp\n"
STRING = 'm s="a\nb"'  # One line, where strings may hold newlines.
LONG = 'm s="' + "x" * 2000 + '"'


class Relay:
    """Runs of the program in a folder of their own."""

    def __init__(self, relay, top):
        self.relay, self.program = relay, relay.command[0]
        self.top = Path(top)
        self.room = self.top / "room"

    def clear(self):
        """An empty folder."""
        shutil.rmtree(self.room, ignore_errors=True)
        self.room.mkdir()

    def run(self, words, text=b"", **more):
        """The status, the output and the faults of a run with these words."""
        given = self.relay.run(words, text, None, cwd=self.room, **more)
        return given.status, given.out, given.err.decode()

    def held(self):
        """What each file of the folder holds, by its name."""
        return {path.name: path.read_bytes() for path in sorted(self.room.iterdir()) if path.is_file()}

    def placed(self):
        """The same of the files in their places, and what the files beside these hold."""
        held = self.held()
        return ({name: text for name, text in held.items() if ".lp_relay-" not in name}, [text for name, text in held.items() if ".lp_relay-" in name])


def batches(lines, most_lines, most_bytes):
    """The batches of these lines, each with its newline."""
    found, count = [], 0
    for line in lines:
        size = len(found[-1]) + len(line) if found else 0
        if not found or most_lines and count == most_lines or most_bytes and size > most_bytes:
            found.append(b"")
            count = 0
        found[-1] += line
        count += 1
    return found


def files(found, name=NAME):
    """These batches by the names of their files."""
    return {name % (number + 1): batch for number, batch in enumerate(found)}


def limits(most_lines, most_bytes):
    """The options that ask for batches of so many lines and bytes."""
    return (["--batch-lines", str(most_lines)] if most_lines else []) + (["--batch-bytes", str(most_bytes)] if most_bytes else [])


def cut(relay, what, words, text, lines, most_lines, most_bytes):
    """Compares the batches of a text with what its lines give, and the run with one without batches."""
    relay.clear()
    plain = relay.run(words, text)
    same(f"{what}: the output", plain[1], b"".join(lines))
    has = relay.run([*words, *limits(most_lines, most_bytes), "-o", NAME], text)
    what = f"{what}, of {most_lines} lines and {most_bytes} bytes"
    same(f"{what}: status, output and faults", has, (plain[0], b"", plain[2]))
    same(f"{what}: the files", relay.held(), files(batches(lines, most_lines, most_bytes)))


def sizes(relay):
    """Batches at the sizes where one ends."""
    line, other = b"m a=1i\n", b"m a=123i\n"
    for count in (0, 1, 2, 3, 4, 5, 9, 10, 11):
        for most_lines, most_bytes in ((1, 0), (2, 0), (3, 0), (5, 0), (10, 0), (0, 1), (0, 6), (0, 7), (0, 8), (0, 14), (0, 20), (0, 21), (0, 22), (2, 21), (3, 15)):
            cut(relay, f"{count} lines", [], line * count, [line] * count, most_lines, most_bytes)
    for most_bytes in (8, 9, 10, 15, 16, 17, 25, 26):
        cut(relay, "a longer line", [], line + other + line + other, [line, other, line, other], 0, most_bytes)
    for text in (b"", b"\n\n", b"# c\n", b"x\n", b"x\nx"):
        cut(relay, f"no line of {text}", [], text, [], 1, 1)
    cut(relay, "no newline at the end", [], b"m a=1i\nm a=1i", [line] * 2, 1, 0)
    many = [b"m a=%di\n" % number for number in range(30000)]
    for most_lines, most_bytes in ((5000, 0), (7000, 65536), (0, 65536), (0, 100000), (15000, 0), (30000, 0), (30001, 1000000)):
        cut(relay, "30,000 lines", [], b"".join(many), many, most_lines, most_bytes)
    relay.clear()
    same("1,200 batches", relay.run(["--batch-lines", "1", "-o", "b-%04d.lp"], b"".join(many[:1200])), (0, b"", ""))
    same("1,200 batches: the files", relay.held(), files(many[:1200], "b-%04d.lp"))
    long = [LONG.encode() + b"\n"] * 200
    for most_lines, most_bytes in ((1, 0), (33, 0), (0, 65536), (0, 2000), (7, 10000)):
        cut(relay, "long lines", [], b"".join(long), long, most_lines, most_bytes)


def pieces(chance, dialect, form):
    """Some pieces, each with what goes out of it, if something does."""
    is_by_newline = dialect == "--newline-delimited"
    # A backslash at its end takes in the next line, also of a comment if no dialect is named. By --verbatim all of that goes out.
    joined = "# c\\\nm b=1i"
    table = [("m a=1i", "m a=1i"), ("m a=12345i 7", "m a=12345i 7"), ("x", None), ("", None), ("# c", None), (LONG, LONG)]
    table += [("m,t=a\\ b v=2", "m,t=a\\ b v=2"), ("m  a=064i", {"--verbatim": "m  a=064i", "--canonical": None, "": "m a=64i"}[form])]
    table += [(joined, joined if not dialect and form == "--verbatim" else "m b=1i")]
    if not is_by_newline:
        table += [(STRING, STRING), ('m s="\n\n",t="\n"', 'm s="\n\n",t="\n"')]
    chosen = [chance.choice(table) for _ in range(chance.randrange(80))]
    text = "".join(f"{piece}\n" for piece, _ in chosen).encode()
    return text, [f"{line}\n".encode() for _, line in chosen if line is not None]


def random_ones(relay, seed):
    """Batches of random pieces, in each dialect and form, by random limits."""
    chance = random.Random(seed)
    for dialect in ("", "--strict", "--newline-delimited"):
        for form in ("", "--verbatim", "--canonical"):
            for _ in range(12):
                text, lines = pieces(chance, dialect, form)
                words = [word for word in (dialect, form) if word] + chance.choice(([], ["--faults", "json"], ["--summary"], ["--lines"]))
                cut(relay, " ".join(words), words, text, lines, *chance.choice(((1, 0), (2, 0), (7, 0), (0, 10), (0, 40), (0, 3000), (3, 25))))


def several(relay):
    """Batches of several inputs, with refused pieces, and of a range."""
    relay.clear()
    (relay.room / "one").write_bytes(b"m a=1i\nx\nm a=2i")
    (relay.room / "two").write_bytes(b"m a=3i\ny\n")
    has = relay.run(["--batch-lines", "2", "-o", NAME, "--refused", "refused", "one", "two"])
    same("two inputs", has, (1, b"", f"one: item 2: {FAULT}\ntwo: item 5: {FAULT}\n"))
    held = relay.held()
    same("two inputs: the files", {name: held.pop(name) for name in ("one", "two") if name in held} and held,
         {"refused": b"x\ny\n", **files([b"m a=1i\nm a=2i\n", b"m a=3i\n"])})
    relay.clear()
    (relay.room / "one").write_bytes(b"m a=1i\nm a=2i\nm a=3i\n")
    (relay.room / "d").mkdir()
    same("a range", relay.run(["--batch-lines", "1", "-o", "d/x%01d", "--range", "7..", "one"]), (0, b"", ""))
    same("a range: the files", {path.name: path.read_bytes() for path in (relay.room / "d").iterdir()}, {"x1": b"m a=2i\n", "x2": b"m a=3i\n"})


def there(relay):
    """A file that is there already: nothing is read, and nothing changes."""
    for name, make in (("b-001.lp", Path.touch), ("b-007.lp", Path.touch), ("b-999.lp", Path.mkdir), ("b-002.lp", lambda path: path.symlink_to("none"))):
        relay.clear()
        make(relay.room / name)
        for folder in ("", "./", f"{relay.room}/"):
            said = f"lp_relay: a batch is there already: {name}\n"
            with tempfile.TemporaryFile() as text:
                text.write(b"m a=1i\n")
                text.seek(0)
                done = subprocess.run([relay.program, "--batch-lines", "1", "-o", folder + NAME], stdin=text, capture_output=True, cwd=relay.room, check=False)
                same(f"{name} is there", (done.returncode, done.stdout, done.stderr.decode()), (2, b"", said))
                same(f"{name} is there: what was read", os.lseek(text.fileno(), 0, os.SEEK_CUR), 0)
        same(f"{name} is there: the names", os.listdir(relay.room), [name])
    relay.clear()
    others = ("b-01.lp", "b-0001.lp", "b-001.lpx", "xb-001.lp", "b-00a.lp", "b-.lp", NAME)
    for name in others:
        (relay.room / name).touch()
    (relay.room / os.fsdecode(b"b-\xff01.lp")).touch()
    same("names that are none of a batch", relay.run(["--batch-lines", "1", "-o", NAME], b"m a=1i\n"), (0, b"", ""))
    same("names that are none of a batch: the batch", (relay.room / "b-001.lp").read_bytes(), b"m a=1i\n")
    for first, then in (("b-1.lp", "old"), ("old", "b-1.lp")):  # Of many names, the batch can be any.
        relay.clear()
        (relay.room / first).touch()
        for number in range(1500):
            (relay.room / f"other-{number}").touch()
        (relay.room / then).touch()
        same("a batch among 1,500 other names", relay.run(["--batch-lines", "1", "-o", "b-%01d.lp"], b"m a=1i\n"), (2, b"", "lp_relay: a batch is there already: b-1.lp\n"))
    relay.clear()
    (relay.room / "b-001.lp").write_bytes(b"m a=1i\n")
    same("an input that is a batch", relay.run(["--batch-lines", "1", "-o", NAME, "b-001.lp"])[0], 2)
    relay.clear()
    for name in ("b-002.lp", "./b-002.lp"):
        same("a file of --refused that is named as a batch", relay.run(["--batch-lines", "1", "-o", NAME, "--refused", name]),
             (2, b"", f"lp_relay: the file of --refused is named as a batch: {name}\n"))
    same("a file of --refused: the names", os.listdir(relay.room), [])


def words(relay):
    """Words that are refused, or have a message."""
    relay.clear()
    for option in ("--batch-lines", "--batch-bytes"):
        for name in ("b", "b-%06", "b-%d", "b-%6d", "b-%0d", "b-%00d", "b-%010d", "b-%06x", "b-%06d-%06d", "%-%06d", "b-%06d%", "%06d/b", "a%/b-%06d", "b-%%06d", "b-0%6d", "%06d/"):
            same(f"the name {name}", relay.run([option, "1", "-o", name], b"m a=1i\n"), (2, b"", UNNAMED))
        same("no name", relay.run([option, "1"], b"m a=1i\n"), (2, b"", UNNAMED))
        for bad in (["--check", option, "1", "-o", NAME], [option, "0", "-o", NAME], [option, "-o", NAME], [option, "1", option, "1", "-o", NAME],
                    [option, "-1", "-o", NAME], [option, "1", "--cut", "2"], ["--check", option, "1"], [option, "1", "-o", NAME, "--check"]):
            status, _, said = relay.run(bad, b"m a=1i\n")
            same(f"the words {bad}", (status, said.split("\n")[1:]), (2, ["try lp_relay --help", ""]))
    same("refused words: the names", os.listdir(relay.room), [])
    for name in ("%01d", "a%09db", ".%02d", "b-%03d%".rstrip("%")):
        relay.clear()
        same(f"the name {name}", relay.run(["--batch-bytes", "1", "-o", name], b"m a=1i\nm a=2i\n"), (0, b"", ""))
        same(f"the name {name}: the files", relay.held(), files([b"m a=1i\n", b"m a=2i\n"], name))


def examples(relay):
    """The names that the documents show."""
    line = b"m a=1i\n"
    relay.clear()
    (relay.room / "a").mkdir()
    same("the first example", relay.run(["--batch-lines", "5000", "--output", "lines-%06d.lp"], line), (0, b"", ""))
    same("the first example: the file", relay.held(), {"lines-000001.lp": line})
    same("the second example", relay.run(["--batch-bytes", "1000000", "-o", "a/b-%06d.lp"], line), (0, b"", ""))
    same("the second example: the file", (relay.room / "a/b-000001.lp").read_bytes(), line)


def failures(relay):
    """Runs that fail: what is in its place stays, whole, and nothing else is there."""
    line = b"m a=1i\n"
    asked = ["--batch-lines", "2", "-o", NAME]
    none = "No such file or directory (os error 2)"
    relay.clear()
    same("a folder that is not there", relay.run(["--batch-lines", "2", "-o", f"none/{NAME}"], line), (2, b"", f"{UNWRITTEN}none/{NAME % 1}: {none}\n"))
    (relay.room / "one").write_bytes(line * 5)
    same("an input that is not there", relay.run([*asked, "one", "none"]), (2, b"", f"lp_relay: cannot read the input: none: {none}\n"))
    same("an input that is not there: the files", relay.held(), {"one": line * 5, **files([line * 2] * 2)})
    relay.clear()
    same("refused pieces that cannot be written", relay.run([*asked, "--refused", "none/x"], line), (2, b"", f"{UNWRITTEN}none/x: {none}\n"))
    same("refused pieces that cannot be written: the files", relay.held(), {})

    def little():
        signal.signal(signal.SIGXFSZ, signal.SIG_IGN)
        resource.setrlimit(resource.RLIMIT_FSIZE, (1024, 1024))

    relay.clear()
    has = relay.run(asked, line * 5 + LONG.encode() + b"\n" + line, preexec_fn=little)
    same("a device that is full", has, (2, b"", f"{UNWRITTEN}{NAME % 3}: File too large (os error 27)\n"))
    # The lines of a pipe cannot be read again, so what there is of the next batch stays beside its place.
    same("a device that is full: the files", relay.placed(), (files([line * 2] * 2), [(line + LONG.encode())[:1024]]))
    relay.clear()
    (relay.room / "one").write_bytes(line * 5 + LONG.encode() + b"\n" + line)
    error = '{"run_error":{"kind":"write","file":"%s","text":"cannot write the output: %s: File too large (os error 27)"}}\n'
    has = relay.run([*asked, "--faults", "json", "one"], preexec_fn=little)
    same("a device that is full, and a file", has, (2, b"", error % (NAME % 3, NAME % 3)))
    same("a device that is full, and a file: the names", sorted(relay.held()), ["b-001.lp", "b-002.lp", "one"])
    relay.clear()
    same("numbers that are used up", relay.run(["--batch-lines", "1", "-o", "%01d"], line * 10),
         (2, b"", f"{UNWRITTEN}%01d: the numbers of the batches are used up\n"))
    same("numbers that are used up: the files", relay.held(), files([line] * 9, "%01d"))
    relay.clear()
    same("as many as there are numbers", relay.run(["--batch-lines", "1", "-o", "%01d"], line * 9), (0, b"", ""))
    if os.getuid():
        relay.clear()
        relay.room.chmod(0o555)
        same("a folder that cannot be written to", relay.run(asked, line), (2, b"", f"{UNWRITTEN}{NAME % 1}: Permission denied (os error 13)\n"))
        relay.room.chmod(0o755)
    relay.clear()
    reader, writer = os.pipe()
    os.close(reader)
    done = subprocess.run([relay.program, *asked], input=line * 2 + b"x\n" + line, stdout=subprocess.PIPE, stderr=writer, cwd=relay.room, check=False)
    os.close(writer)
    same("nothing reads the faults", done.returncode, 141)
    same("nothing reads the faults: the files", relay.placed()[0], files([line * 2]))


def wait_for(what, is_so):
    """Waits until this is so."""
    for _ in range(400):
        if is_so():
            return
        time.sleep(0.05)
    raise Wrong(f"{what}: it does not come")


def pauses(relay):
    """A batch is in its place once it is full, while input may come; and one that is there by then is not written over."""
    relay.clear()
    line = b"m a=1i\n"
    first, second = (relay.room / (NAME % number) for number in (1, 2))
    with subprocess.Popen([relay.program, "--batch-lines", "2", "-o", NAME], stdin=subprocess.PIPE, stderr=subprocess.PIPE, cwd=relay.room) as process:
        process.stdin.write(line)
        process.stdin.flush()
        wait_for("a file beside its place", lambda: [path for path in relay.room.iterdir() if path.stat().st_size == len(line)])
        same("another run with these names", relay.run(["--batch-lines", "1", "-o", NAME], line), (2, b"", f"{UNWRITTEN}{NAME % 1}: another run is writing it\n"))
        same("a batch that is not full", first.exists(), False)
        process.stdin.write(line)
        process.stdin.flush()
        wait_for("a batch that is full", first.exists)
        same("a batch that is full", first.read_bytes(), line * 2)
        second.write_bytes(b"old\n")
        said = process.communicate(line * 2)[1].decode()
    same("a batch that is there by then", (process.returncode, said), (2, f"{UNWRITTEN}{NAME % 2}: File exists (os error 17)\n"))
    same("a batch that is there by then: the files", relay.placed(), ({first.name: line * 2, second.name: b"old\n"}, [line * 2]))


def synced(relay):
    """All of a batch is on the device before it comes to its place, and that it is there after it. The first two calls see that a link can be made."""
    trace = relay.top / "trace"
    relay.clear()
    if not shutil.which("strace") or subprocess.run(["strace", "-o", trace, "true"], capture_output=True, check=False).returncode:
        subprocess.run(["bash", "-c", '. "$0"; left_out "batches on the device" "there is no strace, or it may not watch, for checks/batch_files.py"',
                        Path(__file__).with_name("left_out.sh")], check=True)
        return
    subprocess.run(["strace", "-f", "-e", "trace=fsync,link,unlink,rename", "-o", trace, relay.program, "--batch-lines", "1", "-o", NAME],
                   input=b"m a=1i\nm a=2i\n", cwd=relay.room, check=True)
    calls = [call for call in trace.read_text().replace("(", " ").split() if call in ("fsync", "link", "unlink", "rename")]
    same("what the system is asked for", calls, ["link", "unlink"] + ["fsync", "link", "unlink", "fsync"] * 2)


def compare(program, seed=1):
    with relay_runs.folder() as top:
        relay = Relay(program, top)
        sizes(relay)
        random_ones(relay, int(seed))
        for check in (several, there, words, examples, failures, pauses, synced):
            check(relay)
    return f"lp_relay puts lines into batches as it should, in {program.runs} runs"


if __name__ == "__main__":
    relay_runs.end_by(compare, __doc__, 1)
