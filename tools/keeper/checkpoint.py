"""A checkpoint: what it holds, its text, the folder in which it stands, and whether program and script go with it."""
import fcntl
import hashlib
import os
import re
import subprocess
import time
from collections import namedtuple
from contextlib import suppress
from pathlib import Path

from keeper import Busy, Fault, log, require

FORMAT, ENDS = 2, 1024
NAME = re.compile(r"checkpoint-(\d{8,})\.bq\Z")
LOCKS = re.compile(rb"^[ \t]*(?:UN)?LOCK\b(?![ \t]*,)", re.MULTILINE | re.IGNORECASE)
HEAD, HEADS = re.compile(rb"-- (\w+) (.*)\n"), re.compile(rb"(?:-- .*\n)*")
# the last line, which had more to say in the oldest form
WHOLE = re.compile(rb"^-- whole (?:rows (\d+) lines (\d+) bytes (\d+) output (\d+) lines of this file|lines)"
                   rb" (\d+) sum ([0-9a-f]{64})\n\Z", re.MULTILINE)
# How far the reading of a file is: which file, by device, inode and a sum of bytes that were read, and the byte.
Mark = namedtuple("Mark", "device inode offset sum")
# How far a session is: rows taken, lines and bytes of the input, bytes of replies, changes by the operator; the file,
# and the producer's own mark; and how many bytes this run has sent, which stands in no file.
Place = namedtuple("Place", "rows lines bytes output changes mark token sent", defaults=(0, 0, 0, 0, 0, None, b"", 0))
# What a session goes on from; number 0 where nothing is. The plan has a line `reply ..` for each reply to the CREATE
# lines, and for each query a line `plan NAME SUM`, a sum of EXPLAIN. The oldest form has no plan, program and sums.
Checkpoint = namedtuple("Checkpoint", "body place plan program script output_sum number",
                        defaults=(b"", Place(), None, b"", b"", b"", 0))


def sum_of(text):
    return hashlib.sha256(text).hexdigest().encode()


def sum_at(fd, offset):
    """A sum of the first and the last bytes of a file before an offset, by which it is known again."""
    near = min(offset, ENDS)
    return sum_of(os.pread(fd, near, 0) + os.pread(fd, near, offset - near))


def creates_of(body):
    """The CREATE lines, which come first."""
    return re.match(rb"(?:CREATE .*\n)*", body)[0]


def written(one):
    """The text of the file: the reply to CHECKPOINT between comment lines, the last with a sum that shows changes."""
    place, head = one.place, [b"keep %d %s" % (FORMAT, one.program), b"script " + one.script, *one.plan]
    head.append(b"place rows %d lines %d bytes %d output %d changes %d" % place[:5])
    head += [b"file device %d inode %d offset %d sum %s" % place.mark] if place.mark else []
    head += [key + value for key, value in ((b"output ", one.output_sum), (b"token ", place.token)) if value]
    front = b"".join(b"-- %s\n" % it for it in head) + one.body
    return front + b"-- whole lines %d sum %s\n" % (front.count(b"\n"), sum_of(front))


def read(text, number):
    """The checkpoint that a file holds, or None where the file is not whole."""
    front, *last = WHOLE.split(text)
    if last[4:6] != [b"%d" % front.count(b"\n"), sum_of(front)]:
        return None
    if last[0]:
        return Checkpoint(front, Place(*map(int, last[:4])), number=number)
    heads = HEADS.match(front)[0]
    values = HEAD.findall(heads)
    known, (form, program) = dict(values), values[0][1].split(b" ", 1)
    require(values[0][0] == b"keep" and int(form) <= FORMAT, f"checkpoint {number} is a later keeper's: use that")
    file = known.get(b"file", b"").split()
    mark = Mark(*map(int, file[1:6:2]), file[7]) if file else None
    place = Place(*map(int, known[b"place"].split()[1::2]), mark, known.get(b"token", b""))
    plan = tuple(b"%s %s" % it for it in values if it[0] in (b"reply", b"plan"))
    return Checkpoint(front[len(heads):], place, plan, program, known[b"script"], known.get(b"output", b""), number)


def locked(path, way=os.O_RDONLY | os.O_DIRECTORY):
    """Opens what this run alone may have until it ends; who only looks has it for a moment."""
    handle = os.open(path, way, 0o644)
    for _ in range(20):
        with suppress(BlockingIOError):
            fcntl.flock(handle, fcntl.LOCK_EX | fcntl.LOCK_NB)
            return handle
        time.sleep(0.01)
    raise Busy(f"another run has {path}")


def path_of(folder, number):
    return Path(folder, f"checkpoint-{number:08}.bq")


def numbers_in(folder):
    """The numbers of the checkpoints of a folder, the newest first."""
    return sorted((int(found[1]) for found in map(NAME.match, os.listdir(folder)) if found), reverse=True)


def whole_in(folder):
    """The whole checkpoints of a folder, the newest first."""
    for number in numbers_in(folder):
        if found := read(path_of(folder, number).read_bytes(), number):
            yield found
        else:
            log.warning("%s is not whole, and is passed by", path_of(folder, number))


def choose(folder, acked=None, begins=None):
    """The newest checkpoint, of those whose replies are acknowledged and that stand at byte `begins`, where given."""
    for one in whole_in(folder):
        if (acked is None or one.place.output <= acked) and begins in (None, one.place.bytes):
            return one
    is_new = not (acked or begins or numbers_in(folder))
    require(is_new, f"{folder} has no whole checkpoint for this --from and --ack: ask --where, or begin anew elsewhere")
    return Checkpoint()


def save(path, text, folder=None):
    """Writes a file, which is seen whole or not at all; with a handle of its folder it is on the disk too."""
    try:
        with open(f"{path}.new", "wb") as file:
            file.write(text)
            file.flush()
            if folder:
                os.fsync(file.fileno())
        os.rename(f"{path}.new", path)
        if folder:
            os.fsync(folder)
    except OSError as fault:
        Path(f"{path}.new").unlink(missing_ok=True)
        raise OSError(fault.errno, fault.strerror, path) from None


def asked(program, text, word="run"):
    """What a bq of its own says to a script, and to nothing else; one that is killed is asked again."""
    for _ in range(5):
        ran = subprocess.run([program, word], input=text, stdout=subprocess.PIPE, check=False)
        if ran.returncode == 0:
            return ran.stdout
    raise Fault(f"{program} {word} ended with {ran.returncode}")


def plan_of(program, creates):
    """What a fresh session answers to CREATE lines, and how it would keep each query, as lines of a checkpoint."""
    names, count = re.findall(rb"QUERY (\w+) AS ", creates), creates.count(b"\n")
    *replies, rest = asked(program, creates + b"".join(b"EXPLAIN %s\n" % it for it in names)).split(b"\n", count)
    plan = [b"reply " + it for it in replies]
    for name in names:
        text, end, rest = rest.partition(b"\nend %s\n" % name)
        plan.append(b"plan %s %s" % (name, sum_of(text + end)))
    return tuple(plan)


def with_program(program, kept):
    """A checkpoint with the version of a program. As it numbers cells, that keeps each query as the one before did."""
    version = asked(program, b"", "--version").split(b"\n")[0]
    if kept.number and kept.plan is None:
        log.warning("an older keeper wrote the checkpoint: whether this program keeps each query alike is not known")
    elif kept.number and kept.plan != (plan := plan_of(program, creates_of(kept.body))):
        names = [it.split()[1].decode() for it in kept.plan if it.startswith(b"plan ") and it not in plan]
        raise Fault(f"{program} ({version.decode()}) keeps {names[0] if names else 'its streams'} otherwise than"
                    f" the one before ({kept.program.decode()}) did: go on with that, or begin in another folder")
    elif kept.number and kept.program != version:
        log.info("the program was %s and is %s; it keeps each query as before", kept.program.decode(), version.decode())
    return kept._replace(program=version)


def with_script(options, kept):
    """A checkpoint with the sum of the script that says the same, and where none is the script itself to go on from."""
    # a session that goes on does not need it
    if kept.number and not os.path.exists(options.script):
        return kept
    text = Path(options.script).read_bytes().rstrip(b"\n") + b"\n"
    if not kept.number:
        require(not LOCKS.search(text), f"LOCK and UNLOCK are the keeper's own: leave them out of {options.script}")
        kept = kept._replace(body=text)
    elif kept.script not in (b"", sum_of(text)):
        # CHECKPOINT says the statements of each in the same words
        said = asked(options.program, text + b"LOCK 1\nUNLOCK 1\nCHECKPOINT\n").rpartition(b"ok unlock\n")[2]
        said, live = (set(creates_of(it).decode().splitlines()) for it in (said, kept.body))
        if said != live:
            more, gone = ("; ".join(sorted(it)) or "nothing" for it in (said - live, live - said))
            log.warning("%s was changed, and is not read where a checkpoint stands. It alone has: %s. The session alone"
                        " has: %s. Send CREATE and DROP lines by --change", options.script, more, gone)
            return kept
    return kept._replace(script=sum_of(text))
