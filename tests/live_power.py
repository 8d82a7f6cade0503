#!/usr/bin/env python3
"""Lives of `ssign-keys live` on made-up disks: the power goes at each step, the disk is full, octets and states are changed.

    live_power.py SSIGN [all]

Wanted of each: one session for each boot, joined; nothing disputed; no number twice; each confirmed message listed; status 0
up to the counters that were kept. With `all` each step is tried in each way; else each step in some of them. The last line
is `live_power: N passed, M failed`.
"""
import collections
import os
import random
import sys

import live_disks
from live_disks import STATE, OUT, MadeUpDisk, Review, Signer, WAYS, log_of, message

from ssign_keys import live_log, live_state
from ssign_keys.live_engine import split_frames
from ssign_keys.live_sure import is_sure

PROGRAM = sys.argv[1]
IS_ALL = sys.argv[2:] == ["all"]
passed = failed = 0
told = 0


def tell(what, faults):
    """One check."""
    global passed, failed, told
    if not faults:
        passed += 1
        return
    failed += 1
    told += 1
    if told <= 20:
        print(f"live_power: {what}: FAILED")
        for it in faults[:6]:
            print(f"    {it}")


def faults_of(review, wanted, sessions, is_once=False):
    """What is wrong with a report on a log of these messages."""
    faults = list(review.twice)
    if review.status != 0 or review.findings:
        faults.append(f"status {review.status}, {review.findings[:4]}")
    if any(it[5] != "joined" for it in review.sessions):
        faults.append(f"a session isn't joined: {review.sessions}")
    if not 1 <= len(review.sessions) <= sessions:
        faults.append(f"{len(review.sessions)} sessions, and not 1 to {sessions}")
    missing = [it for it in wanted if review.listed[it] < 1]
    if missing:
        faults.append(f"not listed: {missing[:3]}")
    twice = [it for it in wanted if review.listed[it] > 1]
    if twice and is_once:
        faults.append(f"listed twice: {twice[:3]}")
    return faults


def power():
    """The power goes before each step, and again while the next start recovers."""
    wanted = [message(n) for n in range(30)]
    for is_far, keeps, confirms in ((False, False, True), (False, True, True), (True, False, True), (True, True, True),
                                    (False, True, False), (True, True, False)):
        kind = {"is_far": is_far, "keeps_session": keeps, "confirms": confirms}
        steps = whole(wanted, kind)
        runs = 0
        for cut_at in range(1, steps + 1):
            ways = [(way, names) for way in WAYS for names in (False, True)]
            if not IS_ALL:
                ways = [ways[(cut_at + it + is_far + 2 * keeps + 5 * confirms) % len(ways)] for it in (0, 3)]
            for way, names in ways:
                for second in (0, 1 + (cut_at * 7) % 11):
                    runs += 1
                    cut(wanted, kind, cut_at, way, names, second)
        print(f"live_power: the power goes, {kind}: {steps} steps, {runs} runs")


def whole(wanted, kind):
    """A life that nothing ends. Gives how many steps it has."""
    signer = Signer(PROGRAM, **kind)
    disk = MadeUpDisk({})
    signer.run(disk, wanted)
    faults = faults_of(Review(PROGRAM, disk.image()), wanted, 1, True)
    # whatever the disk loses then: all is there, and the counters are those of the state
    left = disk.after_the_cut("none", False, 0)
    saved = live_state.newest(lambda name: left.get((STATE, name)))
    if left.get((STATE, f"counters-{saved.session.rsid}")) != saved.session.ends.file(saved.session.session):
        faults.append("the counters aren't on the disk")
    tell("a life that nothing ends", faults)
    return disk.steps


def cut(wanted, kind, cut_at, way, names, second):
    """One life that is cut off, perhaps one more, and one that goes to its end."""
    keeps = kind["keeps_session"]
    what = f"cut at {cut_at}, {way}{' with names' if names else ''}, {kind}, second at {second}"
    signer = Signer(PROGRAM, **kind)
    disk = MadeUpDisk({}, cut_at)
    signer.run(disk, wanted)
    image = disk.after_the_cut(way, names, cut_at)
    thrown_away = []
    if second:
        signer.boot += 1
        disk = MadeUpDisk(image, second)
        signer.run(disk, wanted)
        before, image = image, disk.after_the_cut(WAYS[(cut_at + second) % len(WAYS)], names, cut_at + second)
        thrown_away += gone(before, image)
    signer.boot += 1
    disk = MadeUpDisk(image)
    try:
        signer.run(disk, wanted)
    except Exception as fault:
        tell(what, [f"{type(fault).__name__}: {fault}"])
        return
    faults = thrown_away + gone(image, disk.image()) + faults_of(Review(PROGRAM, disk.image()), wanted, 1 if keeps else 3)
    # this boot begins a session, unless one that has begun is kept
    begun = len(sessions_of(disk.image()) - sessions_of(image))
    if begun != (0 if keeps and sessions_of(image) else 1):
        faults.append(f"{begun} sessions were begun")
    tell(what, faults)


def gone(before, after):
    """What a start took away from the output that was on the disk, and didn't set aside."""
    faults = []
    for (where, name), octets in before.items():
        left = after.get((where, name), b"")
        same = len(os.path.commonprefix([octets, left]))
        kept = [(int(it.rpartition("-")[2]), text) for (folder, it), text in after.items()
                if folder == STATE and it.startswith(f"cut-{name}-")]
        if where == OUT and same < len(octets) and not any(at <= same and octets[at:] in text for at, text in kept):
            faults.append(f"{len(octets) - same} octets of {name} from {same} on were thrown away")
    return faults


def sessions_of(image):
    """The RSIDs of the sessions of which something is signed."""
    found = {int(name.split("-")[-2]) for where, name in image if where == OUT}
    try:
        saved = live_state.newest(lambda name: image.get((STATE, name)))
    except live_state.Damaged:
        return found
    return found if saved is None or not saved.session.certificates else found | {int(saved.session.rsid)}


def aside():
    """The power goes at each step, without wraps: what can't be signed is stored, and a block is set aside."""
    block = b'<13>1 - h a p - [ssign VER="0121"] block %d'
    wanted = [block % n if n % 5 == 2 else message(n) for n in range(16)]
    whole_life = MadeUpDisk({})
    Signer(PROGRAM, wraps=False).run(whole_life, wanted)
    for cut_at in range(1, whole_life.steps + 1):
        signer = Signer(PROGRAM, wraps=False, keeps_session=True)
        disk = MadeUpDisk({}, cut_at)
        signer.run(disk, wanted)
        image = disk.after_the_cut("none", False, cut_at)
        confirmed = list(signer.confirmed)
        found = split_frames(log_of(image))[0]
        for (where, name), octets in image.items():
            found += split_frames(octets)[0] if where == STATE and name.startswith("aside-") else []
        faults = [f"confirmed, and not on the disk: {it}" for it in confirmed if it not in found]
        signer.boot += 1
        disk = MadeUpDisk(image)
        signer.run(disk, wanted)
        review = Review(PROGRAM, disk.image())
        faults += [it for it in review.findings if not it.startswith("unlisted ")]
        faults += [f"not listed: {it}" for it in wanted if is_sure(it) and not review.listed[it]]
        tell(f"without wraps, cut at {cut_at}", faults)
    print(f"live_power: without wraps: {whole_life.steps} runs")


def limits():
    """A file ends before it has more messages than a review reads."""
    most, live_log.MOST_IN_FILE = live_log.MOST_IN_FILE, 20
    size, live_disks.ROTATE_SIZE = live_disks.ROTATE_SIZE, 0
    try:
        wanted = [message(n) for n in range(80)]
        disk = MadeUpDisk({})
        Signer(PROGRAM).run(disk, wanted)
    finally:
        live_log.MOST_IN_FILE, live_disks.ROTATE_SIZE = most, size
    faults = faults_of(Review(PROGRAM, disk.image()), wanted, 1, True)
    counts = [len(split_frames(octets)[0]) for (where, _), octets in disk.image().items() if where == OUT]
    if len(counts) < 3 or max(counts) > 30:
        faults.append(f"files of {counts} messages")
    tell("a file ends by its messages", faults)


def full():
    """The disk is full at each write, and has room again at the fourth try."""
    wanted = [message(n) for n in range(30)]
    disk = MadeUpDisk({})
    Signer(PROGRAM).run(disk, wanted)
    runs = 0
    for at in disk.appends:
        signer = Signer(PROGRAM)
        disk = MadeUpDisk({}, full_at=at)
        signer.run(disk, wanted)
        runs += 1
        faults = faults_of(Review(PROGRAM, disk.image()), wanted, 1, True)
        if disk.full_left:
            faults.append("the disk was never full")
        tell(f"full at {at}", faults)
    print(f"live_power: the disk is full: {runs} runs")


def tampered():
    """Octets are taken away that were on the disk. Nothing is given twice, and what is gone is reported."""
    kinds = collections.Counter()
    cases = 1000 if IS_ALL else 120
    for seed in range(cases):
        rng = random.Random(seed)
        signer = Signer(PROGRAM, is_far=seed % 2 == 1, keeps_session=True)
        wanted = [message(n) for n in range(rng.randrange(3, 40))]
        disk = MadeUpDisk({}, rng.randrange(12, 90))
        signer.run(disk, wanted)
        image = disk.image()
        outs = sorted(it for it in image if it[0] == OUT)
        if not outs:
            continue
        gone = rng.randrange(len(image[outs[-1]]) + 1)
        if rng.random() < .2 and len(outs) > 1:
            del image[outs[-1]]
        else:
            image[outs[-1]] = image[outs[-1]][:gone]
        earlier, later = signer.confirmed, [b"<13>1 - gate app 9 - - later %d" % n for n in range(rng.randrange(20))]
        signer.confirmed = []
        disk = MadeUpDisk(image)
        signer.run(disk, later)
        review = Review(PROGRAM, disk.image())
        rows = [it.split(" ") for it in review.findings]
        faults = review.twice + [f"disputed: {it}" for it in rows if it[-1] == "disputed"]
        faults += [f"not listed once: {it}" for it in later if review.listed[it] != 1]
        faults += [f"not joined: {it}" for it in review.sessions if it[5] != "joined"]
        reported = sum(1 for it in rows if it[0] == "gap")
        reported += sum(int(it[-1]) - int(it[-2]) + 1 for it in rows if it[0] in ("hole", "tail"))
        missing = sum(1 for it in earlier if not review.listed[it])
        # one that had no number yet isn't known to the counters
        if missing - reported > live_disks.MESSAGES_IN_BLOCK + live_disks.IN_TRANSACTION:
            faults.append(f"{missing} missing, {reported} reported")
        kinds.update({it[0] for it in rows} or {"clean"})
        tell(f"octets taken away, seed {seed}", faults)
    print(f"live_power: octets taken away: {cases} cases, {dict(sorted(kinds.items()))}")


def refused(what, image, code, signer, is_new_refused=False):
    """One check: a start on this image is refused with a code, and changes nothing; --new-session begins another session."""
    faults = []
    disk = MadeUpDisk(image)
    try:
        signer.live(disk)
        faults.append("it was taken")
    except Exception as fault:
        if not str(fault).endswith(f"({code})"):
            faults.append(f"{type(fault).__name__}: {fault}")
    if disk.image() != image:
        faults.append("something was changed")
    if not is_new_refused:
        signer.arguments.new_session = True
        try:
            later = [b"<13>1 - gate app 9 - - later %d" % n for n in range(4)]
            signer.confirmed = []
            signer.seconds = 900
            disk = MadeUpDisk(image)
            signer.run(disk, later)
            review = Review(PROGRAM, disk.image())
            faults += [f"not listed once: {it}" for it in later if review.listed[it] != 1]
            rsids = [int(it[4]) for it in review.sessions]
            if len(rsids) != 2 or max(rsids) <= 1000:
                faults.append(f"RSIDs {rsids}")
        except Exception as fault:
            faults.append(f"with --new-session: {type(fault).__name__}: {fault}")
        signer.arguments.new_session = False
    tell(what, faults)


def moments(wanted, what):
    """What stands on the disk while the newest state is such a one, in the order of time."""
    found = []
    steps = MadeUpDisk({})
    Signer(PROGRAM).run(steps, wanted)
    for cut_at in range(1, steps.steps + 1):
        disk = MadeUpDisk({}, cut_at)
        Signer(PROGRAM).run(disk, wanted)
        saved = live_state.newest(lambda name: disk.image().get((STATE, name)))
        if saved is not None and what(saved):
            found.append(disk.image())
    return found


def states():
    """States that were cut, doubled, put back, or are of another key."""
    wanted = [message(n) for n in range(30)]
    images = []
    signer = Signer(PROGRAM)
    disk = MadeUpDisk({})
    for part in (8, 16, 30):
        signer.run(disk, wanted[:part])
        images.append(disk.image())
        disk = MadeUpDisk(images[-1])
    image = images[-1]
    files = [(STATE, it) for it in ("state-0", "state-1")]
    newest = max(files, key=lambda it: int(image[it].split(b" ")[4].split(b"\n")[0]))
    other = next(it for it in files if it != newest)
    turned = {newest: image[other], other: image[newest]}
    for what, changed, code in (
            ("both files of the state are cut", {it: image[it][:len(image[it]) // 2] for it in files}, "L2"),
            ("both files are empty", {it: b"" for it in files}, "L2"),
            ("the newest file is cut", {newest: image[newest][:200]}, "L4"),
            ("the newest file has one octet changed", {newest: image[newest].replace(b"groups one", b"groups two")}, "L4"),
            ("the older file stands in both", {newest: image[other]}, "L2"),
            ("the newest file stands in both", {other: image[newest]}, "L2"),
            ("the two files are turned round", turned, "L2"),
            ("the state of an earlier night", {it: images[1][it] for it in files}, "L4"),
            ("the state of an earlier file", {it: images[0][it] for it in files}, "L4"),
            ("the newest file is another kind of file", {newest: image[STATE, "counters-1000"]}, "L4")):
        refused(what, {**image, **changed}, code, Signer(PROGRAM))
    # the counters alone show it, where the output was put back too
    put_back = {**{it: octets for it, octets in images[0].items() if it[0] == OUT}, **{it: images[0][it] for it in files},
                (STATE, "counters-1000"): image[STATE, "counters-1000"]}
    refused("state and output of an earlier file, with the present counters", put_back, "L4", Signer(PROGRAM))
    for what, state in (("an earlier state, and nothing but a block shows it",
                         moments(wanted, lambda saved: saved.at and saved.file == 1)[0]),
                        ("the state before a file was begun, and nothing but the file shows it",
                         moments(wanted, lambda saved: saved.file == 1)[-1])):
        bare = {it: octets for it, octets in image.items() if it[0] == OUT}
        if "block" in what:
            bare = {it: octets for it, octets in bare.items() if it[1] == "signer-1000-000001.frames"}
        refused(what, {**bare, **{it: state[it] for it in files}}, "L4", Signer(PROGRAM))
    # two that went on from one state: the output of the one with the state of the other
    forks = []
    for letter in (b"a", b"b"):
        disk, signer = MadeUpDisk(images[0]), Signer(PROGRAM)
        signer.confirmed = wanted[:8]
        signer.run(disk, wanted[:8] + [b"<13>1 - gate app 1 - - fork %s %d" % (letter, n) for n in range(5)])
        forks.append(disk.image())
    fork = {**{it: octets for it, octets in forks[0].items() if it[0] == OUT}, **{it: forks[1][it] for it in files}}
    refused("the state of another signer that went on from the same one", fork, "L4", Signer(PROGRAM))
    signer = Signer(PROGRAM)
    signer.arguments.host = ["other"]
    refused("another HOSTNAME", image, "L3", signer)
    live_disks.Key.fingerprint = "cd" * 32
    refused("another key", image, "L3", Signer(PROGRAM))
    live_disks.Key.fingerprint = "ab" * 32
    doubled = {**image, newest: image[newest] * 2}
    signer = Signer(PROGRAM)
    signer.confirmed = list(wanted)
    disk = MadeUpDisk(doubled)
    more = wanted + [message(n) for n in range(100, 108)]
    signer.run(disk, more)
    tell("a file of the state is doubled in itself", faults_of(Review(PROGRAM, disk.image()), more, 1, True))
    lost_first = {files[1]: image[files[1]][:50]}
    disk = MadeUpDisk(lost_first)
    signer = Signer(PROGRAM)
    signer.run(disk, wanted)
    tell("the first save of all broke off", faults_of(Review(PROGRAM, disk.image()), wanted, 1, True))


def clocks():
    """The clock goes back from boot to boot, and the state is lost."""
    image, signer, wanted = {}, Signer(PROGRAM), []
    for boot, seconds in enumerate((2000, 1500, 1500, 10)):
        signer.boot, signer.seconds = boot, seconds
        wanted += [message(100 * boot + n) for n in range(4)]
        disk = MadeUpDisk(image)
        signer.run(disk, wanted)
        image = disk.image()
    review = Review(PROGRAM, image)
    faults = faults_of(review, wanted, 4, True)
    if [it[4] for it in review.sessions] != ["2000", "2001", "2002", "2003"]:
        faults.append(f"sessions {review.sessions}")
    tell("the clock goes back", faults)
    lost = {it: octets for it, octets in image.items() if it[0] == OUT}
    disk = MadeUpDisk(lost)
    signer.confirmed, later = [], [message(n) for n in range(900, 904)]
    signer.run(disk, later)
    review = Review(PROGRAM, disk.image())
    faults = faults_of(review, wanted + later, 5, True)
    if [it[4] for it in review.sessions] != ["2000", "2001", "2002", "2003", "2004"]:
        faults.append(f"sessions {review.sessions}")
    tell("the state is lost", faults)
    lost = {it: octets for it, octets in image.items() if it[0] == STATE and it[1].startswith("counters-")}
    disk = MadeUpDisk(lost)
    signer.confirmed = []
    signer.run(disk, later)
    review = Review(PROGRAM, disk.image())
    tell("the state and the output are lost, and the counters aren't",
         [] if [it[4] for it in review.sessions if it[5] == "joined"] == ["2004"] else [f"sessions {review.sessions}"])
    disk = MadeUpDisk({**lost, **{it: octets for it, octets in image.items() if it[0] == OUT}})
    signer.confirmed = []
    signer.run(disk, later)
    signer.seconds = 10000000000
    signer.boot += 1
    refused("no RSID is left", disk.image(), "L6", signer, is_new_refused=True)


def main():
    """Makes all checks."""
    for it in (power, aside, full, limits, tampered, states, clocks):
        it()
    print(f"live_power: ssign was asked {live_disks.KnownEngine.asked} times, and ran {len(live_disks.KnownEngine.answers)} times")
    print(f"live_power: {passed} passed, {failed} failed")
    return 1 if failed else 0


if __name__ == "__main__":
    sys.exit(main())
