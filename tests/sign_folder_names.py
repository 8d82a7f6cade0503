#!/usr/bin/env python3
"""Which log is which one that was signed, where names are given again and logs have the same octets: a table, by folder_table.py.

    sign_folder_names.py TOOLS SSIGN

The last line is `sign_folder_names: N passed, M failed`.
"""
import os
import sys

from folder_table import (A, C, CHANGED, DATED, KILLED, MADE_C, OTHER, SIGNED, Row, Step, append, both, change, copy, forget,
                          gz, hold, let_go, main, nothing, put, remove, rename)

ROWS = [
    Row("a signed log is compressed", SIGNED, [Step(gz("a.log-1")), Step(forget)]),
    Row("a signed log gets another name", SIGNED, [Step(rename(("a.log-1", "a.log-2"))), Step(forget)]),
    Row("a signed log gets another name, and is compressed", SIGNED, [Step(gz("a.log-1", "a.log-9.gz"))]),
    Row("numbers move on", SIGNED, [
        Step(both(rename(("a.log-1", "a.log-2")), put("a.log-1", b"next\n")), 0, ["a.log-1.N.frames"]), Step(nothing),
        Step(both(gz("a.log-2", "a.log-3.gz"), rename(("a.log-1", "a.log-2")), put("a.log-1", b"third\n")), 0, ["a.log-1.N.frames"]),
        Step(forget)]),
    Row("numbers move on, and the oldest goes", SIGNED, [
        Step(both(rename(("a.log-1", "a.log-2")), put("a.log-1", b"next\n")), 0, ["a.log-1.N.frames"]),
        Step(both(remove("a.log-2"), rename(("a.log-1", "a.log-2")), put("a.log-1", b"third\n")), 0, ["a.log-1.N.frames"])]),
    Row("a log that goes on gets another name", SIGNED, [
        Step(put("m.log", b"one\n"), 0, ["m.log.frames"]),
        Step(both(append("m.log", b"two\n"), rename(("m.log", "m.log-20261130")), put("m.log", b"new\n")), 0,
             ["m.log-20261130.late-1.frames", "m.log.N.frames"], ["m.log-20261130: its lines after octet 4, "]),
        Step(forget)]),
    Row("a log that goes on gets a date before its extension", SIGNED, [
        Step(put("m.log", b"one\n"), 0, ["m.log.frames"]),
        Step(both(append("m.log", b"two\n"), rename(("m.log", "m-20261130.log"))), 0, ["m-20261130.log.late-1.frames"],
             ["m-20261130.log: its lines after octet 4, "])]),
    Row("a log is copied, and cut", SIGNED, [
        Step(put("m.log", b"one\n"), 0, ["m.log.frames"]),
        Step(both(append("m.log", b"two\n"), copy("m.log", "m.log.1"), put("m.log", b"")), 0, ["m.log.1.late-1.frames"], ["m.log.1: its lines after octet 4, "]),
        Step(append("m.log", b"next\n"), 0, ["m.log.N.frames"])]),
    Row("two logs of the same octets", SIGNED, [Step(both(put("c.log-1", b"x\n"), put("d.log-1", b"x\n")), 0, ["c.log-1.frames", "d.log-1.frames"]),
        Step(nothing), Step(forget)]),
    Row("a log of the octets of a signed one", SIGNED, [Step(put("c.log-1", A), 0, MADE_C), Step(nothing)]),
    Row("a log of the octets and the time of a signed one", SIGNED, [Step(copy("a.log-1", "c.log-1"), 0, MADE_C), Step(forget)]),
    Row("a log of the octets of a signed one is open for writing", SIGNED, [Step(put("c.log-1", A), 1, [], ["SIGKILL"], program=KILLED),
        Step(hold("c.log-1"), 0, [], ["c.log-1 waits: the process "]), Step(let_go, 0, MADE_C)]),
    Row("two nights of the same octets, with dates", SIGNED, [
        Step(both(put("m.log-20261129", b"\n\n", 90), put("m.log-20261130", b"\n\n", 80)), 0, ["m.log-20261129.frames", "m.log-20261130.frames"]),
        Step(both(gz("m.log-20261129"), put("m.log-20261201", b"\n\n", 70)), 0, ["m.log-20261201.frames"]), Step(forget)]),
    Row("nights of the same octets, with numbers", SIGNED, [
        Step(put("m.log.1", b"x\n", 5000), 0, ["m.log.1.frames"]),
        Step(both(rename(("m.log.1", "m.log.2")), put("m.log.1", b"x\n", 4000)), 0, ["m.log.1.N.frames"]), Step(nothing),
        Step(both(gz("m.log.2", "m.log.3.gz"), rename(("m.log.1", "m.log.2")), put("m.log.1", b"x\n", 3000)), 0, ["m.log.1.N.frames"]), Step(forget)]),
    Row("nights of the same octets, with numbers, and the oldest goes", SIGNED, [
        Step(put("m.log.1", b"x\n", 5000), 0, ["m.log.1.frames"]),
        Step(put("m.log.1", b"x\n", 4000), 0, ["m.log.1.N.frames"], OTHER), Step(nothing),
        Step(both(rename(("m.log.1", "m.log.2")), put("m.log.1", b"x\n", 3000)), 0, ["m.log.1.N.frames"]),
        Step(both(remove("m.log.1"), rename(("m.log.2", "m.log.3"))))]),
    Row("a log begins with all octets of the one before", SIGNED, [
        Step(put("m.log.1", b"x\n", 5000), 0, ["m.log.1.frames"]),
        Step(both(rename(("m.log.1", "m.log.2")), put("m.log.1", b"x\ny\n", 4000)), 0, ["m.log.1.N.frames"]), Step(forget)]),
    Row("the name of a log is given again, and that is gone", SIGNED, [
        Step(put("m.log.1", b"1\n", 5000), 0, ["m.log.1.frames"]), Step(put("m.log.1", b"2\n", 4000), 0, ["m.log.1.N.frames"], OTHER),
        Step(nothing), Step(put("m.log.1", b"", 3000)), Step(put("m.log.1", b"3\n", 2000), 0, ["m.log.1.N.frames"], OTHER)]),
    Row("a log with a date is put back with another time", SIGNED, [
        Step(put("m-20261130.log", b"x\n"), 0, ["m-20261130.log.frames"]), Step(put("m-20261130.log", b"x\n", 10)), Step(forget)]),
    Row("a signed log was changed", SIGNED, [Step(put(DATED, A), 0, [f"{DATED}.frames"]), Step(change(DATED, 3, 65), 1, [], CHANGED),
        Step(C, 1, MADE_C, CHANGED), Step(rename((DATED, "other.log")), 0, ["other.log.frames"]), Step(nothing)]),
    Row("a signed log was changed, and its time set back", SIGNED, [Step(lambda box: (seen := os.stat(box.at("a.log-1")),
        change("a.log-1", 3, 65)(box), os.utime(box.at("a.log-1"), ns=(seen.st_atime_ns, seen.st_mtime_ns))), 1, [],
        ["a.log-1 was changed after it was signed: its first 44 octets"])]),
    Row("a signed log was changed, and its name is given again", SIGNED, [Step(change("a.log-1", 3, 65), 0, ["a.log-1.N.frames"],
        ["a.log-1 isn't the log that was signed under this name before"]), Step(nothing)]),
    Row("a signed log was cut", SIGNED, [Step(put(DATED, A), 0, [f"{DATED}.frames"]), Step(lambda box: os.truncate(box.at(DATED), 5), 1, [], CHANGED)]),
    Row("a signed log was emptied", SIGNED, [Step(put(DATED, A), 0, [f"{DATED}.frames"]), Step(put(DATED, b""), 1, [], CHANGED)]),
    Row("a log was cut back to what was signed first", SIGNED, [
        Step(append("a.log-1", b"late\n"), 0, ["a.log-1.late-1.frames"], ["after octet 44"]),
        Step(put("a.log-1", A), 1, [], ["a.log-1 was changed after it was signed: its first 49 octets"])]),
    Row("a log with a date was cut back to what was signed first", SIGNED, [Step(put(DATED, A), 0, [f"{DATED}.frames"]),
        Step(append(DATED, b"late\n"), 0, [f"{DATED}.late-1.frames"], ["after octet 44"]),
        Step(put(DATED, A, -5), 1, [], [f"{DATED} was changed after it was signed: its first 49 octets"])]),
]


if __name__ == "__main__":
    sys.exit(main(ROWS, 25))
