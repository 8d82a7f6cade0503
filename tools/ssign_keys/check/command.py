"""`ssign-keys check`: one check for one night, and for an archive of years on many machines."""
from __future__ import annotations

import argparse
import os
from typing import Dict, List, Optional, Tuple

from ..chain.names import few
from ..faults import Fault
from ..output import write_out
from ..page_file import PageFile
from ..progress import Progress
from ..words import shown_name
from ..workplace import Workplace, finish
from . import options as check_options
from .accept import accept, doubted_in, is_held, lapses
from .files import Reader, find_folders
from .findings import Finding, find
from .keys import Judges, make_judges
from .memory import Memory, file_place, now
from .options import Options, read_options
from .originator import Originator
from .page import FRONT, make_page
from .record import digest
from .report import Report
from .stamps import Checker, make_checker
from .status import read_status, write_status
from .taken import Taken
from .task import Reading, run_task
from .verdicts import Pool
from .verifying import refuse_unknown, verify


def add_arguments(parser: argparse.ArgumentParser) -> None:
    """Says which words the command takes."""
    check_options.add_arguments(parser)


def run(arguments: argparse.Namespace) -> int:
    """Checks everything. Status 1 where a finding isn't accepted."""
    options = read_options(arguments)
    judges = make_judges(options.keys, options.program)
    folders = find_folders(options.folders)
    progress = Progress()
    try:
        with PageFile(options.html, FRONT.encode("ascii")) as page, Workplace() as workplace:
            page.check(inputs(options))
            refuse_places(folders, options)
            checker = make_checker(options.tsa_ca, options.tsa_ca_anchor, workplace)
            if options.part is not None:
                said = run_task(options, judges, folders, Reading(workplace, progress, checker))
                progress.clear()
                write_out([f"{said}\n".encode("ascii")])
                return 0
            memory = Memory(options.memory, options.is_begun)
            refuse_unknown(folders, memory)
            report = Check(options, judges, memory, workplace, progress).run(folders, checker)
            progress.clear()
            if options.html is not None:
                with workplace.new_file("page") as file:
                    make_page(file, report, now())
                    finish(file)
                page.prepare(workplace.path("page"))
            text = report.json() if options.is_json else report.text(options.shows_head)
            write_out([text.encode("utf-8", "backslashreplace")])
            page.name()
        return report.status
    finally:
        progress.clear()


def inputs(options: Options) -> List[str]:
    """The files over which no page is written."""
    keys = options.keys
    named = [*keys.keys, *keys.cas, keys.trust, options.status, *options.tsa_ca, *options.tsa_ca_anchor]
    return [it for it in named if it is not None]


def refuse_places(folders: Dict[str, str], options: Options) -> None:
    """Refuses a memory among the logs, which would be an originator, and a status file that can't be written."""
    memory = os.path.realpath(options.memory)
    places = [os.path.realpath(it) for it in (*options.folders, *folders.values())]
    if any(os.path.commonpath([memory, it]) == it for it in places):
        raise Fault(f"the memory {shown_name(options.memory)} lies among the folders of originators: keep it elsewhere")
    if options.status is not None and not os.path.isdir(os.path.dirname(options.status) or "."):
        raise Fault(f"the status file {shown_name(options.status)} can't be written: there is no such folder")


class Check:
    """A check, from what is read to what is kept."""

    def __init__(self, options: Options, judges: Judges, memory: Memory, workplace: Workplace, progress: Progress) -> None:
        self._options = options
        self._judges = judges
        self._memory = memory
        self._workplace = workplace
        self._progress = progress
        self._now = now()

    def run(self, folders: Dict[str, str], checker: Optional[Checker]) -> Report:
        """All of it. What was found stands in the memory afterwards, and in the status file."""
        memory, options = self._memory, self._options
        status = None if options.status is None else read_status(options.status)
        taken = Taken(memory.folder, self._judges.of)
        found = memory.faults(None if status is None else status["memory"], options.status) + taken.faults
        if options.accept:
            accept(memory, options.accept, options.why, self._now)
        doubted = doubted_in(memory, found)
        originators = [Originator(name, path, memory.record(name), options, self._now, memory.count,
                                  file_place(name) in doubted, taken.merge(name, memory.record(name)))
                       for name, path in sorted(folders.items())]
        reader = Reader(self._workplace, self._progress, options.keys.max_expanded)
        verify(originators, reader, self._judges, Pool(self._judges, options.jobs, self._workplace, self._progress), checker)
        for it in originators:
            it.judge(reader)
        self._find_copies(originators)
        absent = self._find_absent(folders)
        report = self._keep(originators, absent, found)
        taken.remove(is_held(memory.accepted))
        taken.complain()
        if options.status is not None:
            is_moved = not any(it.kind in ("older", "edited") for it in report.open)
            mark = memory.runs.mark if is_moved or status is None else status["memory"]
            write_status(options.status, report.status_fields(), self._now, status, mark)
        return report

    def _find_copies(self, originators: List[Originator]) -> None:
        """Files that two originators have."""
        owners: Dict[str, str] = {}
        for it in originators:
            shared: Dict[str, List[Tuple[str, str]]] = {}
            for name, sha256 in it.files():
                owner = owners.setdefault(sha256, it.name)
                if owner != it.name:
                    shared.setdefault(owner, []).append((name, sha256))
            for owner, files in sorted(shared.items()):
                names = few(sorted(name for name, _ in files))
                it.found.append(find("twice", digest(sorted(sha256 for _, sha256 in files)),
                                     f"files of it are files of {shown_name(owner)} too: {names}", it.name))

    def _find_absent(self, folders: Dict[str, str]) -> List[Tuple[str, Finding]]:
        """Originators that are known, and of which no folder was given."""
        absent = [it for it in self._memory.recorded() if it not in folders and self._memory.record(it).is_known_as(it)]
        return [(it, find("gone", "gone", "no folder of this name was given", it)) for it in absent]

    def _keep(self, originators: List[Originator], absent: List[Tuple[str, Finding]], found: List[Finding]) -> Report:
        """Sorts what was found by what was accepted, and has the memory know it."""
        memory, report = self._memory, Report()
        report.add(found, memory.accepted)
        for it in originators:
            it.keep(is_held(it.record.accepted))
            report.add(it.found, it.record.accepted)
            report.add_originator(it)
            self._lapse(it.name, it.found)
        for name, finding in absent:
            record = memory.record(name)
            report.add([finding], record.accepted)
            record.note_open({} if is_held(record.accepted)(finding) else {finding.name: finding.fact}, self._now)
            self._lapse(name, [finding])
        rows = lapses(memory.accepted, found)
        memory.runs.append(rows)
        look = is_held(memory.accepted)
        opened = [[it.name, it.fact] for it in found if not look(it)]
        stays = {it.place for it in found if it.kind == "edited" and not look(it)}
        memory.save({"kind": "check", "time": self._now, "status": report.status, "open": opened,
                     "has_status": self._options.status is not None}, stays)
        return report

    def _lapse(self, originator: str, found: List[Finding]) -> None:
        """Lets accepted findings of an originator lapse that are gone, and saves what is known of it."""
        record = self._memory.record(originator)
        for row in lapses(record.accepted, found):
            record.put(row)
        record.save()
