#!/usr/bin/env python3
"""Compares what the examples expect with scripts that share nothing with siit, and with the program as `rt try` builds it without a proof.
Leaves no file behind.

The transcript of a folder, expected.txt, has `$ ./siit WORDS`, the line that is printed, and `status N` where that isn't 0. What a command
writes to out.pcap, or to out_left.pcap, has to be the folder's expected.pcap, or expected_left.pcap; what it writes to outleft.pcap or
report.txt has to be the folder's file of that name. The scripts judge no faulty words and no faulty configuration, and read none at all before
Python 3.11. Without rt the program isn't asked, and without tshark the captures that are written aren't dissected; a line says so.
"""
import importlib.util
import re
import shutil
import subprocess
import sys
import tempfile
from pathlib import Path

sys.dont_write_bytecode = True
import dns_expected
import translator
import worked_packets

TOP = Path(__file__).resolve().parent.parent


class Case:
    """A command of a transcript, and what it has to print, to answer and to write."""

    def __init__(self, folder, words):
        self.folder, self.words, self.line, self.status = folder, words, "", 0

    @property
    def outputs(self):
        """The names among the words that the command writes to, with the files that they have to equal."""
        names = [word for word in self.words if re.fullmatch(r"out.*|report\.txt", word)]
        return {name: self.folder / re.sub(r"^out(?=[._])", "expected", name) for name in names}

    def words_with(self, work):
        """The words, with whole paths and with the outputs in another folder."""
        return [str(work / word if word in self.outputs else TOP / word if word.startswith("examples/") else word) for word in self.words]

    def differences(self, line, status, work):
        if line != self.line:
            yield f"printed {line!r}, expected {self.line!r}"
        if status != self.status:
            yield f"status {status}, expected {self.status}"
        for name, expected_file in self.outputs.items():
            out, is_written = work / name, self.status == 0
            if out.exists() != is_written or is_written and out.read_bytes() != expected_file.read_bytes():
                yield f"{name} isn't as expected"


def read_cases():
    cases = []
    for transcript in sorted(TOP.glob("examples/*/expected.txt")):
        for line in transcript.read_text().splitlines():
            if line.startswith("$ ./siit "):
                cases.append(Case(transcript.parent, line.split()[2:]))
            elif line.startswith("status "):
                cases[-1].status = int(line.split()[1])
            else:
                cases[-1].line += line + "\n"
    return cases


def is_for_script(case):
    has_toml = importlib.util.find_spec("tomllib") is not None
    return (has_toml or case.words[0] not in ("run", "map")) and not case.line.startswith(("siit: bad config", "siit: bad words"))


def by_script(case, work):
    """The line that a script prints, and the status that goes with it."""
    command, *words = case.words_with(work)
    if command in translator.COMMANDS:
        return translator.COMMANDS[command](*words)
    line = {"discover": dns_expected.discover_line, "dns64": dns_expected.dns64_line}[command](*words)
    return line + "\n", 9 if line.startswith("siit: bad message: ") else 0


def by_program(cases, work):
    """What the program printed and answered for each case, all in one run of `rt try`."""
    folder = work / "cases"
    folder.mkdir()
    for number, case in enumerate(cases):
        out = work / f"{number:02}"
        out.mkdir()
        (folder / f"{number:02}").touch()
        (folder / f"{number:02}.args").write_text("\n".join(case.words_with(out)) + "\n")
    run = subprocess.run(
        ["rt", "try", "--cases", str(folder)],
        cwd=TOP / "crates/siit",
        stdout=subprocess.PIPE,
        stderr=subprocess.STDOUT,
        text=True,
    )
    # What standard error says follows the line that is printed.
    answers = re.findall(r"^== (\d+)\n(.*\n)((?:.*\n)*?)case=\1 run=ended status=(\d+) ", run.stdout, re.M)
    if len(answers) != len(cases):
        sys.exit(f"{run.stdout}examples: the program didn't answer each of the {len(cases)} commands")
    for _, line, said, status in answers:
        if bool(said) != (status in ("2", "4", "5")):
            sys.exit(f"examples: at status {status} with the line {line!r} standard error says {said!r}")
    return [(line, int(status)) for _, line, _, status in answers]


# What a capture of right packets doesn't show. Where a quote is cut short, tshark takes the checksum of its TCP for wrong: that isn't asked.
FAULTS = " || ".join(
    ["_ws.malformed", "(tcp.checksum.status == 0 && !icmp && !icmpv6)"]
    + [f"{protocol}.checksum.status == 0" for protocol in ("ip", "udp", "icmp", "icmpv6")]
)


def faulty_packets(capture):
    """What tshark says of malformed packets and wrong checksums in a capture. It joins fragments, and checks the UDP checksum of the whole."""
    options = ["ip.check_checksum:TRUE", "tcp.check_checksum:TRUE", "udp.check_checksum:TRUE", "tcp.desegment_tcp_streams:FALSE"]
    words = ["tshark", "-n", "-r", str(capture), "-Y", FAULTS, *(word for option in options for word in ("-o", option))]
    return subprocess.run(words, check=True, stdout=subprocess.PIPE, stderr=subprocess.DEVNULL, text=True).stdout


def main():
    worked_packets.main()
    cases = read_cases()
    failed = False

    def compare(who, case, answer, work):
        nonlocal failed
        for difference in case.differences(*answer, work):
            print(f"examples: {who}: siit {' '.join(case.words)}: {difference}")
            failed = True

    for case in filter(is_for_script, cases):
        with tempfile.TemporaryDirectory() as work:
            compare("the script", case, by_script(case, Path(work)), Path(work))
    if shutil.which("rt"):
        with tempfile.TemporaryDirectory() as work:
            for number, answer in enumerate(by_program(cases, Path(work))):
                compare("the program", cases[number], answer, Path(work) / f"{number:02}")
    else:
        print("examples: rt isn't there: the program wasn't asked")
    if shutil.which("tshark"):
        for capture in sorted({path for case in cases if case.status == 0 for path in case.outputs.values() if path.suffix == ".pcap"}):
            faults = faulty_packets(capture)
            if faults:
                print(f"examples: tshark: {capture}:\n{faults}", end="")
                failed = True
    else:
        print("examples: tshark isn't there: the captures weren't dissected")
    if failed:
        sys.exit(1)
    print(f"examples: {len(cases)} commands answer as expected")


if __name__ == "__main__":
    main()
