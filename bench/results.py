"""Tries `./osemosys results`. Usage: results.py TOP PROGRAM WORK"""
import os
import re
import resource
import signal
import subprocess
import sys
import time

import planning

TOP, PROGRAM, WORK = sys.argv[1:]
SCRIPT = f"{TOP}/osemosys"
PLAN = {"page.html", "proof.csv", "check.txt", "warnings.txt", "limits.csv", "prices.csv", "csv"}
NO_PLAN = {"page.html", "proof.csv", "check.txt", "warnings.txt", "explain.txt"}
NO_LEAST = {"page.html", "proof.csv", "check.txt", "warnings.txt", "direction.csv"}
WRONG = []


def text_of(path):
    with open(path, encoding="utf-8") as file:
        return file.read()


def write(name, text):
    with open(f"{WORK}/{name}", "w", encoding="utf-8") as file:
        file.write(text)
    return f"{WORK}/{name}"


def say(what, faults):
    print(f"{what}: {'; '.join(faults) if faults else 'right'}", flush=True)
    WRONG.extend(faults)


def names_in(folder):
    return set(os.listdir(folder)) if os.path.isdir(folder) else set()


def run(words, script=SCRIPT, limit=None):
    def prepare():
        if limit:
            resource.setrlimit(resource.RLIMIT_FSIZE, (limit, limit))

    # (a write that passes the limit fails, where its signal is passed over)
    signal.signal(signal.SIGXFSZ, signal.SIG_IGN)
    return subprocess.run([script, "results", *words], cwd=WORK, stdin=subprocess.DEVNULL, stdout=subprocess.PIPE, stderr=subprocess.PIPE,
                          text=True, preexec_fn=prepare, restore_signals=False)


def program(*words):
    return subprocess.run([PROGRAM, *words], cwd=WORK, stdin=subprocess.DEVNULL, stdout=subprocess.PIPE, text=True).stdout


def left_over():
    return [f"{it} is left" for it in os.listdir(WORK) if it.startswith(".osemosys")]


def try_answer(what, words, status, names, *lines, told="", script=SCRIPT):
    """The status, the names of the files, and the beginnings of the three lines."""
    folder = f"{WORK}/{words[1]}"
    ran = run(words, script)
    faults = left_over()
    if ran.returncode != status:
        faults.append(f"status {ran.returncode} and not {status}")
    if names_in(folder) != names:
        faults.append(f"the files are {sorted(names_in(folder))}")
    printed = ran.stdout.splitlines()
    if len(printed) != len(lines) or not all(re.match(line, it) for line, it in zip(lines, printed)):
        faults.append(f"it prints {printed}")
    if told not in ran.stderr:
        faults.append(f"it tells {ran.stderr!r}")
    if not faults and status < 3:
        faults += try_files(words[0], folder, words[2:])
    say(what, faults)


def try_files(file, folder, words):
    """The parts agree with the program: the proof is accepted, the tables are those of `table`."""
    faults = []
    exact = program("check", file, "--proof", f"{folder}/proof.csv", "--gap", "10", *[it for it in words if it.startswith("--places")])
    if os.path.isfile(f"{folder}/proof.csv") and (not exact.startswith("accepted") or exact != text_of(f"{folder}/check.txt")):
        faults.append(f"check says {exact!r}, and check.txt {text_of(f'{folder}/check.txt')!r}")
    if os.path.isdir(f"{folder}/csv"):
        for name in ("NewCapacity", "DiscountedCostByTechnology", "DiscountedOperationalCost", "RateOfActivity"):
            wanted = program("table", file, f"{folder}/proof.csv", name, "--gap", "10")
            if "--places=9" not in words and text_of(f"{folder}/csv/{name}.csv") != wanted:
                faults.append(f"csv/{name}.csv isn't the table")
        if len(os.listdir(f"{folder}/csv")) != 48:
            faults.append(f"there are {len(os.listdir(f'{folder}/csv'))} tables")
    if not text_of(f"{folder}/warnings.txt").splitlines()[-1].startswith("warnings "):
        faults.append("warnings.txt has no end")
    if os.path.isfile(f"{folder}/page.html") and not text_of(f"{folder}/page.html").endswith("</html>\n"):
        faults.append("page.html has no end")
    return faults


def try_answers():
    examples = f"{TOP}/examples"
    base = text_of(f"{examples}/base.dat")
    real = write("real.dat", planning.model(1, **planning.CASES["five digits"]))
    large = write("large.dat", planning.model(1, years=12, slices=24, copies=10))
    endless = write("endless.dat", base.replace("param VariableCost default 2", "param VariableCost default -20"))
    sure = r"sure: proved, and checked again: "
    try_answer("an optimum", [f"{examples}/country.dat", "optimum"], 0, PLAN, r"found: a plan that costs 8968\.230890, by the exact method$",
               sure + ".* no plan costs less$", "where: /.*optimum with page.html.* 48 tables in csv; warnings.txt says warnings 0")
    try_answer("an optimum again, in a deeper folder", [f"{examples}/country.dat", "deep/er/optimum", "--places=9"], 0, PLAN, "found: ", sure, "where: ")
    try_answer("an optimum by guesses", [real, "guessed"], 0, PLAN, r"found: a plan that costs \d+\.\d{6}, by guesses that were checked exactly$",
               sure + r".* no plan costs less than \d+\.\d{6}, at most \d\.\d{3} millionths below$", "where: ", told="the exact method ends with 'uncertified ")
    try_answer("the same from its own plan", [real, "again", "--method", "rounded", "--start", "guessed/proof.csv"], 0, PLAN, "found: ", sure, "where: ")
    try_answer("one that is too large", [large, "large"], 0, PLAN, "found: .* by guesses", sure, "where: ", told="'refused too large ")
    try_answer("no plan", [f"{examples}/no-plan.dat", "none"], 1, NO_PLAN, "found: no plan, by the exact method$", sure + "no plan", "where: .*explain.txt")
    try_answer("no least cost", [endless, "endless"], 2, NO_LEAST, "found: plans of any lower cost", sure, "where: .*direction.csv")
    if not text_of(f"{WORK}/endless/direction.csv").splitlines()[1:]:
        say("the direction", ["direction.csv has no record"])
    try_answer("a refused file", [f"{TOP}/README.md", "refused"], 4, set(), r"refused line \d+ column \d+ Unexpected$")
    try_answer("nothing known", [real, "unknown", "--pivots", "0"], 3, set(), "uncertified budget 0$", told="the exact method ends with 'uncertified budget 0'")
    try_answer("the exact method alone", [real, "unknown", "--method=exact"], 3, set(), "uncertified ")
    try_answer("words that ask for nothing", [real, "unknown", "--show", "plan"], 5, set(), "words refused BadForm$")
    try_answer("a file that isn't there", ["nothing.dat", "unknown"], 6, set(), "read fault file 1$")
    return real, large


def try_long_proof(real):
    """A script that thinks that files are shorter."""
    short = text_of(SCRIPT).replace("unset part\n", "unset part\nLONGEST_FILE=20000\n").replace('here=$(cd "$(dirname "$(readlink -f "${BASH_SOURCE[0]}")")" && pwd)', f"here='{TOP}'")
    script = write("short", short)
    os.chmod(script, 0o755)
    try_answer("a proof that is too long", [real, "long"], 0, {"plan.csv", "multipliers.csv", "check.txt", "warnings.txt"},
               "found: a plan", "sure: ", "where: .*plan.csv, multipliers.csv.*too long", script=script)


def try_folders(real):
    base = f"{TOP}/examples/base.dat"
    try_answer("a folder below a file", [base, "real.dat/x"], 7, set(), told="can't be written")
    try_answer("a folder that is a file", [base, "real.dat"], 7, set(), told="is no folder")
    os.mkdir(f"{WORK}/closed")
    os.chmod(f"{WORK}/closed", 0o555)
    if os.geteuid() != 0:
        try_answer("a folder that may not be written", [base, "closed/x"], 7, set(), told="can't be written")
    os.mkdir(f"{WORK}/own")
    write("own/page.html", "mine")
    write("own/notes.txt", "mine")
    try_answer("a folder with another file", [base, "own"], 7, {"page.html", "notes.txt"}, told="notes.txt")
    try_answer("a folder of earlier results", [base, "none"], 0, PLAN, "found: a plan that costs 80", "sure: ", "where: ")
    os.mkdir(f"{WORK}/empty")
    try_answer("an empty folder", [base, "empty"], 0, PLAN, "found: ", "sure: ", "where: ")
    for limit in (1000, 15000, 40000):
        ran = run([f"{TOP}/examples/country.dat", "full"], limit=limit)
        faults = left_over() + ([] if ran.returncode == 7 and not names_in(f"{WORK}/full") else [f"status {ran.returncode}, {names_in(f'{WORK}/full')}"])
        say(f"a disk that takes {limit} bytes", faults)


def children_of(process):
    listed = subprocess.run(["ps", "-eo", "pid=,ppid="], stdout=subprocess.PIPE, text=True).stdout.split()
    return [int(pid) for pid, parent in zip(listed[::2], listed[1::2]) if int(parent) == process]


def try_interrupts(large):
    """A signal after so many seconds, to a new folder and to one with earlier results: what was there stays."""
    for what, sent, wanted in (("an interrupt", signal.SIGINT, 130), ("an end by kill", signal.SIGTERM, 143), ("a closed terminal", signal.SIGHUP, 129)):
        for folder in ("new", "optimum"):
            for seconds in (0.3, 1):
                before = {it: text_of(f"{WORK}/{folder}/{it}") for it in names_in(f"{WORK}/{folder}") if it != "csv"}
                started = subprocess.Popen([SCRIPT, "results", large, folder], cwd=WORK, stdin=subprocess.DEVNULL, stdout=subprocess.PIPE, stderr=subprocess.DEVNULL)
                time.sleep(seconds)
                below = children_of(started.pid)
                started.send_signal(sent)
                status = started.wait(60)
                time.sleep(0.2)
                faults = left_over()
                if status != wanted:
                    faults.append(f"status {status}")
                if {it: text_of(f"{WORK}/{folder}/{it}") for it in names_in(f"{WORK}/{folder}") if it != "csv"} != before:
                    faults.append(f"{folder} is another")
                if any(os.path.exists(f"/proc/{it}") for it in below):
                    faults.append("the program goes on")
                say(f"{what} after {seconds} s, {folder}", faults)


def main():
    real, large = try_answers()
    try_long_proof(real)
    try_folders(real)
    try_interrupts(large)
    print(f"{len(WRONG)} wrong")
    return int(bool(WRONG))


sys.exit(main())
