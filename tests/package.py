"""package ROOT [TEST..]: what somebody meets who fetches, reads, builds, installs and packages the repository at ROOT:
make's list, the first steps with and without the kit, what is installed, the manual pages, the README's example and
numbers. All tests if none is named.
Status: 0 all as said, 1 something is wrong (a line says what)."""
import math
import os
import re
import shutil
import stat
import subprocess
import sys
import tempfile

from serving import Server, Wrong, check, same

KIT = "rattle-kit-13f logic dac8208d650f15bf"
PROGRAMS = {}
# rt makes programs for x86-64 alone
COUNTS = {"bin/linecount": 0o755, "share/man/man1/linecount.1": 0o644} if os.uname().machine == "x86_64" else {}


def text(*path):
    with open(os.path.join(*path), encoding="utf-8") as file:
        return file.read()


def run(root, *command, status=0, **env):
    """Standard output and standard error of a command in the repository, which must end with this status. It is called as
    from a shell, even where make has called us."""
    shell = {name: value for name, value in os.environ.items() if name not in ("MAKEFLAGS", "MAKELEVEL", "MFLAGS")}
    done = subprocess.run(command, cwd=root, env={**shell, **env}, capture_output=True, text=True, timeout=300,
                          check=False, stdin=subprocess.DEVNULL)
    same(done.returncode, status, f"the status of {' '.join(command)} ({done.stderr.strip()[-300:]})")
    return done.stdout, done.stderr


def installed(root):
    """Where `make install` has put it all, once."""
    if "stage" not in PROGRAMS:
        PROGRAMS["stage"] = tempfile.TemporaryDirectory()
        run(root, "make", "install", "PREFIX=/opt/dalonjang", DESTDIR=PROGRAMS["stage"].name)
    return os.path.join(PROGRAMS["stage"].name, "opt/dalonjang")


def options(root, program="dalonjang-server"):
    return re.findall(r"^  --([a-z0-9-]+)", run(root, os.path.join(installed(root), "bin", program), "--help")[0], re.M)


# --- make and the kit -------------------------------------------------------------------------------------------------

def test_make_alone(root):
    """`make` lists what can be made, and makes nothing."""
    listed = re.findall(r"^  ([a-z-]+) +\S", run(root, "make")[0], re.M)
    targets = re.search(r"^\.PHONY: (.*)$", text(root, "Makefile"), re.M)[1].split()
    same(sorted(listed), sorted(set(targets) - {"proved"}), "what make lists")


class Copy:
    """A copy of what builds the server, with a kit that proves nothing and writes down what it is asked, and where. It
    makes the libraries of the crates, as after a change of the sources."""

    def __init__(self, root, check_says=":"):
        self.room = tempfile.TemporaryDirectory()
        self.root = os.path.join(self.room.name, "copy")
        for part in ("bin", "host", "include", "crates"):
            shutil.copytree(os.path.join(root, part), os.path.join(self.root, part), ignore=shutil.ignore_patterns("out"))
        for part in ("Makefile", "crates.txt", "README.md", "NOTICE"):
            shutil.copy(os.path.join(root, part), self.root)
        self.asked = os.path.join(self.room.name, "asked")
        library = os.path.join(self.root, "target/lib", os.uname().machine, "libdalonjang.a")
        os.makedirs(os.path.dirname(library))
        kit, self.without_kit = os.path.join(self.room.name, "kit"), os.path.join(self.room.name, "tools")
        for folder in (kit, self.without_kit):
            os.mkdir(folder)
        for folder in ("/usr/bin", "/bin"):
            for name in set(os.listdir(folder)) - {"rt"} - set(os.listdir(self.without_kit)):
                os.symlink(os.path.join(folder, name), os.path.join(self.without_kit, name))
        real = os.environ["LIBRARY"]
        shutil.copy(real, library)
        os.utime(library, (1000000000, 1000000000))
        with open(os.path.join(kit, "rt"), "w", encoding="utf-8") as file:
            file.write(f"""#!/bin/bash
echo "$* in $(basename "$PWD")" >>{self.asked}
case $1 in
version) echo '{KIT}' ;;
doc) echo {kit}/START-HERE.md ;;
lib)
    echo 'rt: chose --jobs 2 for octets'
    {check_says}
    for crate in {self.root}/crates/*; do
        made=$crate/out/rlib/${{crate##*/}}.rlib
        mkdir -p "$made" && echo made >"$made/format"
    done
    ;;
esac
""")
        with open(os.path.join(self.root, "bin/lib"), "w", encoding="utf-8") as file:
            file.write(f"#!/bin/sh\necho lib >>{self.asked}\ncp {real} {library}\n")  # bin/targets tries the real one
        os.chmod(os.path.join(kit, "rt"), 0o755)
        self.path = kit + ":" + self.without_kit

    def __enter__(self):
        return self

    def __exit__(self, *_):
        self.room.cleanup()


def test_serve_builds(root):
    """What is served is made of the sources as they stand: the kit is asked, although a library is there; where it
    refuses them, nothing is served."""
    with Copy(root) as copy:
        said, _ = run(copy.root, "bin/serve", "--version", PATH=copy.path, LIB="")
        check(said.startswith("dalonjang-server "), f"what is served says {said}")
        asked = [line for line in text(copy.asked).splitlines() if not line.startswith(("version", "doc"))]
        same(asked, ["lib in dalonjang_c", "lib"], "what the kit is asked")
    with Copy(root, check_says="echo 'driver: not proved'; exit 1") as copy:
        said, errors = run(copy.root, "bin/serve", "--version", PATH=copy.path, LIB="", status=1)
        same(said, "", "what a server of refused sources says")
        check("driver: not proved" in errors and "not proved: dalonjang_c" in errors, f"what is said of it: {errors}")


def test_progress(root):
    """A proof that takes its time says how many crates are done, and which is next."""
    with Copy(root, check_says="sleep 3") as copy:
        below = 1 + len({name for line in text(root, "crates.txt").splitlines() if line.startswith("driver: ")
                         for name in line.split()[1:]})
        errors = run(copy.root, "bin/proved", "dalonjang_c", PATH=copy.path)[1]
        told = re.search(r"^proving: 1 of ([0-9]+) crates done, now (.*)$", errors, re.M)
        check(told and int(told[1]) > below and told[2] == "octets", f"what is said meanwhile: {errors}")


def test_without_kit(root):
    """One line, with the kit's name and version."""
    with Copy(root) as copy:
        for command in (("bin/serve",), ("make", "lib"), ("make", "prove"), ("make", "install", "PREFIX=/opt/x")):
            status = 1 if command[0] != "make" else 2
            _, errors = run(copy.root, *command, PATH=copy.without_kit, LIB="", DESTDIR=copy.room.name, status=status)
            lines = [line for line in errors.splitlines() if not line.startswith("make: ***")]
            check(len(lines) == 1 and "the Rattle kit is not on this machine" in lines[0] and KIT in lines[0],
                  f"what {' '.join(command)} says without the kit: {lines}")


# --- what is installed ------------------------------------------------------------------------------------------------

def test_installed(root):
    """The files with their modes; the examples of the README, built with nothing but them, say what the README says."""
    at = installed(root)
    found = {os.path.relpath(os.path.join(folder, name), at): stat.S_IMODE(os.stat(os.path.join(folder, name)).st_mode)
             for folder, _, names in os.walk(at) for name in names}
    same(found, {"include/dalonjang.h": 0o644, "lib/libdalonjang.a": 0o644, "lib/pkgconfig/dalonjang.pc": 0o644,
                 "bin/dalonjang-server": 0o755, "bin/dalonjang-ask": 0o755, "share/man/man3/dalonjang.3": 0o644,
                 "share/man/man1/dalonjang-server.1": 0o644, "share/man/man1/dalonjang-ask.1": 0o644,
                 "share/doc/dalonjang/NOTICE": 0o644, **COUNTS}, "the files")
    same(text(at, "share/doc/dalonjang/NOTICE"), text(root, "NOTICE"), "the licence")
    module = text(at, "lib/pkgconfig/dalonjang.pc").replace("prefix=/opt/dalonjang", f"prefix={at}")
    values = dict(re.findall(r"^(\w+)=(.*)$", module, re.M))
    for _ in range(2):
        module = re.sub(r"\$\{(\w+)\}", lambda found: values[found[1]], module)
    flags = dict(re.findall(r"^(\w+): (.*)$", module, re.M))
    blocks = re.findall(r"```c\n(.*?)```", text(root, "README.md"), re.S)
    same([len(block.splitlines()) for block in blocks], [11, 11], "the lines of the README's examples")
    for name, block in zip(("example", "asking"), blocks):
        with tempfile.TemporaryDirectory() as room:
            with open(os.path.join(room, f"{name}.c"), "w", encoding="utf-8") as file:
                file.write(block)
            run(room, "gcc", "-Wall", "-Wextra", "-Werror", *flags["Cflags"].split(), f"{name}.c", "-o", name,
                *flags["Libs"].split())
            said = run(room, f"./{name}")[0]
        check(f"&& ./{name}\n    {said}" in text(root, "README.md"), f"the example {name} says {said}")
    version = re.search(r'#define DALONJANG_VERSION "(\d+\.\d+\.\d+)"', text(at, "include/dalonjang.h"))[1]
    same(flags["Version"], version, "the version that pkg-config knows")
    same(run(root, os.path.join(at, "bin/dalonjang-server"), "--version")[0], f"dalonjang-server {version}\n", "--version")
    same(run(root, os.path.join(at, "bin/dalonjang-ask"), "--version")[0], f"ask {version}\n", "--version of the tool")
    if shutil.which("pkg-config"):
        same(run(root, "pkg-config", "--modversion", "dalonjang",
                 PKG_CONFIG_PATH=os.path.join(at, "lib/pkgconfig"))[0].strip(), version, "what pkg-config says")
    run(root, "make", "install", "PREFIX=opt", status=2)


def test_manual(root):
    """The pages have every option and every outcome, and groff, where it is, finds nothing wrong with them."""
    at, header = installed(root), text(root, "include/dalonjang.h")
    pages = {name: text(at, "share/man", name)
             for name in ("man1/dalonjang-server.1", "man1/dalonjang-ask.1", "man3/dalonjang.3",
                          *(name[10:] for name in COUNTS if name.endswith(".1")))}
    for program in ("dalonjang-server", "dalonjang-ask"):
        page = pages[f"man1/{program}.1"].replace("\\-", "-")
        same([option for option in options(root, program) if f"\n  --{option} " not in page], [],
             f"options that the page of {program} has not")
    outcomes = re.findall(r"(DALONJANG_[A-Z_]+) = (\d+)", header.partition("enum dalonjang_outcome {")[2].partition("};")[0])
    same(len(outcomes), 14, "the outcomes of the header")
    same([name for name, number in outcomes if f"{name} ({number})\t" not in pages["man3/dalonjang.3"]], [],
         "outcomes that the page has not")
    tables = re.findall(r"(DALONJANG_[A-Z_]+) = (\d+)", header.partition("enum dalonjang_table {")[2].partition("};")[0])
    same(len(tables), 3, "the tables of the header")
    same([name for name, number in tables if f"{name} ({number})" not in pages["man3/dalonjang.3"]], [],
         "tables that the page has not")
    calls = set(re.findall(r"\b(dalonjang_[a-z_0-9]+)\(", header)) - {"dalonjang_drive"}
    same([call for call in sorted(calls) if f"{call}(" not in pages["man3/dalonjang.3"]], [], "calls that it has not")
    for name, page in pages.items():
        check("@" not in page, f"{name} has a place that was not filled")
        if shutil.which("groff"):
            same(run(root, "groff", "-t", "-man", "-ww", "-rLL=130n", "-Tascii", "-z", os.path.join(at, "share/man", name))[1], "",
                 f"what groff says of {name}")


# --- the README -------------------------------------------------------------------------------------------------------

def test_readme_order(root):
    """What it is, eleven lines of C, picture, the commands, the server, asking, logs, five files, proved and assumed, limits."""
    titles = re.findall(r"^## (.*)$", text(root, "README.md"), re.M)
    same(titles[:9], ["Eleven lines of C", "One call, as a picture", "Three commands", "A server to try", "Asking",
                      "A week on the line", "Five files to read, in this order", "Proved, tested, assumed", "Limits"], "the sections")


def test_readme_paths(root):
    """What it names is there: files, options, crates."""
    readme = text(root, "README.md")
    paths = re.findall(r"\]\(([^)#]+)\)", readme) + re.findall(r"`((?:crates|docs|bin|host|include|tests)/[\w./-]+)`", readme)
    same([path for path in paths if not os.path.exists(os.path.join(root, path))], [], "paths that are not there")
    known = options(root) + options(root, "dalonjang-ask")
    same([name for name in re.findall(r"(?<![\w-])--([a-z][a-z0-9-]+)", readme) if name not in known], [],
         "options that neither server nor tool has")
    crates = re.findall(r"^(\w+)[ \w]*:", text(root, "crates.txt"), re.M)
    same([crate for crate in crates if f"`{crate}`" not in readme], [], "crates that it does not name")
    five = re.findall(r"^\d\. `(crates/[\w/]+\.antt)`", readme, re.M)
    same(len(five), 5, "the definition files to be read")
    same([path for path in five if not os.path.exists(os.path.join(root, path))], [], "definition files that are not there")


def test_readme_numbers(root):
    """The numbers that can be counted here."""
    readme, testing = text(root, "README.md"), text(root, "docs/TESTING.md")
    tests = sum(len(re.findall(r"^def test_", text(root, "tests", name), re.M))
                for name in os.listdir(os.path.join(root, "tests")) if re.fullmatch(r"host_\w+\.py", name))
    edits = sum(not line.startswith("#") for line in text(root, "tests/wrong-hosts.txt").splitlines())
    cases = len(re.findall(r"^# \d+: ", text(root, "crates/cases/stdin"), re.M))
    refused = sum(name.endswith(".edit") for folder, _, names in os.walk(os.path.join(root, "crates"))
                  if folder.endswith("/must-fail") for name in names)
    for place, words in ((readme, f"server: {tests} tests, all as they should be"), (readme, f"by {tests} tests of its own"),
                         (readme, f"{edits} small wrong edits"), (testing, f"{edits} small wrong edits"),
                         (readme, f"the driver's {cases} again"), (testing, f"driver's {cases} "),
                         (testing, f"{refused} in all")):
        check(words in re.sub(r"\s+", " ", place), f"it does not say '{words}'")
    asks = sum(len(re.findall(r"^def test_", text(root, "tests", name), re.M))
               for name in os.listdir(os.path.join(root, "tests")) if re.fullmatch(r"ask_\w+\.py", name))
    wrong_asks = sum(not line.startswith("#") for line in text(root, "tests/wrong-asks.txt").splitlines())
    for place, words in ((readme, f"bench tool: {asks} tests, all"), (readme, f"the bench tool by {asks} tests"),
                         (readme, f"as servers, with {wrong_asks}."), (testing, f"{wrong_asks} wrong edits of the tool")):
        check(words in re.sub(r"\s+", " ", place), f"it does not say '{words}'")
    known = re.findall(r"\b([\d,]+) (?:known answers|checks, all)", readme + testing)
    check(len(known) > 2 and len(set(known)) == 1, f"the known answers are {known}")


def test_readme_outcomes(root):
    """Its table of outcomes is the header's enumeration."""
    rows = re.findall(r"^\| (\d+) \| (\w+) \|", text(root, "README.md"), re.M)
    header = text(root, "include/dalonjang.h").partition("enum dalonjang_outcome {")[2].partition("};")[0]
    wanted = [(number, name.title().replace("_", "")) for name, number in re.findall(r"DALONJANG_([A-Z_]+) = (\d+)", header)]
    same(rows, wanted, "the outcomes")


def ask_as_in_readme(root, port):
    """The README's session with mbpoll, where that is installed: what it prints is what the README has."""
    commands = re.findall(r"    \$ (mbpoll .*)\n((?:    (?!\$).*\n)*)", text(root, "README.md"))
    same(len(commands), 2, "the commands for mbpoll")
    for command, wanted in commands if shutil.which("mbpoll") else ():
        words = command.replace("-p 1502", f"-p {port}").split()
        said = [" ".join(line.split()) for line in run(root, *words)[0].splitlines()]
        same([line for line in map(str.split, wanted.splitlines()) if " ".join(line) not in said], [],
             f"lines that {command} does not print")


def ask_by_tool_as_in_readme(root, port):
    """The README's session with the bench tool: the cells that mbpoll wrote there, and the line that asks a serial line."""
    commands = re.findall(r'    \$ make ask ARGS="(.*)"\n((?:    (?!\$).*\n)*)', text(root, "README.md"))
    same(len(commands), 2, "the commands for the tool")
    tool = os.path.join(installed(root), "bin/dalonjang-ask")
    run(root, tool, "--tcp", f"127.0.0.1:{port}", "write", "holdings", "0", "258", "772", "65535")
    for words, wanted in commands:
        words = re.sub(r"--tcp 127.0.0.1:1502|--rtu /dev/ttyUSB0", f"--tcp 127.0.0.1:{port}", words)
        same(run(root, tool, *words.split())[0], wanted.replace("\n    ", "\n")[4:], f"what the tool says to {words}")


def test_readme_server(root):
    """The server says at the start what it says in the README, and so do its clients."""
    said = re.search(r"\$ make serve\n((?:    .*\n)+)", text(root, "README.md"))[1].replace("\n    ", "\n")[4:]
    with Server(os.path.join(installed(root), "bin/dalonjang-server")) as server:
        same(server.output().replace(str(server.port), "1502"), said, "the first lines")
        ask_as_in_readme(root, server.port)
        ask_by_tool_as_in_readme(root, server.port)
    image = re.search(r"(dalonjang tables\n(?:    .*\n)+)", text(root, "README.md"))[1].replace("\n    ", "\n")
    with tempfile.NamedTemporaryFile("w") as file:
        file.write(image)
        file.flush()
        out = run(root, os.path.join(installed(root), "bin/dalonjang-server"), "--import", file.name, "--export")[0]
    check("inputs 0 17 4660 0" in out and "discretes 0 0 0 0 1 0" in out, f"what the README's text gives: {out}")


def test_readme_linecount(root):
    """linecount prints for document 02's record what README and manual page have; its cost is that of docs/COST.md."""
    said = re.search(r"\| linecount\n((?:    \w.*\n)+)", text(root, "README.md"))[1].replace("\n    ", "\n")[4:]
    if COUNTS:
        done = subprocess.run([os.path.join(installed(root), "bin/linecount")], input=b"MB\0\3\1\2\3", capture_output=True,
                              timeout=20, check=True)
        same(done.stdout.decode(), said, "what linecount prints")
    check(f"| linecount\n{said}" in text(root, "man/linecount.1"), "the manual page has another example")
    figures = [int(figure) for figure in re.findall(r"^\| LOG \| \w+ \| (\d+) \|", text(root, "docs/COST.md"), re.M)]
    check(len(figures) == 3 and max(figures) <= 70, f"a byte costs {figures}")
    check(f"It takes {max(figures)} instructions a byte" in re.sub(r"\s+", " ", text(root, "README.md")), "its cost is another")


def test_readme_cost(root):
    """What it says of the cost holds against the lowest figure of each row of docs/COST.md, whose picture is of it."""
    table = text(root, "docs/COST.md").partition("| of the lowest |")[2].partition("\n## ")[0]
    long, few, foreign = [], {"TCP": [], "RTU": [], "ASCII": []}, []
    for line in table.splitlines():
        cells = [cell.strip() for cell in line.strip("|").split("|")]
        if len(cells) != 8 or cells[0] not in few:
            continue
        ours, peers = int(cells[2]), [int(figure) for figure in cells[3:7] if figure.isdigit()]
        one = cells[1] == "mask write"  # of one cell, which its name does not say
        what, count = (None, 1) if one else re.match(
            r"(?:[a-z ]+: )?(?:(read|write|read/write) )?(?:a count of )?(\d+)", cells[1]).groups()
        part = (cells[0], cells[1], 100 * ours / min(peers) if peers else 0)
        least = 1000 if "coils" in cells[1] and what == "write" else 100
        words_on_rtu = cells[0] == "RTU" and re.match(r"(read/)?write \d+.*reg", cells[1])
        if ":" not in cells[1] and int(count) > least and not words_on_rtu:
            long.append(part)
        if one or re.match(r"(read|write) [12] ", cells[1]):
            few[cells[0]].append(math.ceil(part[2]))
        if cells[1].startswith("foreign") and cells[0] != "ASCII":
            foreign.append(part)
    check(len(long) > 20 and all(len(rows) > 4 for rows in few.values()) and len(foreign) == 4, "the table is another")
    same([part for part in long if part[2] >= 50], [], "long requests that take half or more")
    check(max(few["ASCII"]) < 100, f"requests for few cells on ASCII take {few['ASCII']}")
    same([part for part in foreign if part[2] <= 100], [], "frames for another unit that take less")
    words = f"takes up to {max(few['TCP']) - 100} per cent more on TCP and up to {max(few['RTU']) - 100} per cent more on RTU"
    check(words in re.sub(r"\s+", " ", text(root, "README.md")), f"it does not say '{words}'")
    check(run(root, "/usr/bin/python3", "bench/picture.py", "docs/COST.md")[0] == text(root, "docs/COST.svg"),
          "docs/COST.svg is not the picture of docs/COST.md")


def main():
    root, *names = sys.argv[1:]
    root = os.path.abspath(root)
    tests = {name[5:]: test for name, test in globals().items() if name.startswith("test_")}
    try:
        for name in names or tests:
            tests[name](root)
    except (Wrong, OSError, TypeError, subprocess.TimeoutExpired) as fault:
        print(f"wrong: {name}: {fault}")
        return 1
    finally:
        if "stage" in PROGRAMS:
            PROGRAMS["stage"].cleanup()
    print(f"{len(names or tests)} tests, all as they should be: {', '.join(names or tests).replace('_', ' ')}")
    return 0


if __name__ == "__main__":
    sys.exit(main())
