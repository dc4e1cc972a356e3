"""What the tests share: where the repository's files are, its crates, the programs that the gate leaves in crates/NAME/out, how sessions are played by
them, and how a test that sees one thing after another tells what it saw."""
import pathlib, re, subprocess, sys, tempfile

TOP = pathlib.Path(__file__).resolve().parent.parent
CRATES = TOP / "crates"
EXAMPLES = TOP / "examples"

# The crates that are programs: the host itself, the program that explains sessions, and those that ask the questions of tables, the dearest first.
HOST = "tkhost_main"
BENCHES = "panels_main"
TABLES_OF_HOSTS, TABLES_OF_TK, TABLES_OF_TCL = "test_host", "test_tk", "test_tcl"
# The crate that shows how a program embeds a host.
EMBEDDING = "embedding"
# How the names of the programs end that the gate builds of a crate: by LLVM, and by Rattle's own compiler.
BUILDS = ("", ".by-rattle")


def built(crate, build=""):
    """The program that the gate left."""
    return CRATES / crate / "out" / (crate + build)


def crates_lines():
    """The lines of crates.txt by crate, lowest first, each with the crates of this tree that it names."""
    lines = {}
    for line in (TOP / "crates.txt").read_text().splitlines():
        name, colon, deps = line.partition("#")[0].partition(":")
        if colon:
            lines[name.split()[0]] = line.strip(), deps.split()
    return {name: (line, [dep for dep in deps if dep in lines]) for name, (line, deps) in lines.items()}


def below(name, lines):
    """The crates of this tree that a crate stands on."""
    found = []
    for dep in lines[name][1]:
        found += [it for it in [*below(dep, lines), dep] if it not in found]
    return found


def played(sessions):
    """What the built program writes of each session, on standard output and then on standard error; nothing where it doesn't end."""
    for session in sessions:
        try:
            ended = subprocess.run([built(HOST)], input=session.encode(), capture_output=True, timeout=60)
            yield (ended.stdout + ended.stderr).decode()
        except subprocess.TimeoutExpired:
            yield ""


def tried(sessions):
    """What the sources write of each session, without proof."""
    with tempfile.TemporaryDirectory() as folder:
        for number, session in enumerate(sessions):
            pathlib.Path(folder, f"s{number}").write_text(session)
        ended = subprocess.run(["rt", "try", "--cases", folder], cwd=CRATES / HOST, stdout=subprocess.PIPE, stderr=subprocess.STDOUT, text=True)
    found = [re.search(rf"^== s{number}\n(.*?)^case=s{number} ", ended.stdout, re.M | re.S) for number in range(len(sessions))]
    if not any(found):
        sys.exit(ended.stdout[-2000:])
    return [one[1] if one else "" for one in found]


# What isn't as it has to be, of so many things that were seen.
faults, count = [], 0


def see(holds, what):
    global count
    count += 1
    if not holds:
        faults.append(what)


def all_seen(test):
    """Tells what was seen, and answers the test's status."""
    print("".join(f"{fault}\n" for fault in faults), end="")
    print(f"{test}: {count} things seen, {len(faults)} faults")
    return 1 if faults else 0
