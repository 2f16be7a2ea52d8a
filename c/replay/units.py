"""Jobs, and programs that replay them over the C modules. `run` and `mutants` are built on it."""
import os
import re
import subprocess

HERE = os.path.dirname(os.path.abspath(__file__))
C = os.path.dirname(HERE)
TOP = os.path.dirname(C)
MODULES = ["MemTst.c", "RamTst.c", "FlsTst.c"]
TABLES = ["RamTst_Cfg.c", "FlsTst_Cfg.c"]
REPLAY = ["memory.c", "script.c", "replay.c"]
FLAGS = ["-std=c99", "-Wall", "-Wextra", "-Werror", "-pedantic", "-O0"]
CONFIGURATIONS, SCRIPTS = 60, 5
# After how many seconds a replay is taken for one that does not end.
PATIENCE = 60
# What a handler must not ask for if its request is served before the results are entered.
RESULTS = re.compile(rb"GetTestResult")


def command(name, otherwise):
    """The words of a command: those of an environment variable, or a form of ./mt."""
    return os.environ[name].split() if name in os.environ else [os.path.join(TOP, "mt"), otherwise]


class Job:
    """A job, and the trace that it has to give; None if the program is to say it."""

    def __init__(self, name, text, trace=None):
        self.name, self.text, self.trace = name, text, trace

    def configuration(self):
        return re.split(rb"(?m)^=====$", self.text, maxsplit=1)[0]

    def may_be_early(self):
        return not any(RESULTS.search(handler) for handler in re.findall(rb"\[[^\]]*\]", self.text))

    def expected(self):
        if self.trace is None:
            self.trace = subprocess.run(command("MT_RUN", "run"), input=self.text, stdout=subprocess.PIPE, stderr=subprocess.DEVNULL).stdout
        return self.trace


def read(*path):
    with open(os.path.join(TOP, *path), "rb") as file:
        return file.read()


def example_jobs():
    """Those of jobs/ that have tables: their configuration is accepted."""
    for name in sorted(os.listdir(os.path.join(TOP, "jobs"))):
        if name.endswith(".job"):
            trace = read("jobs", name[:-4] + ".trace")
            if not trace.startswith(b"bad config"):
                yield Job("jobs/" + name, read("jobs", name), trace)


def case_jobs():
    head = read("cases", "configuration.toml") + b"=====\n"
    for name in sorted(os.listdir(os.path.join(TOP, "cases"))):
        if not name.endswith(".cases"):
            continue
        for case in re.split(rb"\n\n+", read("cases", name).strip()):
            lines = case.split(b"\n")
            script = [line[2:] for line in lines if line.startswith(b"> ")]
            trace = [line[2:] for line in lines if line.startswith(b"< ")] + [b"end ok %d" % len(script)]
            yield Job("cases/%s: %s" % (name, lines[0][2:].decode()), head + b"".join(line + b"\n" for line in script),
                      b"".join(line + b"\n" for line in trace))


def drawn_jobs(configurations=CONFIGURATIONS, scripts=SCRIPTS):
    for configuration in range(configurations):
        for script in range(scripts):
            words = [os.path.join(HERE, "draw"), str(configuration), str(script)]
            text = subprocess.run(words, stdout=subprocess.PIPE, check=True).stdout
            yield Job("drawn job %d %d" % (configuration, script), text)


def misuse_job():
    """The configuration of the calls that no script makes."""
    return Job("c/misuse/misuse.job", read("c", "misuse", "misuse.job"))


def by_configuration(jobs):
    groups = {}
    for job in jobs:
        groups.setdefault(job.configuration(), []).append(job)
    return list(groups.values())


def generate(jobs, folder):
    """Writes the tables of some jobs of one configuration."""
    os.makedirs(folder, exist_ok=True)
    path = os.path.join(folder, "a.job")
    with open(path, "wb") as file:
        file.write(jobs[0].text)
    subprocess.run(command("MT_GENERATE", "generate") + [path, folder], check=True)


def compile_objects(sources, folder, hooks, extra=(), flags=FLAGS, modules=C):
    """Compiles sources beside the tables of a folder; answers the objects, or None if the compiler refuses one."""
    objects = []
    for source in sources:
        target = os.path.join(folder, os.path.basename(source)[:-2] + ".o")
        words = [os.environ.get("CC", "cc")] + list(flags) + list(extra) + ["-I" + hooks, "-I" + folder, "-I" + modules, "-c", source, "-o", target]
        if subprocess.run(words, stdout=subprocess.DEVNULL, stderr=subprocess.PIPE).returncode:
            return None
        objects.append(target)
    return objects


def link(objects, target):
    words = [os.environ.get("CC", "cc")] + objects + ["--coverage", "-fsanitize=undefined", "-o", target]
    return subprocess.run(words, stdout=subprocess.DEVNULL, stderr=subprocess.PIPE).returncode == 0


def build_replay(folder, extra=(), modules=C):
    """Builds a program for the tables of a folder. The modules are taken from a folder of their own."""
    sources = [os.path.join(modules, name) for name in MODULES] + [os.path.join(folder, name) for name in TABLES]
    measured = compile_objects(sources, folder, HERE, extra, modules=modules)
    others = compile_objects([os.path.join(HERE, name) for name in REPLAY], folder, HERE, flags=FLAGS[:-1] + ["-O1"], modules=modules)
    target = os.path.join(folder, "replay")
    return target if measured and others and link(measured + others, target) else None


def trace_of(program, job, words=()):
    """The trace of a job; None if the program was stopped."""
    try:
        done = subprocess.run([program] + list(words), input=job.text, stdout=subprocess.PIPE, stderr=subprocess.DEVNULL, timeout=PATIENCE)
    except subprocess.TimeoutExpired:
        return None
    return done.stdout if done.returncode in (0, 4) else None


def failures(program, jobs):
    """The jobs whose trace is another, in either order of serving."""
    for job in jobs:
        if trace_of(program, job) != job.expected():
            yield job.name
        elif job.may_be_early() and trace_of(program, job, ["early"]) != job.expected():
            yield job.name + ", served early"
