"""What the benches share: the frame of a text, machine instructions, times and the machine."""
import concurrent.futures, dataclasses, os, platform, re, shutil, subprocess, sys, time

LONGEST_TEXT = 262_144
MOST_INSTRUCTIONS = 4_096  # of a unit


def configuration(cars=1, programs=None, before="", floors=8, slots=4):
    """With a task for each car; `programs` are the program types of the cars, and `before` stands in front of the
    resource.
    """
    programs = programs or ["C"] * cars
    tasks = "".join(f"TASK CAR{k} (INTERVAL := T#100ms, PRIORITY := 1);\n" for k in range(1, cars + 1))
    lines = "".join(f"PROGRAM P{k} WITH CAR{k} : {name};\n" for k, name in enumerate(programs, 1))
    sizes = f"VAR_GLOBAL CONSTANT CARS : INT := {cars}; FLOORS : INT := {floors}; SLOTS : INT := {slots}; END_VAR\n"
    return f"CONFIGURATION K\n{sizes}{before}RESOURCE M ON PLC\n{tasks}{lines}END_RESOURCE\nEND_CONFIGURATION\n"


def program(body, declarations="", name="C"):
    return f"PROGRAM {name}\n{declarations}" + "".join(f"{line}\n" for line in body) + "END_PROGRAM\n"


def binary_of_words(default="build/liftplc"):
    binary = os.path.abspath(sys.argv[1] if len(sys.argv) > 1 else default)
    if not os.access(binary, os.X_OK):
        sys.exit(f"{binary} is no program")
    return binary


def seconds_of(words, out=os.devnull):
    """Of the processor, in the process and in the system for it, so that other work on the machine counts little."""
    with open(out, "wb") as to:
        process = subprocess.Popen(words, stdout=to)
        _, status, used = os.wait4(process.pid, 0)
    process.returncode = os.waitstatus_to_exitcode(status)
    if process.returncode:
        sys.exit(f"{' '.join(words)}: status {process.returncode}")
    return used.ru_utime + used.ru_stime


def machine_instructions(words, out=os.devnull, status=0, profile=os.devnull):
    """Of a whole run that ends with this status; None where valgrind can't count them. The profile is for
    callgrind_annotate.
    """
    words = ["valgrind", "--tool=callgrind", f"--callgrind-out-file={profile}", *words]
    with open(out, "wb") as to:
        run = subprocess.run(words, stdout=to, stderr=subprocess.PIPE, text=True)
    found = re.search(r"Collected : (\d+)", run.stderr)
    if found and run.returncode != status:
        own = "\n".join(line for line in run.stderr.splitlines() if not line.startswith("=="))
        sys.exit(f"{' '.join(words)}: status {run.returncode}, not {status}\n{own}")
    return int(found[1]) if found else None


def can_count(binary):
    if not shutil.which("valgrind"):
        print("valgrind is not installed: nothing is counted")
    elif machine_instructions([binary, "help"]) is None:
        print(f"valgrind can't count the machine instructions of {binary}")
    else:
        return True
    return False


def side_by_side(work, items):
    """Counts don't depend on what else the machine does, so they are made one a processor."""
    with concurrent.futures.ThreadPoolExecutor(os.cpu_count()) as pool:
        return list(pool.map(work, items))


def where_and_when(binary):
    model = platform.machine()
    with open("/proc/cpuinfo") as file:
        model = next((line.split(":")[1].strip() for line in file if line.startswith("model name")), model)
    when = time.strftime("%Y-%m-%d %H:%M", time.gmtime())
    return (
        f"{when} UTC, {os.cpu_count()} processors {model}, load {os.getloadavg()[0]:.1f}, "
        f"{binary} of {os.path.getsize(binary):,} bytes"
    )


@dataclasses.dataclass
class Function:
    """Machine instructions of one function, its own and those of the calls that it made, and how often it was
    called.
    """

    object: str
    name: str
    own: int = 0
    called: int = 0
    callees: dict = dataclasses.field(
        default_factory=dict
    )  # what the calls of each cost, with all that was called from there

    def whole(self):
        return self.own + sum(self.callees.values())


def functions_of(profile):
    """The functions of a profile that callgrind wrote, by object and name."""
    names, found, at, to, object_, callee_object = {}, {}, None, None, "", ""

    def name_of(kind, word):
        number, _, name = word.partition(" ")
        return names.setdefault((kind, number), name)

    def function(object_, word):
        key = object_, name_of("fn", word)
        return found.setdefault(key, Function(*key))

    with open(profile) as file:
        for line in file:
            line = line.rstrip("\n")
            key, equals, word = line.partition("=")
            if equals and key.isalpha():
                if key == "ob":
                    object_ = os.path.basename(name_of("ob", word))
                    callee_object = object_
                elif key == "cob":
                    callee_object = os.path.basename(name_of("ob", word))
                elif key == "fn":
                    at, callee_object = function(object_, word), object_
                elif key == "cfn":
                    to = function(callee_object, word)
                elif key == "calls":
                    to.called += int(word.split()[0])
                    cost = int(next(file).split()[1])
                    at.callees[to.object, to.name] = at.callees.get((to.object, to.name), 0) + cost
                    callee_object = object_
            elif at and line[:1] and line[0] in "0123456789+-*":
                at.own += int((line.split() + ["0"])[1])
    return found
