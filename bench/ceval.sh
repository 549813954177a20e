#!/bin/sh
# ceval.sh LCC [NAME ..]: how long `LCC ceval` takes, and with how much memory.
#
# Makes C programs, runs LCC on each, and prints a line for each: the bytes of
# its source, seconds, how many of what it counts (nodes of the checked program
# that are evaluated, calls, bytes, ..), how many of these a second, and the most
# memory that the process had (what Python has, some 12 MiB, is told where it
# had less). Seconds are those of a whole process, best of RUNS (1), with
# reading and checking of the source. What a program has to answer is worked out
# here: a line whose answer is another one ends with it, and so does one whose
# process didn't end within TIMEOUT seconds (120). Then the status is 1. With
# NAMEs only these lines. Wants python3.
#
#   arithmetic    a loop on locals: 14 nodes in each of 10,000,000 turns
#   arrays        a loop through an array: 31 nodes a turn
#   calls         calls of a function with one parameter, one after the other
#   open calls    the same, each within the one before
#   bytes         an array of 16 MiB, filled byte by byte
#   globals       100,000 objects, each read 20 times
#   gotos         30,000 labels in one block, jumped to in order
#   switch        a switch of 100,000 cases in a loop
#   others        sources of 16 MiB, of one thing each
if [ $# -lt 1 ]; then
    echo "usage: ceval.sh LCC [NAME ..]" >&2
    exit 64
fi
dir=$(mktemp -d) || exit 1
trap 'rm -rf "$dir"' EXIT
trap 'exit 130' INT TERM
RUNS=${RUNS:-1} TIMEOUT=${TIMEOUT:-120} python3 -B - "$dir" "$@" <<'PY'
import json
import os
import subprocess
import sys
import threading
import time

folder, lcc, *names = sys.argv[1:]
runs, limit = int(os.environ["RUNS"]), float(os.environ["TIMEOUT"])
lcc = os.path.abspath(lcc) if os.path.exists(lcc) else lcc
MOST = 16777216                                         # bytes of a source


def wrapped(n):
    """n as a signed number of 32 bits."""
    return (n + 2**31) % 2**32 - 2**31


def whole(head, piece, tail):
    """head, as many pieces as 16 MiB have room for, and tail; and how many. A piece is a text or made
    from its number."""
    rest, made = MOST - len(head) - len(tail), []
    if isinstance(piece, str):
        made = [piece] * (rest // len(piece))
    else:
        while len(text := piece(len(made))) <= rest:
            rest -= len(text)
            made.append(text)
    return head + "".join(made) + tail, len(made)


def arithmetic():
    n = 10000000
    text = "int main(void){int i,x=0;for(i=0;i<%d;i++)x+=i*3;return x;}" % n
    return text, 14 * n, "nodes", wrapped(3 * n * (n - 1) // 2)


def arrays():
    n, a = 3000000, [0] * 1024
    for i in range(n):
        a[i & 1023] = a[i + 1 & 1023] + i & 0xFFFFFFFF
    text = ("int a[1024];int main(void){int i;for(i=0;i<%d;i++)a[i&1023]=a[i+1&1023]+i;"
            "return a[7];}" % n)
    return text, 31 * n, "nodes", wrapped(a[7])


def calls():
    n = 4000000
    text = "int f(int a){return a+1;}int main(void){int i,x=0;for(i=0;i<%d;i++)x=f(x);return x;}" % n
    return text, n, "calls", n


def open_calls():
    n = 3000000
    text = "int f(int n){return n?f(n-1)+1:0;}int main(void){return f(%d);}" % n
    return text, n, "calls", n


def bytes_():
    text = "char a[%d];int main(void){int i;for(i=0;i<%d;i++)a[i]=i;return a[77];}" % (MOST, MOST)
    return text, MOST, "bytes", 77


def globals_():
    n, rounds = 100000, 20
    text = ("".join("int g%d=%d;" % (i, i) for i in range(n))
            + "int main(void){int i,x=0;for(i=0;i<%d;i++){" % rounds
            + "".join("x+=g%d;" % i for i in range(n)) + "}return x;}")
    return text, n * rounds, "reads", wrapped(rounds * n * (n - 1) // 2)


def gotos():
    n = 30000
    text = ("int main(void){int x=0;goto l0;" + "".join("l%d:x++;goto l%d;" % (i, i + 1) for i in range(n))
            + "l%d:return x;}" % n)
    return text, n + 1, "gotos", n


def switch():
    n, rounds, x = 100000, 20000, 0
    for i in range(rounds):
        x += 3 * (i * 7919 % n) % 1000
    text = ("int main(void){int i,x=0;for(i=0;i<%d;i++)switch(i*7919%%%d){" % (rounds, n)
            + "".join("case %d:x+=%d;break;" % (i, 3 * i % 1000) for i in range(n)) + "}return x;}")
    return text, rounds, "switches", wrapped(x)


def statements():
    text, n = whole("int main(void){int x=0;", "x=x+1;", "return x;}")
    return text, n, "statements", n


def blocks():
    text, n = whole("int main(void){", "{}", "return 1;}")
    return text, n, "blocks", 1


def functions():
    text, n = whole("", lambda i: "f%d(){}" % i, "main(){return 1;}")
    return text, n, "functions", 1


def locals_():
    text, n = whole("main(){int a", lambda i: ",a%d" % i, ";return 1;}")
    return text, n, "locals", 1


def elements():
    text, n = whole("char a[]={", "1,", "};int main(void){return sizeof a;}")
    return text, n, "elements", n


def literals():
    text, n = whole("char *a[]={", lambda i: '"%d",' % i, "};int main(void){return sizeof a/4;}")
    return text, n, "literals", n


def commas():
    text, n = whole("int main(void){return 1", ",1", ";}")
    return text, n + 1, "operands", 1


KINDS = [("arithmetic", arithmetic), ("arrays", arrays), ("calls", calls), ("open calls", open_calls),
         ("bytes", bytes_), ("globals", globals_), ("gotos", gotos), ("switch", switch),
         ("statements", statements), ("blocks", blocks), ("functions", functions), ("locals", locals_),
         ("elements", elements), ("literals", literals), ("commas", commas)]


def run(source):
    """Seconds, most bytes of memory, status and report of a run."""
    with open(source, "rb") as file, open(os.path.join(folder, "report"), "wb") as report:
        begin = time.perf_counter()
        child = subprocess.Popen([lcc, "ceval", "--order", "little", "--turns", "30000000"], stdin=file,
                                 stdout=subprocess.DEVNULL, stderr=report)
        stop = threading.Timer(limit, child.kill)
        stop.start()
        _, status, usage = os.wait4(child.pid, 0)
        seconds = time.perf_counter() - begin
        stop.cancel()
        child.returncode = os.waitstatus_to_exitcode(status)
    with open(report.name, "rb") as file:
        return seconds, usage.ru_maxrss * 1024, child.returncode, file.read(200).decode(errors="replace").strip()


def apart(make, source):
    """Writes a source in a process of its own, since the most memory of a child is at least that of
    its parent. Gives the source's size, and what make says."""
    told, tells = os.pipe()
    child = os.fork()
    if child == 0:
        text, *rest = make()
        assert len(text) <= MOST
        with open(source, "w") as file:
            file.write(text)
        os.write(tells, json.dumps([len(text)] + rest).encode())
        os._exit(0)
    os.close(tells)
    with open(told, "rb") as pipe:
        said = pipe.read()
    os.waitpid(child, 0)
    return json.loads(said)


unknown = [name for name in names if name not in dict(KINDS)]
if unknown:
    sys.exit("no such line: " + ", ".join(unknown))
print("%-11s %9s %8s %10s %-10s %12s %9s" % ("program", "bytes", "s", "number", "of", "a second", "MiB"), flush=True)
failed = False
for name, make in KINDS:
    if names and name not in names:
        continue
    source = os.path.join(folder, "source")
    size, number, what, answer = apart(make, source)
    try:
        seconds, memory, status, report = min(run(source) for _ in range(runs))
    except OSError as error:
        sys.exit("%s: %s" % (os.path.basename(lcc), error.strerror))
    wrong = ""
    if (status, report) != (0, "exit %d" % answer):
        failed = True
        wrong = "  status %d %s, and not exit %d" % (status, report, answer)
        if status == -9 and seconds >= limit:
            wrong = "  no end"
    print("%-11s %9d %8.2f %10d %-10s %12.0f %9.1f%s" % (name, size, seconds, number, what, number / seconds,
                                                         memory / 2**20, wrong), flush=True)
sys.exit(1 if failed else 0)
PY
