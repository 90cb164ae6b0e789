"""Tests the Python module as it is installed: calls and replies, threads, asyncio, memory, and what is no record.

    PYTHONPATH=FOLDER python3 checks/kit/module.py

FOLDER has the module. checks/library runs it.
"""
import asyncio
import gc
import inspect
import os
import sys
import threading
from fractions import Fraction

import olr_keep
from olr_keep import AsyncKeep, Keep, Rejected

TOP = os.path.dirname(os.path.dirname(os.path.dirname(os.path.abspath(__file__))))
wrong = []


def same(what, found, wanted):
    if found != wanted:
        wrong.append(f"{what}: {found!r}, not {wanted!r}")


def raised(call, kind):
    """The exception of this kind that a call raises."""
    try:
        call()
    except kind as error:
        return error
    wrong.append(f"no {kind.__name__} is raised at line {inspect.currentframe().f_back.f_lineno}")
    return None


def memory():
    """The bytes of this process that are in memory."""
    with open("/proc/self/statm", encoding="ascii") as file:
        return int(file.read().split()[1]) * os.sysconf("SC_PAGE_SIZE")


def make_morning(keep):
    """The map and the path of examples/morning.csv, by calls with types."""
    keep.node(1, 6.12683, 49.60852)
    keep.node(2, "6.12838", "49.60399")
    keep.node(3, 6.1279, 49.6035)
    keep.node(4, 6.12817, 49.60306)
    keep.line(10, 1, 2, 3, 2, 5610, [(200, 6.12701, 49.60838), (5410, 6.1282, 49.60413)])
    keep.line(20, 2, 3, frc=3, fow=3, length=2000, shape=((200, 6.1282, 49.60389),))
    keep.line(30, 3, 4, 5, 3, 740, [(540, 6.12792, 49.60311)])
    keep.line(99, 2, 3, 4, 3, 1500)
    return keep.path("a", [10, 20, 30], positive=1500)


def check_explained(explained):
    """The fields of the second string of the morning."""
    same("explain", (len(explained.points), explained.positive, explained.negative), (2, 45, None))
    first, last = explained.points
    same("its points", (round(first.lon, 4), round(last.lat, 4), first.dnp, last.dnp), (6.1268, 49.6031, 14, None))
    same("its fields", (first.frc, first.fow, first.sector, first.lfrcnp, last.sector), (3, 2, 12, 5, 25))


def check_rejected(keep):
    """A rejected call and a rejected record."""
    fault = raised(lambda: keep.drop_line(77), Rejected)
    same("a rejected call", (fault.number, fault.word, str(fault)), (6, "NoLine", "fault,6,NoLine: drop-line,77"))
    reply = keep.ask("drop-line,77\r\n")
    same("a rejected record", reply, olr_keep.Reply("fault", 6, "NoLine"))
    same("its text", (reply.accepted, reply.text()), (False, "fault,6,NoLine\n"))
    raised(lambda: keep.margin(1.5, 0), TypeError)


def check_calls():
    """Each call is the record that it is named for."""
    three, two = "CwRbWyNG9RpsCQCb/jsbtAT/6/+jK1lE", "CwRbWyNG9RqsDgCG/d4rWS0="
    with Keep() as keep:
        made = make_morning(keep)
        same("path", made.answers, (olr_keep.Answer("a", three),))
        with open(f"{TOP}/examples/morning.csv", encoding="ascii") as file:
            same("dump", keep.dump(), tuple(file.read().splitlines()[:9]))
        ends = ("node,2,6.12838,49.60399", "node,3,6.1279,49.6035")
        same("show_node", keep.show_node(3), ends[1])
        same("show_line", keep.show_line(99), (*ends, "line,99,2,3,4,3,1500"))
        same("margin", [it.string for it in keep.margin(50, 1)], ["CwRbWyNG9RqMCQCb/jsb1AT/6/+jK1lE"])
        same("a margin in a batch", (len(keep.begin()), keep.margin(2, classes=0).held, keep.show_margin(), len(keep.abort())),
             (0, 1, (50, 1), 0))
        same("a margin that changes nothing", (len(keep.margin(routes=7, classes=1)), keep.show_margin()), (0, (7, 1)))
        same("no margin", ([it.string for it in keep.margin(0, 0)], keep.show_margin()), ([three], (0, 0)))
        same("a margin out of bounds", raised(lambda: keep.margin(1001, 0), Rejected).number, 2)
        same("depends", (keep.depends(4), keep.depends(1, 3)), (("a",), ("a",)))
        same("ambiguous", (keep.ambiguous(), keep.ambiguous("a")), ((), ()))
        with keep.batch() as batch:
            same("held", keep.drop_line(99).held, 1)
            same("show in a batch", keep.show("a").string, three)
        same("commit", [it.string for it in batch.changes], [two])
        same("a path that is not encodable", list(keep.path("b", [10, 30])), [olr_keep.Answer("b", None, 2, 0)])
        same("report", [it.is_encodable for it in keep.report()], [True, False])
        same("repath", [it.reason for it in keep.repath("b", iter([10, 20]), 5610, 2000)], [3])
        check_explained(keep.explain(two))
        # Path b is now longer than its offsets, and its end is extended to node 4.
        same("set_line", [it.name for it in keep.set_line(10, 3, 2, 5700)], ["a", "b"])
        same("move and drop_path", (len(keep.move(4, 6.1282, 49.6031)), len(keep.drop_path("b"))), (2, 0))
        same("begin and abort", (len(keep.begin()), keep.node(9, 6, 49).held, len(keep.abort())), (0, 1, 0))
        same("node and drop_node", (len(keep.node(9, 6, 49)), len(keep.drop_node(9))), (0, 0))
        check_rejected(keep)
        same("the status", (keep.status, keep.close(), keep.close()), (1, 1, 1))
    raised(lambda: keep.ask("report"), ValueError)


def check_what_is_no_record():
    """What is no text raises TypeError; what is no record changes nothing."""
    with Keep() as keep:
        for it in (5, None, 2.5, ["report"], True):
            raised(lambda it=it: keep.ask(it), TypeError)
            raised(lambda it=it: keep.text(it), TypeError)
        for it in (b"node,1,6,49", bytearray(b"node,2,6,49"), memoryview(b"node,3,6,49\n")):
            same("bytes", keep.ask(it).text(), "ok,0\n")
        for it in ("node,4,6,49\nnode,5,6,49", 'node,"4', "node,4,6,49\rnode,5,6,49", 'show,"a\nb"'):
            raised(lambda it=it: keep.ask(it), ValueError)
        same("an empty line", (keep.ask(""), keep.ask("\n"), keep.text("\n\n")), (None, None, b""))
        raised(lambda: keep.node(6, float("nan"), 49), ValueError)
        for arguments in ((6.0, 6, 49), (6, None, 49), ("6", 6, 49)):
            raised(lambda arguments=arguments: keep.node(*arguments), TypeError)
        raised(lambda: keep.path(5, [1]), TypeError)
        for name in ("a,0,0,1\nnode,8,6,49\npath,b", 'a"', "a,b", "", "\r"):
            fault = raised(lambda name=name: keep.path(name, [1]), Rejected)
            same(f"the name {name!r}", fault and fault.number in (1, 2), True)
        raised(lambda: keep.show("\udcff"), Rejected)
        raised(lambda: keep.show("\ud800"), ValueError)
        same("three nodes", keep.dump(), ("node,1,6,49", "node,2,6,49", "node,3,6,49"))
        try:
            with keep.batch():
                keep.drop_node(1)
                raise KeyError("of the block")
        except KeyError:
            pass
        same("an aborted batch", (keep.ask("abort").rest, len(keep.dump())), ("NoBatch", 3))


def check_threads():
    """Four threads use one register, and one closes it: each call has its own reply, or says that the register is closed."""
    with Keep() as keep:
        def work(k):
            for n in range(1, 400):
                number = 1000 * k + n
                if keep.ask(f"node,{number},6,49").text() != "ok,0\n" or keep.ask("show,nothing").number != 10:
                    wrong.append(f"another reply in thread {k}")

        threads = [threading.Thread(target=work, args=(k,)) for k in range(1, 5)]
        for it in threads:
            it.start()
        for it in threads:
            it.join()
        same("nodes of four threads", len(keep.dump()), 4 * 399)
        stopped = []

        def ask_on():
            try:
                while True:
                    keep.ask("report")
            except ValueError as error:
                stopped.append(str(error))

        threads = [threading.Thread(target=ask_on) for _ in range(4)]
        for it in threads:
            it.start()
        keep.close()
        for it in threads:
            it.join()
        same("threads of a closed register", stopped, ["the register is closed"] * 4)


def check_batches_of_threads():
    """A batch that another thread's `batch` can't open, or in which other threads change something, is committed."""
    with Keep() as keep:
        with keep.batch():
            keep.node(1, 6, 49)

            def refused():
                with keep.batch():
                    wrong.append("a second batch is open")

            threads = [threading.Thread(target=lambda k=k: [keep.node(1000 * k + n, 6, 49) for n in range(100)]) for k in range(1, 5)]
            for it in threads:
                it.start()
            for it in threads:
                it.join()
            raised(refused, Rejected)
        same("nodes of a batch of five threads", len(keep.dump()), 401)


def check_fork():
    """A fork while another thread is in calls: parent and child have the register as it was, and go on."""
    with Keep() as keep:
        text, done = "".join(f"node,{n},{n % 90},{n % 80}\n" for n in range(1, 20001)), threading.Event()

        def work():
            keep.text(text)
            while not done.is_set():
                keep.text("report\n" * 1000)

        worker = threading.Thread(target=work)
        worker.start()
        for _ in range(20):
            child = os.fork()
            if not child:
                count = len(keep.dump())
                os._exit(0 if count in (0, 20000) and keep.ask("node,30000,6,49").accepted else 1)
            same("a child", os.waitpid(child, 0)[1], 0)
        done.set()
        worker.join()
        same("the parent", len(keep.dump()), 20000)


def check_numbers():
    """Degrees of each kind of number are one record; True is no number."""
    kinds = [Fraction(1, 3)]
    try:
        import numpy
        kinds += [numpy.float64(6.12683), numpy.float32(6.5), numpy.int64(6)]
    except ImportError:
        pass
    with Keep() as keep:
        for k, it in enumerate(kinds, 1):
            keep.node(k, it, 49)
        same("degrees", [it.split(",")[2] for it in keep.dump()], ["0.3333333", "6.12683", "6.5", "6"][: len(kinds)])
        for call in (lambda: keep.node(True, 6, 49), lambda: keep.node(9, True, 49), lambda: keep.depends(False)):
            raised(call, TypeError)


def check_memory():
    """Registers that nothing refers to any more free their memory."""
    def make():
        keep = Keep()
        keep.text("".join(f"node,{n},{n % 90},{n % 80}\n" for n in range(1, 30001)))

    make()
    before = memory()
    for _ in range(20):
        make()
    gc.collect()
    same("memory after 20 dropped registers, in 10 MB", (memory() - before) // 10_000_000, 0)


async def loop_goes_on(keep):
    """Other coroutines have turns while a call runs long."""
    ticks = []

    async def tick():
        while True:
            ticks.append(1)
            await asyncio.sleep(0)

    ticking = asyncio.ensure_future(tick())
    text = await keep.text("".join(f"node,{n},6,49\n" for n in range(1000, 30000)))
    same("the replies", text.count(b"ok,0\n"), 29000)
    # On a busy machine the loop may have no processor during a call.
    most = 0
    for _ in range(100):
        before = len(ticks)
        await keep.text("".join(f"move,{n},6,49\n" for n in range(1000, 30000)))
        most = max(most, len(ticks) - before)
        if most > 3:
            break
    ticking.cancel()
    same("the loop goes on", most > 3, True)


async def ask_together():
    """Coroutines over one register, with batches, faults and a cancelled call."""
    async with AsyncKeep() as keep:
        made = await asyncio.gather(*(keep.node(n, 6, 49) for n in range(1, 200)))
        same("coroutines", [len(it) for it in made], [0] * 199)
        await loop_goes_on(keep)
        async with keep.batch() as batch:
            await keep.drop_node(1)
            await keep.line(1, 2, 3, 3, 3, 500)
            await keep.path("a", [1])
        same("a batch of coroutines", [it.name for it in batch.changes], ["a"])
        try:
            async with keep.batch():
                await keep.drop_node(3)
        except Rejected as error:
            same("a rejected edit of a batch", error.word, "NodeInUse")
        same("no batch is open", (await keep.ask("abort")).rest, "NoBatch")
        same("a margin", (len(await keep.margin(50, 1)), await keep.show_margin()), (1, (50, 1)))
        task = asyncio.ensure_future(keep.report())
        task.cancel()
        await asyncio.sleep(0.05)
        same("after a cancelled call", (await keep.show("a")).name, "a")
    same("closed", (await keep.close(), keep.status), (1, 1))
    for call in (lambda: keep.report(), lambda: keep.ask("report"), lambda: keep.batch().__aenter__()):
        try:
            await call()
            wrong.append("a call after close")
        except ValueError as error:
            same("a call after close", str(error), "the register is closed")
    same("the same calls", calls(AsyncKeep), calls(Keep))
    others = [it for it in calls(AsyncKeep) if not inspect.iscoroutinefunction(getattr(AsyncKeep, it))]
    same("all others are coroutines", others, ["batch", "status"])


def calls(kind):
    """The public names of a class, each of which has a docstring."""
    found = sorted(it for it in vars(kind) if not it.startswith("_"))
    same(f"{kind.__name__}: calls without a docstring", [it for it in found if not inspect.getdoc(getattr(kind, it))], [])
    return found


def main():
    same("no module of the tools", [it for it in sys.modules if it.startswith("olr_keep_tools")], [])
    same("a typed package", os.path.exists(os.path.join(os.path.dirname(olr_keep.__file__), "py.typed")), True)
    same("the version", olr_keep.library_version(), olr_keep.__version__)
    check_calls()
    check_what_is_no_record()
    check_threads()
    check_batches_of_threads()
    check_fork()
    check_numbers()
    check_memory()
    asyncio.run(ask_together())
    print(*(f"module: {it}" for it in wrong), sep="\n", end="\n" if wrong else "")
    return int(bool(wrong))


sys.exit(main())
