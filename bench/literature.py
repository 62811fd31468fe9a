"""Three families of the literature, of rising size, each with an unrealizable twin."""
from spec import Spec, both, either, iff, implies, neg, nxt

SINGLE, BURST4, INCR = 0, 1, 2  # lengths of a burst: one, four, unspecified


def requests(n, twin):
    """An arbiter of n clients: a request stays until it is granted, and a grant until its client lets go (Piterman, Pnueli and
    Sa'ar 2006, the arbiter). The twin's clients need not let go."""
    s = Spec("Requests")
    r, g = s.vars("env", "r", n), s.vars("sys", "g", n)
    for i in range(n):
        s.asm("ini", neg(r[i]))
        s.asm("alw", implies(neg(iff(r[i], g[i])), iff(nxt(r[i]), r[i])))
        s.gar("ini", neg(g[i]))
        s.gar("alw", implies(iff(r[i], g[i]), iff(nxt(g[i]), g[i])))
    s.never_two(g)
    for i in range(n):
        if not twin:
            s.asm("alwEv", neg(both(r[i], g[i])))
        s.gar("alwEv", iff(r[i], g[i]))
    return s


def rises(e):
    return both(neg(e), nxt(e))


def falls(e):
    return both(e, neg(nxt(e)))


def genbuf(n, twin):
    """A generalized buffer takes data from n senders, puts them into a queue and gives them to two receivers in turn, with a
    handshake of four phases on each side (Bloem, Galler, Jobstmann, Piterman, Pnueli and Weiglhofer 2007, generalized buffer).
    The twin's receivers need not answer."""
    s = Spec("GeneralizedBuffer")
    sreq, rack = s.vars("env", "sreq", n), s.vars("env", "rack", 2)
    full, empty = s.var("env", "full"), s.var("env", "empty")
    sack, rreq = s.vars("sys", "sack", n), s.vars("sys", "rreq", 2)
    enq, deq = s.var("sys", "enq"), s.var("sys", "deq")
    slc = s.var("sys", "slc", 0, n - 1)
    senders(s, sreq, sack)
    receivers(s, rreq, rack, twin)
    queue(s, full, empty, enq, deq)
    for i in range(n):
        s.gar("alw", implies(rises(sack[i]), ("=", nxt(slc), i)))
    s.gar("alw", iff(nxt(enq), either(*map(rises, sack))))
    s.gar("alw", iff(nxt(deq), either(*map(falls, rack))))
    return s


def senders(s, req, ack):
    """A request stays until it is acknowledged, and then goes; an acknowledgement answers one that was there before."""
    for r, a in zip(req, ack):
        s.asm("ini", neg(r))
        s.asm("alw", implies(both(r, neg(a)), nxt(r)))
        s.asm("alw", implies(a, neg(nxt(r))))
        s.gar("ini", neg(a))
        s.gar("alw", implies(rises(r), neg(nxt(a))))
        s.gar("alw", implies(rises(a), r))
        s.gar("alw", implies(both(a, r), nxt(a)))
        s.gar("alwEv", iff(r, a))
    s.never_two(ack)


def receivers(s, req, ack, twin):
    """Two receivers are asked one at a time and in turn; `second` tells which one is next."""
    second = s.var("monitor", "second")
    for r, a in zip(req, ack):
        s.asm("ini", neg(a))
        s.asm("alw", implies(neg(r), neg(nxt(a))))
        s.asm("alw", implies(both(r, a), nxt(a)))
        if not twin:
            s.asm("alwEv", iff(r, a))
        s.gar("ini", neg(r))
        s.gar("alw", implies(both(r, neg(a)), nxt(r)))
        s.gar("alw", implies(a, neg(nxt(r))))
    s.never_two(req)
    s.gar("alw", implies(rises(req[0]), neg(second)))
    s.gar("alw", implies(rises(req[1]), second))
    s.say(second, "alw", implies(rises(req[0]), nxt(second)))
    s.say(second, "alw", implies(rises(req[1]), neg(nxt(second))))
    s.say(second, "alw", implies(neg(either(*map(rises, req))), iff(nxt(second), second)))


def queue(s, full, empty, enq, deq):
    """What is put in and taken out of the queue, and what the queue tells. What isn't empty stays so until something is taken
    out, so that `empty | deq` recurs exactly where each data item is taken out at last."""
    s.asm("ini", both(neg(full), empty))
    s.asm("alw", implies(both(enq, neg(deq)), neg(nxt(empty))))
    s.asm("alw", implies(both(deq, neg(enq)), neg(nxt(full))))
    s.asm("alw", implies(iff(enq, deq), both(iff(nxt(full), full), iff(nxt(empty), empty))))
    s.gar("ini", both(neg(enq), neg(deq)))
    s.gar("alw", implies(both(full, neg(deq)), neg(enq)))
    s.gar("alw", implies(empty, neg(deq)))
    s.gar("alwEv", either(empty, deq))


def amba(n, twin):
    """The arbiter of the AMBA AHB bus for n masters (Bloem, Jobstmann, Piterman, Pnueli and Sa'ar 2012, the AMBA AHB case
    study). The twin's masters may keep the bus for ever by a locked burst of unspecified length."""
    s = Spec("AmbaAhb")
    ask, lock = s.vars("env", "hbusreq", n), s.vars("env", "hlock", n)
    ready, burst = s.var("env", "hready"), s.var("env", "hburst", SINGLE, INCR)
    grant, master = s.vars("sys", "hgrant", n), s.var("sys", "hmaster", 0, n - 1)
    mastlock, locked = s.var("sys", "hmastlock"), s.var("sys", "locked")
    start, decide = s.var("sys", "start"), s.var("sys", "decide")
    busreq = bus_request(s, ask, master)
    open_burst = both(mastlock, ("=", burst, INCR))
    if not twin:
        s.asm("alwEv", neg(kept(s, open_burst, busreq)))
    s.asm("alwEv", ready)
    s.asm("ini", neg(ready))
    for i in range(n):
        s.asm("alw", implies(lock[i], ask[i]))
        s.asm("ini", both(neg(ask[i]), neg(lock[i])))
    s.gar("alw", implies(neg(ready), neg(nxt(start))))
    bursts(s, open_burst, both(mastlock, ("=", burst, BURST4)), start, ready, busreq)
    owners(s, grant, master, start, ready)
    s.gar("alw", implies(ready, iff(locked, nxt(mastlock))))
    s.gar("alw", implies(neg(nxt(start)), iff(mastlock, nxt(mastlock))))
    decisions(s, ask, lock, grant, locked, decide)
    for i in range(n):
        s.gar("alwEv", either(neg(ask[i]), ("=", master, i)))
    s.gar("ini", both(grant[0], *map(neg, grant[1:]), ("=", master, 0), decide, start, neg(mastlock), neg(locked)))
    return s


def bus_request(s, ask, master):
    """Whether the bus's owner asks for it."""
    busreq = s.var("monitor", "busreq")
    for i, asks in enumerate(ask):
        s.say(busreq, "alw", implies(("=", master, i), iff(busreq, asks)))
    return busreq


def kept(s, open_burst, busreq):
    """Whether the bus's owner has gone on asking since it last had a locked burst of unspecified length."""
    keeps = s.var("monitor", "keeps")
    s.say(keeps, "ini", neg(keeps))
    s.say(keeps, "alw", iff(nxt(keeps), both(either(keeps, open_burst), nxt(busreq))))
    return keeps


def bursts(s, open_burst, four, start, ready, busreq):
    """No access starts while a locked burst lasts: one of unspecified length (`lasts`) until its master asks no more, one of
    four (`left`) up to the fourth position that is ready, its first one included."""
    lasts, left = s.var("monitor", "lasts"), s.var("monitor", "left", 0, 4)
    s.say(lasts, "ini", neg(lasts))
    s.say(lasts, "alw", iff(nxt(lasts), either(both(open_burst, start), both(lasts, busreq))))
    s.gar("alw", implies(both(lasts, busreq), neg(start)))
    begins, counts = both(four, start), both((">", left, 0), ready)
    s.say(left, "ini", ("=", left, 0))
    s.say(left, "alw", implies(begins, both(implies(ready, ("=", nxt(left), 3)), implies(neg(ready), ("=", nxt(left), 4)))))
    s.say(left, "alw", implies(both(neg(begins), counts), ("=", ("+", nxt(left), 1), left)))
    s.say(left, "alw", implies(neg(either(begins, counts)), ("=", nxt(left), left)))
    s.gar("alw", implies((">", left, 0), neg(start)))


def owners(s, grant, master, start, ready):
    """Where the bus is ready its next owner is who was granted it; it stays with its owner where no access starts."""
    for i, granted in enumerate(grant):
        s.gar("alw", implies(ready, iff(granted, ("=", nxt(master), i))))
    s.gar("alw", implies(neg(nxt(start)), ("=", nxt(master), master)))


def decisions(s, ask, lock, grant, locked, decide):
    """A decision tells who is granted the bus next, and whether locked; without one both stay. Who didn't ask isn't granted it,
    but for master 0 where nobody asks."""
    for asks, locks, granted in zip(ask, lock, grant):
        s.gar("alw", implies(both(decide, nxt(granted)), iff(locks, nxt(locked))))
        s.gar("alw", implies(neg(decide), iff(nxt(granted), granted)))
    s.gar("alw", implies(neg(decide), iff(nxt(locked), locked)))
    for asks, granted in zip(ask[1:], grant[1:]):
        s.gar("alw", implies(both(rises(granted), neg(asks)), nxt(asks)))
    s.gar("alw", implies(both(decide, *map(neg, ask)), nxt(grant[0])))


LITERATURE = {"requests": requests, "genbuf": genbuf, "amba": amba}
