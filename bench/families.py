#!/usr/bin/env python3
"""families.py NAME SIZE: writes a specification of one of eight families of rising size, or its unrealizable twin (NAME_u).

Five are made up, and three are of the literature (literature.py). `families.py NAME SIZE flat` writes the same as lists of
prefix expressions, for a program that reads no Spectra.
"""
import sys

from literature import LITERATURE
from spec import Spec, both, either, flat, iff, implies, neg, nxt, text


def arbiter(n, twin):
    """Requests of n clients, one grant at a time; each request is answered. The twin answers each at the next position."""
    s = Spec("Arbiter")
    r = s.vars("env", "r", n)
    g = s.vars("sys", "g", n)
    s.never_two(g)
    for i in range(n):
        if twin:
            s.gar("alw", implies(r[i], nxt(g[i])))
        s.gar("alwEv", implies(r[i], g[i]))
    return s


def lift(n, twin):
    """A lift of n floors goes one floor at a time and answers each call, which stays until it is answered. The twin may not
    reach the top floor."""
    s = Spec("Lift")
    call = s.vars("env", "call", n)
    floor = s.var("sys", "floor", 0, n - 1)
    for f in range(n):
        s.asm("alw", implies(both(call[f], neg(("=", floor, f))), nxt(call[f])))
        s.asm("alw", implies(both(call[f], ("=", floor, f)), neg(nxt(call[f]))))
    s.gar("ini", ("=", floor, 0))
    s.gar("alw", ("<=", nxt(floor), ("+", floor, 1)))
    s.gar("alw", (">=", ("+", nxt(floor), 1), floor))
    if twin:
        s.gar("alw", ("<", floor, n - 1))
    for f in range(n):
        s.gar("alwEv", implies(call[f], ("=", floor, f)))
    return s


def buffer(n, twin):
    """A buffer of four places takes from n senders by a handshake and gives to a receiver, who is ready again and again. The
    receiver of the twin need not be."""
    s = Spec("Buffer")
    req = s.vars("env", "req", n)
    ready = s.var("env", "ready")
    ack = s.vars("sys", "ack", n)
    give = s.var("sys", "give")
    fill = s.var("sys", "fill", 0, 4)
    for i in range(n):
        s.asm("ini", neg(req[i]))
        s.gar("ini", neg(ack[i]))
        s.asm("alw", implies(both(req[i], neg(ack[i])), nxt(req[i])))
        s.asm("alw", implies(both(req[i], ack[i]), neg(nxt(req[i]))))
        s.gar("alw", implies(both(neg(ack[i]), nxt(ack[i])), req[i]))
        s.gar("alw", implies(both(ack[i], req[i]), nxt(ack[i])))
    s.gar("ini", both(("=", fill, 0), neg(give)))
    for i in range(n):
        for k in range(i + 1, n):
            s.gar("alw", neg(both(neg(ack[i]), nxt(ack[i]), neg(ack[k]), nxt(ack[k]))))
    taken = either(*[both(neg(ack[i]), nxt(ack[i])) for i in range(n)])
    s.gar("alw", implies(nxt(give), both(ready, (">", fill, 0))))
    s.gar("alw", implies(both(taken, neg(nxt(give))), ("=", nxt(fill), ("+", fill, 1))))
    s.gar("alw", implies(both(neg(taken), nxt(give)), ("=", ("+", nxt(fill), 1), fill)))
    s.gar("alw", implies(iff(taken, nxt(give)), ("=", nxt(fill), fill)))
    if not twin:
        s.asm("alwEv", ready)
    for i in range(n):
        s.gar("alwEv", iff(req[i], ack[i]))
    return s


def patrol(n, twin):
    """A robot visits n rooms of a ring again and again; a door may be shut, but opens again and again. A room of the twin has
    no way out but into itself."""
    s = Spec("Patrol")
    shut = s.var("env", "shut")
    at = s.vars("sys", "at", n)
    s.asm("alwEv", neg(shut))
    s.gar("ini", at[0])
    s.gar("alw", either(*at))
    s.never_two(at)
    for i in range(n):
        ways = [at[i]] if twin and i == n - 1 else [at[i], at[(i + 1) % n], at[(i - 1) % n]]
        s.gar("alw", implies(at[i], nxt(either(*dict.fromkeys(ways)))))
    s.gar("alw", implies(both(at[0], shut), nxt(at[0])))
    for i in range(n):
        s.gar("alwEv", at[i])
    return s


def bus(n, twin):
    """A bus of n masters: who owns it stays while it is locked; its slave is ready again and again, and each that asks gets
    it. The twin's slave need not be ready."""
    s = Spec("Bus")
    ask = s.vars("env", "ask", n)
    ready = s.var("env", "ready")
    owner = s.var("sys", "owner", 0, n - 1)
    lock = s.var("sys", "lock")
    for i in range(n):
        s.asm("alw", implies(both(ask[i], neg(("=", owner, i))), nxt(ask[i])))
    s.gar("ini", both(("=", owner, 0), neg(lock)))
    s.gar("alw", implies(neg(ready), ("=", nxt(owner), owner)))
    s.gar("alw", implies(both(lock, neg(ready)), nxt(lock)))
    for i in range(n):
        s.gar("alw", implies(both(nxt(("=", owner, i)), neg(("=", owner, i))), either(ask[i], nxt(lock))))
    if not twin:
        s.asm("alwEv", ready)
    for i in range(n):
        s.gar("alwEv", implies(ask[i], ("=", owner, i)))
    return s


FAMILIES = {"arbiter": arbiter, "lift": lift, "buffer": buffer, "patrol": patrol, "bus": bus, **LITERATURE}


def spec_of(name, size):
    twin = name.endswith("_u")
    return FAMILIES[name.removesuffix("_u")](size, twin)


if __name__ == "__main__":
    made = spec_of(sys.argv[1], int(sys.argv[2]))
    sys.stdout.write(flat(made) if sys.argv[3:] == ["flat"] else text(made))
