"""Random edits, undos, redos and drops: the history by values against the one by steps with places."""
import random, copy


def run(seed):
    r = random.Random(seed)
    S = 2
    lists = [[(s, i, "b%d" % i, i % 3 == 0) for i in range(4)] for s in range(S)]  # entry: source tag, id, bytes, shown
    nxt = [4] * S
    cur = 0
    script = "empty"
    # by values
    earlier, undone = [], []  # earlier: newest first, (value, undone or None)
    # by steps
    es, bs, us = [], [], []  # last is newest / next
    cached = [set(e[1] for e in l) for l in lists]
    value = lambda: (copy.deepcopy(lists), script, cur)

    def make(step, places):
        nonlocal script, cur
        if step[0] == "script":
            back = ("script", script, cur)
            script, cur = step[1], step[2]
            return back
        _, s, ch, c = step
        l = lists[s]
        if ch[0] == "put":
            assert l[-1] == ("place", ch[2][1]), (l, ch)
            l.pop()
            l.insert(ch[1], ch[2])
            back = ("take", ch[1])
            assert ch[2][1] not in cached[s]
        elif ch[0] == "take":
            e = l.pop(ch[1])
            back = ("put", ch[1], e)
            cached[s].discard(e[1])
        elif ch[0] == "ex":
            e = l[ch[1]]
            ids = [x[1] for k, x in enumerate(l) if k != ch[1]]
            assert ch[2][1] not in ids
            l[ch[1]] = ch[2]
            back = ("ex", ch[1], e, ch[3])
            if ch[3]:
                cached[s].discard(e[1])
                assert ch[2][1] not in cached[s]
            else:
                assert e[1] == ch[2][1]
        else:
            e = l.pop(ch[1])
            l.insert(ch[2], e)
            back = ("move", ch[2], ch[1])
        b = ("packets", s, back, cur)
        cur = c
        return b

    def travel(frm, to, n):
        for st in frm[len(frm) - n :]:
            if st[0] == "packets" and st[2][0] == "put":
                lists[st[1]].append(("place", st[2][2][1]))
        for _ in range(n):
            to.append(make(frm.pop(), True))
        assert all(e[0] != "place" for l in lists for e in l)

    def own():
        for s in range(S):
            ids = [e[1] for e in lists[s]]
            for st in es + us + [x for b in bs if b for x in b]:
                if st[0] == "packets" and st[1] == s and (st[2][0] == "put" or st[2][0] == "ex" and st[2][3]):
                    ids.append(st[2][2][1])
            assert len(set(ids)) == len(ids) and all(i < nxt[s] for i in ids), (s, ids, nxt)

    for _ in range(r.randrange(10, 120)):
        k = r.choice(
            ["ins", "del", "rep", "mov", "bit", "copy", "script", "use", "undo", "undo", "redo", "drop", "cache"]
        )
        l = lists[cur]
        old = value()
        step = None
        if k in ("ins", "copy"):
            at = r.randrange(len(l) + 1)
            l.insert(at, (cur, nxt[cur], "n%d" % nxt[cur], True))
            nxt[cur] += 1
            step = ("packets", cur, ("take", at), cur)
        elif k == "del" and l:
            at = r.randrange(len(l))
            e = l.pop(at)
            cached[cur].discard(e[1])
            step = ("packets", cur, ("put", at, e), cur)
        elif k == "rep" and l:
            at = r.randrange(len(l))
            e = l[at]
            l[at] = (cur, nxt[cur], "r%d" % nxt[cur], e[3])
            nxt[cur] += 1
            cached[cur].discard(e[1])
            step = ("packets", cur, ("ex", at, e, True), cur)
        elif k == "bit" and l:
            at = r.randrange(len(l))
            e = l[at]
            l[at] = e[:3] + (r.random() < 0.5,)
            step = ("packets", cur, ("ex", at, e, False), cur)
        elif k == "mov" and l:
            a, b = r.randrange(len(l)), r.randrange(len(l))
            e = l.pop(a)
            l.insert(b, e)
            step = ("packets", cur, ("move", b, a), cur)
        elif k == "script":
            step = ("script", script, cur)
            script = "s%d" % r.randrange(99)
        elif k == "use":
            cur = r.randrange(S)
        elif k == "cache":
            cached[cur] |= {e[1] for e in l}
        elif k == "undo":
            n = r.randrange(4)
            if n <= len(earlier):
                for _ in range(n):
                    v = earlier.pop(0)
                    undone.insert(0, old)
                    old = v[0]
                travel(es, us, n)
                del bs[len(es) :]
                assert value() == old
        elif k == "redo":
            n = r.randrange(4)
            if n <= len(undone):
                for _ in range(n):
                    v = undone.pop(0)
                    earlier.insert(0, (old, None))
                    old = v
                travel(us, es, n)
                bs += [None] * n
                assert value() == old
        elif k == "drop":
            n = r.randrange(4)
            if n <= len(earlier):
                for _ in range(n):
                    v = earlier.pop(0)
                    undone = [old] + undone if v[1] is None else v[1]
                    old = v[0]
                for _ in range(n):
                    b = bs.pop()
                    keep = []
                    travel(es, keep, 1)
                    us = us + keep if b is None else b
                assert value() == old
        if step:
            earlier.insert(0, (old, undone))
            undone = []
            es.append(step)
            bs.append(us)
            us = []
        own()
        # the values that the steps stand for
        save = (copy.deepcopy(lists), script, cur, copy.deepcopy(cached))
        vs = []
        es2 = list(es)
        us2 = []
        travel(es2, us2, 0)
        while es2:
            travel(es2, us2, 1)
            vs.append(value())
        assert vs == [v[0] for v in earlier]
        lists[:], script, cur, cached[:] = copy.deepcopy(save[0]), save[1], save[2], copy.deepcopy(save[3])
        ws = []
        u2 = list(us)
        e2 = []
        while u2:
            travel(u2, e2, 1)
            ws.append(value())
        assert ws == undone, (ws, undone)
        lists[:], script, cur, cached[:] = save[0], save[1], save[2], save[3]


for seed in range(40):
    run(seed)
print("40 random lists: values, ids and places agree")
