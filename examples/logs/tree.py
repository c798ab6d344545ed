"""Work goes down a tree of threads, and each reports to process 0 when it is passive. Process P logs to pP.rows."""
import queue
import threading

LAST = 7
mail = [queue.SimpleQueue() for _ in range(LAST + 1)]


def logger(p):
    log = open(f"p{p}.rows", "w", buffering=1, encoding="ascii")
    return lambda kind, channel=0: print(p, kind, channel, sep=",", file=log)


def process(p):
    row = logger(p)
    mail[p].get()
    row("receive", p)
    for child in range(2 * p, min(2 * p + 2, LAST + 1)):
        row("send", child)
        mail[child].put(p)
    row("passive")
    row("tell", p)
    mail[0].put(p)


for p in range(1, LAST + 1):
    threading.Thread(target=process, args=[p]).start()
row = logger(0)
row("active")
row("send", 1)
mail[1].put(0)
row("passive")
for _ in range(LAST):
    row("hear", mail[0].get())
row("over")
