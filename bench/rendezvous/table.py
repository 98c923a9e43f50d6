"""The medians of a run of bench/rendezvous, with the least and the most, and the ratios."""
import os
import statistics
import sys

rates = {}
for line in open(sys.argv[1]):
    name, count, nanos = line.split()
    rates.setdefault(name, []).append(int(count) / int(nanos) * 1000)


def shown(name):
    found = rates[name]
    return f"{statistics.median(found):9.3f} ({min(found):.3f} to {max(found):.3f})"


def ratio(name, beside):
    return statistics.median(rates[name]) / statistics.median(rates[beside])


print(f"cores: {os.cpu_count()}, medians of {sys.argv[2]} alternating rounds, least and most")
for name, said in (("two", "two threads on one tag"), ("eight", "four pairs on four tags")):
    print(f"{said}, million exchanges a second")
    print(f"  rendezvous              {shown(name)}")
    for beside, words in (("channels", "two channels of 0 places"), ("map", "a map under a Mutex")):
        other = f"{name}_{beside}"
        print(f"  {words:24}{shown(other)}   rendezvous: {ratio(name, other):.2f} of its speed")
