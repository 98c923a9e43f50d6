"""The medians of a run of bench/wakeup, with the least and the most, and the ratios."""
import os
import statistics
import sys

rates = {}
for line in open(sys.argv[1]):
    name, count, nanos = line.split()
    rates.setdefault(name, []).append(int(count) / int(nanos) * 1000)


def shown(name):
    found = rates[name]
    return f"{statistics.median(found):9.3f} ({min(found):.3f} to {max(found):.3f})"


def ratio(name, beside):
    return statistics.median(rates[name]) / statistics.median(rates[beside])


print(f"cores: {os.cpu_count()}, medians of {sys.argv[2]} alternating rounds, least and most")
print("round trips of two threads, million a second")
print(f"  two processes      {shown('trips')}")
for name, said in (("park", "park and unpark"), ("condvar", "Mutex and Condvar"), ("pipes", "two system pipes")):
    print(f"  {said:18} {shown(name)}   two processes: {ratio('trips', name):.2f} of its speed")
print("calls on one thread, million a second")
print(f"  Mutex, lock+unlock {shown('mutex')}")
for name, said in (("wakeup", "wakeup of nobody"), ("sleep", "sleep, condition holds")):
    print(f"  {said:22} {shown(name)}   takes {1 / ratio(name, 'mutex'):.2f} times a lock and unlock")
