"""The medians of a run of bench/semaphore, with the least and the most, and the ratios."""
import os
import statistics
import sys

rates = {}
for line in open(sys.argv[1]):
    name, count, nanos = line.split()
    rates.setdefault(name, []).append(int(count) / int(nanos) * 1000)


def shown(name):
    found = rates[name]
    return f"{statistics.median(found):9.3f} ({min(found):.3f} to {max(found):.3f})"


def ratio(name, beside):
    return statistics.median(rates[name]) / statistics.median(rates[beside])


print(f"cores: {os.cpu_count()}, medians of {sys.argv[2]} alternating rounds, least and most")
print("acquires with releases on one thread, million a second")
print(f"  Sema               {shown('pairs')}")
print(f"  Mutex, lock+unlock {shown('mutex')}   Sema takes {1 / ratio('pairs', 'mutex'):.2f} times as long")
for name, said in (("condvar_pairs", "Mutex and Condvar"), ("posix_pairs", "sem_wait, sem_post")):
    print(f"  {said:18} {shown(name)}   Sema: {ratio('pairs', name):.2f} of its speed")
print("rounds of one unit through four threads, million a second")
print(f"  Sema               {shown('rounds')}")
for name, said in (("condvar_rounds", "Mutex and Condvar"), ("posix_rounds", "sem_wait, sem_post")):
    print(f"  {said:18} {shown(name)}   Sema: {ratio('rounds', name):.2f} of its speed")
