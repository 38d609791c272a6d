# Python 3: stopped in time.sleep, called from a comparison that the sort of a list calls.
import time


class Stops:
    def __lt__(self, other):
        print("ready", flush=True)
        time.sleep(1000)
        return True


def deeper(n):
    return sorted([Stops(), Stops()]) if n == 0 else list(map(deeper, [n - 1]))


deeper(4)
