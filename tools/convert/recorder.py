"""A recorder for Python: what threads or processes of a machine do on a register, as JSON Lines for `fsr order`.

    log = Log(who, open("0.jsonl", "w"))          # each task has a number and a file of its own
    log.write(record, lambda: put(key, record))
    value = log.read(lambda: get(key))            # the record is what the call gives, or what `record_of` makes of it

A line is written when an operation ends. A write in which anything raises, also an interrupt, has one without an end, and is the last of
its task: make another log. Such a read is left out. A process that is killed in a write leaves no line of it; a read of that record is
`unwritten`, then. Times are nanoseconds of CLOCK_MONOTONIC, those of `nidzaru_log.h` with NIDZARU_LOG_TSC 0. For `fsr order`, `cat` or
join.py joins a header, {"kind":"lines","opening":RECORD}, and the files.
"""

import json
import time


class Log:
    def __init__(self, who, to, clock=time.monotonic_ns):
        self.who, self.to, self.clock, self.last_end = who, to, clock, -1

    def write(self, record, call, took_effect=lambda given: True):
        """Records a call that writes, unless it did nothing by what it gave."""
        tail, end, is_there = tail_of(record), "null", True
        head = self.begin("write")
        try:
            given = call()
            self.last_end = self.clock()
            is_there = took_effect(given)
            end = str(self.last_end)
        finally:
            # (texts alone are joined here, so that no interrupt comes between)
            if is_there:
                self.to.write(head + end + tail)
                self.to.flush()
        return given

    def read(self, call, record_of=lambda given: given):
        head = self.begin("read")
        given = call()
        self.last_end = self.clock()
        self.to.write(f"{head}{self.last_end}{tail_of(record_of(given))}")
        self.to.flush()
        return given

    def begin(self, kind):
        """What stands before the end in the line of an operation that begins now, after the last end."""
        now = self.clock()
        while now <= self.last_end:
            now = self.clock()
        self.last_end = now
        return f'{{"who":{self.who},"kind":"{kind}","begin":{now},"end":'


def tail_of(record):
    return f',"record":{json.dumps(record, separators=(",", ":"))}}}\n'
