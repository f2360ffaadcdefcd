"""Runs a program until it has written so many bytes, and prints how many nanoseconds of a processor and by the clock that
took, and its greatest and its present resident size then, in KiB: `watched.py BYTES INPUT WORD..`. Its standard input is
what the file INPUT holds, and stays open until then. The system's own account is read while the program runs, so that what
Python takes doesn't count."""
import os
import subprocess
import sys
import threading
import time


def sizes(process):
    """The greatest and the present resident size of a process that runs, in KiB."""
    with open('/proc/%d/status' % process.pid) as status:
        rows = dict(line.split(':', 1) for line in status)
    return int(rows['VmHWM'].split()[0]), int(rows['VmRSS'].split()[0])


def processor_time(process):
    """The nanoseconds of a processor that a process has taken which runs in one thread."""
    with open('/proc/%d/schedstat' % process.pid) as account:
        return int(account.read().split()[0])


def pour(path, into):
    """Writes a file into a pipe, which a program that ends may close."""
    try:
        with open(path, 'rb') as file:
            for piece in iter(lambda: file.read(1 << 20), b''):
                into.write(piece)
            into.flush()
    except BrokenPipeError:
        pass


def main(wanted, path, words):
    start = time.perf_counter_ns()
    process = subprocess.Popen(words, stdin=subprocess.PIPE, stdout=subprocess.PIPE)
    feeder = threading.Thread(target=pour, args=(path, process.stdin))
    feeder.start()
    while wanted > 0:
        piece = os.read(process.stdout.fileno(), min(wanted, 1 << 20))
        if not piece:
            sys.exit('%s: its output ended early' % words[0])
        wanted -= len(piece)
    took = time.perf_counter_ns() - start
    spent = processor_time(process)
    greatest, present = sizes(process)
    feeder.join()
    process.stdin.close()
    while os.read(process.stdout.fileno(), 1 << 20):
        pass
    process.wait()
    print(spent, took, greatest, present)


if __name__ == '__main__':
    main(int(sys.argv[1]), sys.argv[2], sys.argv[3:])
