"""The output while the parts run: a line when something ends, and one every ten seconds while
nothing does."""
import os
import threading
import time

# The longest time without a line, in seconds; and the time of a case after which it hangs, which is
# more than a build by `rt try` takes.
EVERY, LIMIT = 10, 1800


class Progress:
    """The parts that run, each in pieces, and the processes that run them."""

    def __init__(self, count, workers):
        self.count, self.done, self.workers = count, 0, workers
        self.began = self.printed = time.monotonic()
        self.running, self.starts = {}, {}
        self.lock = threading.Lock()
        self.ended = threading.Event()

    def __enter__(self):
        threading.Thread(target=self.tick, daemon=True).start()
        return self

    def __exit__(self, *_):
        self.ended.set()

    def say(self, text):
        """Prints a line after the minutes and seconds since the start."""
        with self.lock:
            self.printed = time.monotonic()
            spent = int(self.printed - self.began)
            print(f"[{spent // 60:2}:{spent % 60:02}] {text}", flush=True)

    def step(self, part, piece, what):
        """Sets what a piece of a part is doing; None if it has ended. The same text again changes
        nothing."""
        with self.lock:
            self.starts.setdefault(part, time.monotonic())
            if what is None:
                self.running.pop((part, piece), None)
            elif self.running.get((part, piece), ("",))[0] != what:
                self.running[part, piece] = what, time.monotonic()

    def end(self, part):
        """A part ended. Returns its seconds."""
        with self.lock:
            self.done += 1
            return time.monotonic() - self.starts[part]

    def state(self):
        """What is running, as one line."""
        with self.lock:
            now = time.monotonic()
            running = [
                f"{part} ({what}, {now - since:.0f} s)"
                for (part, _), (what, since) in self.running.items()
            ]
        return f"{self.done} of {self.count} parts done; running: {', '.join(running) or 'none'}"

    def wrong(self):
        """What has gone wrong with the processes: one has ended early, or has a case that takes too
        long."""
        with self.lock:
            late = [
                f"no end after {LIMIT} s: {part}: {what}"
                for (part, _), (what, since) in self.running.items()
                if time.monotonic() - since > LIMIT
            ]
        return late + [
            f"a process ended with status {it.exitcode}" for it in self.workers if it.exitcode
        ]

    def tick(self):
        """Prints the state if nothing was printed for a while. Ends all if a case hangs or a
        process is lost."""
        while not self.ended.wait(1):
            if wrong := self.wrong():
                self.say(f"FAILED: {', '.join(wrong)}")
                print(f"0 passed, {len(wrong)} failed, 0 skipped", flush=True)
                for it in self.workers:
                    it.kill()
                os._exit(1)
            if time.monotonic() - self.printed >= EVERY - 1:
                self.say(self.state())
