"""What `launch` wrote, without the traces: the steps that ended, node by node, in no order between nodes."""
from .job import Wrong
from .rows import Row

REQUEST = "accepted ran bad-arg forbidden worn-out"
BEGINNING = "done bad-arg too-many forbidden"
SYNC = "ok bad-handle not-yours worn-out in-region forbidden not-ready"
FIRST_WORDS = {  # with which words the answer to a step may begin, by the words with which the step begins
    "until set-cell": "ok",
    "until-word": "ok outside unaligned",
    "short medium long async atomic": REQUEST,
    "lock": "taken lock-fault",
    "unlock": "freed lock-fault",
    "poll": "ok forbidden",
    "attempt": "allowed forbidden",
    "cell": "cell",
    "show": "bytes outside",
    "set fill": "ok outside",
    "word": "word outside unaligned",
    "set-word": "ok outside unaligned",
    "put get memset": f"{SYNC} {BEGINNING}",
    "put-nb put-nb-bulk get-nb memset-nb": f"handle {BEGINNING}",
    "put-nbi put-nbi-bulk get-nbi memset-nbi": f"started {BEGINNING}",
    "issued": "issued not-ready bad-handle forbidden",
    "try try-all try-some try-nbi wait wait-all wait-some wait-nbi": SYNC,
    "put-s get-s put-v get-v": "whole part too-many nested forbidden",
    "coll-start": "ok busy bad-arg worn-out lock-busy forbidden",
    "coll-step": "sent nothing forbidden",
    "coll-try": "ok mismatch-with worn-out not-ready not-started bad-arg forbidden",
    "coll": "ok mismatch-with worn-out busy not-started bad-arg forbidden",
    "region-begin": "ok nested forbidden",
    "region-end": "done handle no-region forbidden",
    "notify": "ok bad-flags twice worn-out forbidden",
    "try-barrier barrier-wait": "ok mismatch not-ready no-notify bad-flags worn-out forbidden",
}


def may_answer(step, answer):
    return any(step[0] in names.split() and answer[0] in words.split() for names, words in FIRST_WORDS.items())


class Steps:
    """The steps of a launch, as rows. That a line can't be of this job is told; that it is of another run of it can't be seen."""

    title = "the steps of a launch, node by node; with the kept outputs (GASNET_KEEP) its messages are drawn"

    def __init__(self, job, name, text):
        self.job, self.name, self.rows, self.nodes = job, name, [], 0
        self.left = {key: list(steps) for key, steps in job.scripts.items()}
        for number, line in enumerate(text.split("\n")[:-1], 1):
            self.line(number, line.split(" "))

    def wrong(self, number, why):
        return Wrong(f"{self.name}, line {number}: {why}")

    def line(self, number, words):
        if words[0] == "node":
            self.nodes += 1
        elif words[0] == "status":
            self.status(number, words)
        elif words[0] != "violation":
            self.step(number, words)

    def step(self, number, words):
        if len(words) < 3 or not (words[0].isdigit() and words[1].isdigit()):
            raise self.wrong(number, "it is no line of a step")
        left = self.left.get((int(words[0]), int(words[1])), [])
        if not left:
            raise self.wrong(number, f"thread {words[1]} of node {words[0]} has no such step in the job")
        step = left.pop(0)
        if not may_answer(step, words[2:]):
            raise self.wrong(number, f"{' '.join(words[2:])!r} is no answer to the step {' '.join(step)!r}")
        self.rows.append(Row(str(number), "", int(words[0]), f"thread {words[1]}: {' '.join(step)}", " ".join(words[2:])))

    def status(self, number, words):
        if words[1] not in ("0", "1"):
            told = f"{' '.join(words)!r} tells of no run; where nodes ran, draw what was kept of them (GASNET_KEEP)"
            raise self.wrong(number, told)
        if not self.rows:
            raise self.wrong(number, "no step ended before it, and no schedule was run: there is nothing to draw")
        if self.nodes != self.job.nodes:
            raise self.wrong(number, f"{self.nodes} nodes stand before it, and the job has {self.job.nodes}")
        for (node, thread), steps in self.left.items():
            if steps:
                step = f"the step {' '.join(steps[0])!r} of thread {thread} of node {node}"
                raise self.wrong(number, f"no line tells that {step} ended")
