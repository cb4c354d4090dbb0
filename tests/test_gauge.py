"""The hosts whose gauges may give nothing, in C, Rust and Python, with each set of silent gauges and with words that
are no gauge.

Each prints what is worked out here from what each share rests on, and with gauge 3 silent examples/gauge.list.
"""
import itertools

from helper import SHARED, TOP, Cases, hosts, run

LIST = (TOP / "examples/gauge.list").read_text()
# in the order in which they are handed out
RESTS = {11: (1,), 12: (2, 3), 13: (4,), 14: (12, 13), 15: (11, 13)}


def expected(silent):
    """What is printed where these gauges gave nothing."""
    lines = [f"Gauge {name} " + ("gave nothing today." if name in silent else "was read.") for name in range(1, 5)]
    failed = set(silent)
    for share, rests in RESTS.items():
        causes = [f"{'gauge' if name < 5 else 'share'} {name}" for name in rests if name in failed]
        if not causes:
            lines.append(f"Share {share} is good.")
            continue
        failed.add(share)
        lines.append(f"Share {share} rests on {' and '.join(causes)} and is not to be relied on.")
        lines.append(f"Share {share} as good? No: a job that rests on a failed one cannot end as good.")
    for what, shares in (("Good shares", set(RESTS) - failed), ("Not to be relied on", set(RESTS) & failed)):
        lines.append(" ".join([f"{what}:", *map(str, sorted(shares))]))
    return "".join(f"{line}\n" for line in lines)


class Gauge(Cases):
    needs = (SHARED,)

    def test_hosts(self):
        sets = [silent for count in range(5) for silent in itertools.combinations(range(1, 5), count)]
        for language, command in hosts("gauge"):
            for silent in sets:
                self.same(f"{language}: {silent}", run(*command, *silent), (0, expected(silent), ""))
            self.same(f"{language}: the example", run(*command, 3, 3), (0, LIST, ""))
            for word in ("0", "5", "12", "x", "03", "-1", "", "3 "):
                self.same(f"{language}: {word!r}", run(*command, 1, word), (1, "", f"There is no gauge {word}.\n"))
