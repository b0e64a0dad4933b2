"""Has pairs asked and compiled, and compares what both say."""
import collections

from judging import asking, compiling, kinds

# A pair, its answers, what rustc said, what it should have said by the answers, and what that comes to.
Outcome = collections.namedtuple("Outcome", "case answers said expected seen agrees")


def outcomes(kind, cases, program):
    """Gives what comes of each pair."""
    questions = [kind.questions(it) for it in cases]
    most = getattr(kind, "AT_ONCE", None)
    answers = iter(asking.ask_all(program, [it for some in questions for it in some], most))
    lines = [kind.line(case, number) for number, case in enumerate(cases)]
    # Of a kind with flags rustc is asked with each.
    judges = [compiling.compile_all(lines, it) for it in getattr(kind, "FLAGS", ((),))]
    found = []
    for case, some, said in zip(cases, questions, zip(*judges)):
        mine = [next(answers) for _ in some]
        expected = kind.expected(case, mine)
        told = [outcome(kind, case, mine, expected, it) for it in said]
        found.append(next((it for it in told if not it.agrees), told[0]))
    return found


def outcome(kind, case, answers, expected, said):
    """Compares what is expected of a pair with what rustc says once."""
    why = getattr(kind, "given_up", kinds.given_up)(said)
    seen = why or kind.observed(case, said)
    return Outcome(case, answers, said, expected, seen, bool(why) or kind.agrees(expected.verdict, seen))
