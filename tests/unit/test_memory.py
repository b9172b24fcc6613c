"""Runs under falling limits of the address space, of programs that look at their limit."""

from runner.kinds.memory import Memory, limits

from .fakes import WithFakes, exactly

LIMIT = "limit=$(ulimit -v)"
NONE = '[ "$limit" = unlimited ] && limit=99999999'
USAGE = "[ $# = 0 ] && exit 2"


class FallingLimits(WithFakes):
    case = Memory(["check"], b"", exactly(0, b"accepted\n"))

    def program(self, *lines: str) -> str | None:
        """How the case differs on a program that starts from 200,000 KiB on."""
        return self.case.difference(self.bench(LIMIT, NONE, "[ $limit -lt 200000 ] && kill -SEGV $$", USAGE, *lines))

    def test_the_answer_or_want_of_memory_passes(self) -> None:
        self.assertIsNone(self.program("[ $limit -lt 200100 ] && exit 5", "echo accepted"))

    def test_another_status_fails(self) -> None:
        told = self.program("[ $limit -lt 200050 ] && exit 1", "[ $limit -lt 200100 ] && exit 5", "echo accepted")
        self.assertIn("status 1, 0 of 9 bytes written", told or "")

    def test_a_torn_text_fails(self) -> None:
        torn = "[ $limit -lt 200050 ] && echo acc && exit 5"
        told = self.program(torn, "[ $limit -lt 200100 ] && exit 5", "echo accepted")
        self.assertIn("status 5, 4 of 9 bytes written", told or "")

    def test_a_program_that_never_wants_memory_fails(self) -> None:
        self.assertIn("no limit was tight enough", self.program("echo accepted") or "")

    def test_another_answer_without_a_limit_fails(self) -> None:
        self.assertIn("wanted status 0, got status 9", self.program("exit 9") or "")

    def test_limits_fall_to_the_least(self) -> None:
        tried = limits(4096, 4096 * 200)
        self.assertEqual(tried, sorted(tried, reverse=True))
        self.assertEqual((tried[0], tried[-1] < 4096 * 5), (4096 * 200, True))
