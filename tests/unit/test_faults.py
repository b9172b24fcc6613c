"""Runs with a fault after each byte, of programs that copy what they read."""

from runner.kinds.faults import Faults

from .fakes import WithFakes, exactly

READ = "dd bs=1 status=none >/dev/null 2>&1 || exit 3"
WRITE = "echo accepted 2>/dev/null || exit 4"


class FaultsInTurn(WithFakes):
    case = Faults(["check"], b"ab\n", exactly(0, b"accepted\n"))

    def program(self, *lines: str) -> str | None:
        """How the case differs on a program of these lines."""
        return self.case.difference(self.bench(*lines))

    def test_faults_that_are_told_pass(self) -> None:
        self.assertIsNone(self.program(READ, WRITE))

    def test_a_read_that_is_not_told_fails(self) -> None:
        told = self.program("cat >/dev/null 2>&1", WRITE)
        self.assertEqual(told, "no read after 0 bytes: status 0, 9 bytes written")

    def test_a_write_that_is_not_told_fails(self) -> None:
        told = self.program(READ, "echo accepted 2>/dev/null || exit 0")
        self.assertEqual(told, "no write after 0 bytes: status 0, 0 bytes written")

    def test_another_answer_without_a_fault_fails(self) -> None:
        self.assertIn("wanted status 0, got status 9", self.program("exit 9") or "")
