"""Runs of a program, on its usual streams and on others."""

from runner.kinds.runs import Run
from runner.kinds.synthesis import Synthesis
from runner.wanted import AnyOf, Wanted

from .fakes import WithFakes, exactly


class PlainRuns(WithFakes):
    def test_words_and_input_reach_the_program(self) -> None:
        bench = self.bench('echo "$#:$1:$2"', "cat", "exit 7")
        self.assertIsNone(Run(["make", "7"], b"a\x00b\n", exactly(7, b"2:make:7\na\x00b\n")).difference(bench))

    def test_another_status_fails(self) -> None:
        bench = self.bench("exit 9")
        self.assertEqual(Run([], b"", exactly(0, b"")).difference(bench), "wanted status 0, got status 9")

    def test_a_torn_output_fails(self) -> None:
        bench = self.bench("printf accep")
        self.assertIn("torn after 5 of 9", Run([], b"", exactly(0, b"accepted\n")).difference(bench) or "")

    def test_output_on_standard_error_fails(self) -> None:
        bench = self.bench("echo a", "echo b >&2")
        self.assertIn("standard error", Run([], b"", exactly(0, b"a\n")).difference(bench) or "")

    def test_an_end_by_a_signal_fails(self) -> None:
        bench = self.bench("kill -SEGV $$")
        self.assertIn("SIGSEGV", Run([], b"", exactly(0, b"")).difference(bench) or "")

    def test_a_program_need_not_read_its_input(self) -> None:
        bench = self.bench("exit 2")
        self.assertIsNone(Run(["x"], b"a" * 1000000, exactly(2, b"")).difference(bench))


class Streams(WithFakes):
    def test_a_closed_standard_input_is_closed(self) -> None:
        bench = self.bench("if cat <&0 2> /dev/null; then exit 0; else exit 3; fi")
        self.assertIsNone(Run([], b"", exactly(3, b""), stdin="closed").difference(bench))

    def test_a_folder_cannot_be_read(self) -> None:
        bench = self.bench("cat 2> /dev/null || exit 3")
        self.assertIsNone(Run([], b"", exactly(3, b""), stdin="folder").difference(bench))

    def test_each_read_gets_one_byte_of_a_text_in_pieces(self) -> None:
        bench = self.bench("dd bs=100 2> /dev/null | wc -c", "dd bs=100 2>&1 > /dev/null | sed -n 1p")
        text = b"certificate"
        self.assertIsNone(Run([], text, exactly(0, b"11\n0+0 records in\n"), stdin="pieces").difference(bench))
        counting = self.bench("dd bs=100 2>&1 > /dev/null | sed -n 1p")
        self.assertIsNone(Run([], text, exactly(0, b"0+11 records in\n"), stdin="pieces").difference(counting))

    def test_a_reader_may_leave_a_text_in_pieces(self) -> None:
        bench = self.bench("exec 0<&-", "exit 6")
        self.assertIsNone(Run([], b"a" * 1000, exactly(6, b""), stdin="pieces").difference(bench))

    def test_nothing_can_be_written_to_a_full_closed_or_left_output(self) -> None:
        bench = self.bench("trap '' PIPE", "echo accepted 2> /dev/null || exit 4")
        for stdout in ("full", "closed", "gone"):
            with self.subTest(stdout):
                self.assertIsNone(Run([], b"", exactly(4, b""), stdout=stdout).difference(bench))


class Syntheses(WithFakes):
    wanted = Wanted(0, AnyOf(b"certificate 2\nproblem\n", (b"0 3",)))
    synth = "echo certificate 2; cat; printf 'answer best\\nterm 0\\nterm 3\\n'"

    def test_an_accepted_best_answer_passes(self) -> None:
        bench = self.bench(f"if [ $1 = synth ]; then {self.synth}; else echo accepted; fi")
        self.assertIsNone(Synthesis(b"problem\n", self.wanted).difference(bench))

    def test_an_answer_that_check_rejects_fails(self) -> None:
        bench = self.bench(f"if [ $1 = synth ]; then {self.synth}; else echo rejected NotEmpty 1; exit 9; fi")
        self.assertIn("check of the certificate", Synthesis(b"problem\n", self.wanted).difference(bench) or "")

    def test_terms_that_are_not_listed_fail(self) -> None:
        worse = self.synth.replace("term 3", "term 2")
        bench = self.bench(f"if [ $1 = synth ]; then {worse}; else echo accepted; fi")
        self.assertIn("none of the 1 best: 0 2", Synthesis(b"problem\n", self.wanted).difference(bench) or "")
