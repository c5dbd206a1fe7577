"""Each command accepts --help and --version, and refuses an unknown option."""
from __future__ import annotations


from ..support import COMMANDS, SERVICE, Case, run, tool


class Help(Case):
    def test_each_command(self) -> None:
        for name in COMMANDS:
            for word, status in (("--help", 0), ("--version", 0), ("--no-such-word", 2)):
                done = run(tool(name), word)
                self.assert_tame(done, (name, word))
                self.assertEqual(done.status, status, (name, word, done.text))

    def test_words_are_shown_and_not_obeyed(self) -> None:
        """The service's messages contain no control characters from names and arguments."""
        for words in (("dump", "\x1b[31mred"), ("serve", "own=\x1b[2J"),
                      ("\x1b[2J",), ("dump", "--model", "\x07", "x")):
            done = run(SERVICE, *words)
            self.assert_tame(done, words)
            self.assertIn(done.status, (1, 2, 3), (words, done.text))
            self.assertIn("?", done.errors)
