"""What a terminal shows. What is expected was worked out by hand."""
from __future__ import annotations

import re
import unittest

from notes import Note
from screen import Screen, fitted, view_of

# A text, a width, and what of it a terminal of that width shows: wide characters take two columns, combining ones none.
FITTED = [
    ("abc", 3, "abc"), ("abcd", 3, "ab…"),
    ("日本語", 6, "日本語"), ("日本語", 5, "日本…"), ("日本語", 4, "日…"), ("日本語", 3, "日…"), ("한글", 4, "한글"), ("ＡＢ", 3, "Ａ…"),
    ("e\u0301e\u0301e\u0301", 3, "e\u0301e\u0301e\u0301"), ("e\u0301e\u0301e\u0301", 2, "e\u0301…"),
    ("🧀🧀", 4, "🧀🧀"), ("🧀🧀", 3, "🧀…"),
]


def rows_of(screen: Screen, notes: int, message: str, columns: int = 60, rows: int = 10) -> list[str]:
    """The rows that a terminal gets for so many notes, without the commands, which have the last ones."""
    shown = [Note(str(it), [(f"note {it}", 1)], False, []) for it in range(1, notes + 1)]
    painted = screen._painted(view_of(" kitchen ", shown, message), columns, rows, False)
    texts = re.findall(r"\x1b\[(?:0|2|33|1;7)m(.*?)\x1b\[0m\x1b\[K", painted)
    assert len(texts) == rows - 1, "the lowest row is for what is typed"
    return texts[:-2]


class Screens(unittest.TestCase):
    def test_a_text_is_cut_where_the_window_ends(self) -> None:
        for text, columns, expected in FITTED:
            self.assertEqual(fitted(text, columns), expected)

    def test_characters_that_control_a_terminal_are_not_shown(self) -> None:
        for text, expected in (("\x1b[31m", "?[31m"), ("a\nb", "a?b"), ("\u202eabc", "?abc"), ("👩\u200d🚀", "👩\u200d🚀")):
            self.assertEqual(view_of("", [Note("k", [(text, 1)], False, [])], text).lines, [("0", f"  1 [ ] {expected}")])
            self.assertEqual(view_of(text, [], text)[::2], (expected, expected))

    def test_a_list_that_is_longer_than_the_window_scrolls(self) -> None:
        screen = Screen()
        self.assertEqual(rows_of(screen, 3, "")[:5], [" kitchen ", "  1 [ ] note 1", "  2 [ ] note 2", "  3 [ ] note 3", ""])
        page = [f"{it:3} [ ] note {it}" for it in range(1, 21)]
        self.assertEqual(rows_of(screen, 20, ""), [" kitchen · 1 to 6 of 20 lines ", *page[:6]])
        screen.scroll(1)
        self.assertEqual(rows_of(screen, 20, ""), [" kitchen · 7 to 12 of 20 lines ", *page[6:12]])
        screen.scroll_to_end()
        self.assertEqual(rows_of(screen, 20, ""), [" kitchen · 15 to 20 of 20 lines ", *page[14:]])
        screen.scroll(1)
        self.assertEqual(rows_of(screen, 20, "")[1:], page[14:])
        screen.scroll(-1)
        screen.scroll(-1)
        screen.scroll(-1)
        self.assertEqual(rows_of(screen, 20, "")[1:], page[:6])

    def test_a_message_is_shown_however_long_the_list_is(self) -> None:
        screen = Screen()
        for notes in (0, 5, 6, 20, 200):
            self.assertEqual(rows_of(screen, notes, "no note has the number '0'")[-1], "! no note has the number '0'")
        self.assertEqual(rows_of(screen, 20, "x" * 100)[-1], "! " + "x" * 57 + "…")


if __name__ == "__main__":
    unittest.main()
