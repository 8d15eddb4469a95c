import unittest

from . import making  # noqa: F401, for the path
from translator.cnames import PathNames, distinct
from translator.layout import broken, comment, filled
from translator.terms import Unknown


class Lines(unittest.TestCase):
    def test_short_ones_stay(self):
        self.assertEqual(broken("    return a;"), ["    return a;"])

    def test_long_ones_break_after_commas_and_before_operators(self):
        line = "    f(" + ", ".join(["argument"] * 20) + ");"
        lines = broken(line)
        self.assertTrue(all(len(part) <= 120 for part in lines))
        self.assertTrue(all(part.startswith(" " * 12) for part in lines[1:]))
        self.assertEqual(" ".join(part.strip() for part in lines), line.strip())
        lines = broken("    return " + " + ".join(["summand"] * 20) + ";")
        self.assertTrue(lines[1].strip().startswith("+ "))

    def test_the_least_nested_place_is_taken(self):
        parts = ", ".join(f".part_{k} = f(a, b)" for k in range(8))
        lines = broken(f"    return (struct some_name){{{parts}}};")
        self.assertTrue(all(line.endswith(("f(a, b),", "}};", "};")) for line in lines))
        line = "    struct some_long_name_of_a_struct numbers = {{" + ", ".join(["1234567"] * 9) + "}};"
        self.assertTrue(broken(line)[0].endswith("numbers ="))
        line = "    value = (struct name){" + ", ".join(["1234567"] * 20) + "};"
        self.assertTrue(broken(line)[0].startswith("    value = (struct name){1234567, "))
        line = "    if (" + " && ".join(["first + second == third"] * 6) + ") {"
        self.assertTrue(all(line.strip().startswith("&& ") for line in broken(line)[1:]))

    def test_a_long_head_breaks_before_the_functions_name(self):
        head = f"static struct result {'long_' * 16}name(struct parameter p1) {{"
        self.assertEqual(broken(head), ["static struct result", f"        {'long_' * 16}name(struct parameter p1) {{"])

    def test_long_names_break_behind_brackets(self):
        line = f"    return (struct {'long_' * 12}name){{.tag = {'long_' * 12}name}};"
        self.assertEqual(broken(line), [
            f"    return (struct {'long_' * 12}name){{", f"            .tag = {'long_' * 12}name}};",
        ])
        head = f"static struct {'long_' * 20}result {'long_' * 18}name(struct {'long_' * 12}name p1) {{"
        self.assertEqual(broken(head), [
            f"static struct {'long_' * 20}result", f"        {'long_' * 18}name(",
            f"        struct {'long_' * 12}name p1) {{",
        ])

    def test_macros_and_comments_stay(self):
        for line in ("#define " + "a " * 80, " * " + "a " * 80):
            self.assertEqual(broken(line), [line])

    def test_comments(self):
        self.assertEqual(comment(["a"]), ["/* a */"])
        self.assertEqual(comment(["a", "b */"]), ["/*", " * a", " * b * /", " */"])
        self.assertEqual(filled("aa bb cc", 5), ["aa bb", "cc"])


class NamesInC(unittest.TestCase):
    def test_paths(self):
        paths = PathNames({"ism_answer"})
        self.assertEqual(paths.name("a::B::c"), "a_B_c")
        self.assertEqual(paths.name("ism::answer"), "ism_answer_")
        with self.assertRaises(Unknown):
            paths.name("a_B::c")

    def test_locals(self):
        given = distinct({0: "result", 1: "short", 2: "next", 3: "next"})
        self.assertEqual(given, {0: "result", 1: "short_", 2: "next", 3: "next_2"})

    def test_no_two_locals_have_one_name(self):
        given = distinct({0: "x_2", 1: "x", 2: "x", 3: "short", 4: "short_", 5: "each", 6: "t5", 7: "t5"})
        self.assertEqual(len(set(given.values())), len(given))
        self.assertNotIn("each", given.values())
