import json
import unittest

from metis_planner.answers import Refused
from metis_planner.text import documents
from metis_planner.text.documents import ComponentType, Names, State, one_each, two_states
from tests.importers.shapes import shape


def made(*types):
    return documents.document("made", list(types), Names())


class NamesTest(unittest.TestCase):
    def test_a_name_stays(self):
        self.assertEqual(Names().of("libstdc_6-dev.x/y@z"), "libstdc_6-dev.x/y@z")

    def test_other_characters_become_underscores(self):
        self.assertEqual(Names().of("postgres:16"), "postgres_16")

    def test_no_two_texts_have_one_name(self):
        names = Names()
        self.assertEqual(names.of("a:b"), "a_b")
        self.assertNotEqual(names.of("a_b"), "a_b")
        self.assertEqual(names.of("a:b"), "a_b")

    def test_a_name_that_is_the_digest_of_another_text(self):
        long = "x" * 70
        digested = Names().of(long)
        names = Names()
        self.assertEqual(names.of(digested), digested)
        other = names.of(long)
        self.assertNotEqual(other, digested)
        self.assertLessEqual(len(other), documents.LONGEST_NAME)
        self.assertEqual((names.of(digested), names.of(long)), (digested, other))
        names = Names()
        self.assertEqual(names.of(long), digested)
        self.assertNotEqual(names.of(digested), digested)

    def test_a_long_name_is_cut_and_keeps_a_digest_of_its_text(self):
        name = Names().of("x" * 70)
        # The digest is sha256sum's of 70 letters x.
        self.assertEqual(name, "x" * 51 + "-c71bd109227e")
        self.assertEqual(len(name), documents.LONGEST_NAME)
        self.assertEqual(Names().of("x" * 64), "x" * 64)

    def test_a_type_named_port_would_take_the_word_for_ports(self):
        self.assertNotEqual(Names().of("port"), "port")


class DocumentTest(unittest.TestCase):
    def test_one_type_a_line(self):
        text = made(two_states("A", "off", "on", ("a",)), two_states("B", "off", "on", (), one_each(["a"])))
        expected = (
            '{"aeolus":1,"comment":"made","types":[\n'
            '{"name":"A","initial":"off","states":[{"name":"off","next":["on"]},'
            '{"name":"on","provide":["a"],"next":["off"]}]},\n'
            '{"name":"B","initial":"off","states":[{"name":"off","next":["on"]},'
            '{"name":"on","require":["a"],"next":["off"]}]}]}\n'
        )
        self.assertEqual(text, expected)

    def test_a_count_makes_version_2(self):
        text = made(two_states("A", "off", "on", (), {"p": 3}))
        self.assertEqual(json.loads(text)["aeolus"], 2)
        self.assertEqual(shape(text), {"A": ["off > on", "on -p*3 > off"]})


class PartsTest(unittest.TestCase):
    def test_128_ports_are_not_cut(self):
        ports = [f"p{number:03}" for number in range(128)]
        self.assertEqual(list(shape(made(two_states("A", "off", "on", (), one_each(ports))))), ["A"])

    def test_129_ports_are_cut_into_parts(self):
        ports = [f"p{number:03}" for number in range(129)]
        shapes = shape(made(two_states("A", "off", "on", (), one_each(ports))))
        self.assertEqual(list(shapes), ["A", "A/part-1", "A/part-2"])
        self.assertEqual(shapes["A"][1], "on -A/part-1 -A/part-2 > off")
        required = " ".join(f"-{port}" for port in ports[:128])
        self.assertEqual(shapes["A/part-1"], ["absent > there", f"there +A/part-1 {required} > absent"])
        self.assertEqual(shapes["A/part-2"], ["absent > there", "there +A/part-2 -p128 > absent"])

    def test_the_counts_of_all_states_are_added_and_equal_lists_share_parts(self):
        required = {f"p{number}": 16 for number in range(6)}  # 96 providers
        component = ComponentType(
            "A", (State("off", next=("low",)), State("low", require=required, next=("high",)), State("high", require=required))
        )
        shapes = shape(made(component))
        self.assertEqual(list(shapes), ["A", "A/part-1"])
        # After one state is cut 1 + 96 are left, which is within 128.
        counts = " ".join(f"-p{number}*16" for number in range(6))
        self.assertEqual(shapes["A"], ["off > low", "low -A/part-1 > high", f"high {counts}"])

    def test_a_part_asks_for_128_providers_at_most(self):
        required = {f"p{number}": 15 for number in range(9)}  # 135: eight times 15 fit into 128, nine do not
        shapes = shape(made(two_states("A", "off", "on", (), required)))
        counts = " ".join(f"-p{number}*15" for number in range(8))
        self.assertEqual(shapes["A/part-1"][1], f"there +A/part-1 {counts} > absent")
        self.assertEqual(shapes["A/part-2"][1], "there +A/part-2 -p8*15 > absent")


class LimitsTest(unittest.TestCase):
    def refused(self, *types):
        with self.assertRaises(Refused) as caught:
            made(*types)
        return str(caught.exception)

    def test_pairs(self):
        types = [two_states(f"t{number}", "off", "on") for number in range(1001)]
        reason = "the universe has 2002 pairs of type and state, and Metis takes at most 2000"
        self.assertEqual(self.refused(*types), reason)
        made(*types[:1000])

    def test_ports(self):
        types = [two_states(f"t{a}", "off", "on", [f"p{a}.{b}" for b in range(5)]) for a in range(801)]
        self.assertEqual(self.refused(*types), "the universe has 4005 ports, and Metis takes at most 4000")

    def test_states(self):
        component = ComponentType("A", tuple(State(f"s{number}") for number in range(65)))
        self.assertEqual(self.refused(component), "A has 65 states, and Metis takes at most 64 a type")

    def test_counts(self):
        component = two_states("A", "off", "on", (), {"p": 17})
        self.assertEqual(self.refused(component), "A asks for 17 providers of p, and Metis takes at most 16")

    def test_bytes(self):
        # 1,000 types with 127 ports each, of 64 bytes: more than 8 million bytes, of which few ports are different.
        ports = [f"{number:03}".ljust(64, "x") for number in range(127)]
        types = [two_states(f"t{number}", "off", "on", (), one_each(ports)) for number in range(1000)]
        self.assertRegex(self.refused(*types), "^the document has [0-9]+ bytes, and Metis takes at most 4194304$")
