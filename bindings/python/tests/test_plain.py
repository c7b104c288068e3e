"""Numbers and dates where Babel is not installed, and where it is not wanted."""
import unittest
import warnings
from datetime import date, datetime
from decimal import Decimal
from unittest import mock

from fluent_rattle import FluentBundle, fluent_number

ARGS = {"n": 1234567.5, "d": date(2018, 2, 1), "t": datetime(2018, 2, 1, 10, 30), "p": fluent_number(5, style="percent"),
        "big": 2**70, "far": Decimal("1E+999999999")}
SOURCE = """
m = { $n } { $d } { $t } { $p } { $big } { $far } { NUMBER(1.5, minimumFractionDigits: 2) } { DATETIME($d) }
n = { $n } { 1234567 } { 1.50 }
"""
TEXT = "1234567.5 2018-02-01 2018-02-01 10:30:00 5 1180591620717411303424 1E+999999999 1.50 2018-02-01"


def shown(message_id, **settings):
    bundle = FluentBundle(["en"], use_isolating=False, **settings)
    bundle.add_resource(SOURCE)
    with warnings.catch_warnings(record=True) as told:
        warnings.simplefilter("always")
        return bundle.format_value(message_id, ARGS), {str(each.message) for each in told}


class Plain(unittest.TestCase):
    def test_it_is_not_there(self):
        with mock.patch.dict("sys.modules", {"fluent_rattle._babel": None}):
            self.assertEqual(shown("m"), ((TEXT, []), {"Babel is not installed, so dates are shown as str shows them"}))

    def test_it_is_not_wanted(self):
        self.assertEqual(shown("m", formatter=None), ((TEXT, []), set()))
        self.assertEqual(shown("n", formatter=None), (("1234567.5 1234567 1.50", []), set()))


if __name__ == "__main__":
    unittest.main()
