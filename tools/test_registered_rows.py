"""Unit tests of tools/registered_rows.py."""

import unittest

from registered_rows import rows_in, tables

TABLE = """
pub static SETTINGS: [Row<Setting>; 3] = [
    // RFC 9114, section 11.2.2
    Row {
        number: 0x00,
        name: "Reserved",
        c_name: CName::Absent,
        columns: HTTP2,
    },
    // RFC 9297, section 2.1.1
    Row {
        number: 0x33,
        name: "SETTINGS_H3_DATAGRAM",
        c_name: CName::Same,
        columns: FLAG,
    },
    // a draft
    Row {
        number: 0x14e9_cd29,
        name: "SETTINGS_LONG",
        c_name: CName::Other("SHORT"),
        columns: Setting {
            supported: false,
            ..NUMBER
        },
    },
];
"""


class RowsTest(unittest.TestCase):
    """Rows are read with their numbers, constants and sources, and none is left out."""

    def test_rows(self):
        rows = rows_in("settings", TABLE)
        self.assertEqual([row.number for row in rows], [0x00, 0x33, 0x14E9CD29])
        constants = [None, "SETTING_H3_DATAGRAM", "SETTING_SHORT"]
        self.assertEqual([row.constant for row in rows], constants)
        self.assertEqual(rows[1].source, "RFC 9297, section 2.1.1")
        self.assertIn("supported: false", rows[2].columns)

    def test_refused(self):
        changes = [
            ("; 3]", "; 4]"),  # a row is missing
            ("    // a draft\n", ""),  # a row has no source
            ('CName::Other("SHORT")', "CName::Another"),  # no such column
            ('"SHORT"', '"H3_DATAGRAM"'),  # two constants of one name
            ("pub static", "static"),  # no table
        ]
        for old, new in changes:
            with self.subTest(old), self.assertRaises(ValueError):
                rows_in("settings", TABLE.replace(old, new))

    def test_all_tables(self):
        found = {name: {row.number for row in rows} for name, rows in tables().items()}
        self.assertEqual(found["streams"], {0x00, 0x01, 0x02, 0x03, 0x54})
        self.assertLessEqual({0x0100, 0x0110, 0x0202}, found["codes"])


if __name__ == "__main__":
    unittest.main()
