"""Files of factors, operators and requests."""

import random
import tempfile
import unittest
from array import array
from collections import Counter
from pathlib import Path

from redstartgilt import (
    REQUEST_FILE_HEADER,
    Factor,
    LdlFactor,
    MalformedFile,
    NotLower,
    Refused,
    RequestFileFault,
    Requests,
    SparseRowOperator,
    WholeFactor,
    read_operator,
    read_requests,
    write_requests,
)

from redstartgilt._request_faults import first_fault

from .given import F2
from .replay_cases import Case, cases

HEADER = "%%MatrixMarket matrix coordinate real general\n"
HEADER_LINE = REQUEST_FILE_HEADER.encode() + b"\n"
WHOLE = "%%MatrixMarket matrix coordinate integer general\n"


class Files(unittest.TestCase):
    def setUp(self):
        folder = tempfile.TemporaryDirectory()
        self.addCleanup(folder.cleanup)
        self.path = Path(folder.name) / "file.mtx"

    def written(self, text):
        self.path.write_bytes(text if isinstance(text, bytes) else text.encode())
        return self.path

    def assertFault(self, read, text, line, reason):
        with self.assertRaisesRegex(MalformedFile, reason) as fault:
            read(self.written(text))
        self.assertEqual(fault.exception.line, line)
        self.assertTrue(str(fault.exception).startswith(f"{self.path}:" if line is None else f"{self.path}:{line}: "))

    def test_factors(self):
        text = HEADER + "% a comment\n\n2 2 3\n2 1 2.0\n1 1 1\n% another\n2 2 1e0\n"
        self.assertEqual(Factor.read(self.written(text)).variances().tolist(), [5.0, 1.0])
        self.assertEqual(Factor.read(self.path, cell_to_place=[1, 0]).variances().tolist(), [1.0, 5.0])
        self.assertEqual(LdlFactor.read(self.path, [4, 1]).variances().tolist(), [4.25, 1.0])
        self.assertEqual(Factor.read(str(self.path)).nnz, 3)
        whole = WHOLE + "2 2 3\n2 1 -3\n1 1 1\n2 2 +1"
        self.assertEqual(WholeFactor.read(self.written(whole)).variances(), [10, 1])
        self.assertEqual(Factor.read(self.path).variances().tolist(), [10.0, 1.0])

    def test_upper_factors_and_matrices(self):
        with self.assertRaisesRegex(NotLower, r"entry \(0, 1\) .*file.mtx:3: .* this is an upper factor") as told:
            Factor.read(self.written(HEADER + "2 2 3\n1 2 2.0\n1 1 1.0\n2 2 1.0\n"))
        self.assertEqual((told.exception.row, told.exception.column), (0, 1))
        with self.assertRaisesRegex(NotLower, "the matrix itself is no factor"):
            Factor.read(self.written(HEADER + "2 2 4\n1 2 2.0\n1 1 1.0\n2 2 1.0\n2 1 2.0\n"))
        symmetric = HEADER.replace("general", "symmetric")
        self.assertFault(Factor.read, symmetric + "1 1 1\n1 1 1.0\n", 1, "has the matrix itself, and no factor of it")

    def test_faults_of_factors(self):
        for text, line, reason in [
            ("", 1, "the first line must be a header"),
            ("1 1 1\n", 1, "the first line must be a header"),
            (HEADER.replace("coordinate", "array"), 1, 'not "matrix array"'),
            (HEADER.replace("real", "complex"), 1, "values must be real or integer, not complex"),
            (HEADER.replace("general", "hermitian"), 1, "must be general, not hermitian"),
            (HEADER, None, "the line with rows, columns and entries is missing"),
            (HEADER + "2 2\n", 2, "must be three whole numbers"),
            (HEADER + "2 2 -1\n", 2, "must be three whole numbers"),
            (HEADER + "2 3 0\n", None, "a factor is square, but this has 2 rows and 3 columns"),
            (HEADER + "1 1 1\n1 1\n", 3, "this line has 2 words"),
            (HEADER + "1 1 1\n0 1 1.0\n", 3, "row 0 is not from 1 to 1"),
            (HEADER + "1 1 1\n1 2 1.0\n", 3, "column 2 is not from 1 to 1"),
            (HEADER + "1 1 1\nx 1 1.0\n", 3, "row x is not a whole number from 1"),
            (HEADER + "1 1 1\n1 1 nan\n", 3, "value nan is not a finite number"),
            (HEADER + "1 1 1\n1 1 1_0\n", 3, "value 1_0 is not a finite number"),
            (HEADER + "1 1 1\n1 1 1e999\n", 3, "value 1e999 is not finite"),
            (HEADER + "1 1 2\n1 1 1.0\n1 1 2.0\n", 4, "there twice, first in line 3"),
            (HEADER + "1 1 1\n1 1 1.0\n1 1 2.0\n", 4, "more entries than the 1"),
            (HEADER + "1 1 2\n1 1 1.0\n", None, "says it has 2 entries, but has 1"),
            (WHOLE + "1 1 1\n1 1 9007199254740993\n", 3, "too many digits for a 64-bit float"),
            (WHOLE + "1 1 1\n1 1 1.5\n", 3, "not a whole number of 64 bits"),
            (HEADER.encode() + b"\xff\n", None, "not text"),
        ]:
            self.assertFault(Factor.read, text, line, reason)
        self.assertFault(WholeFactor.read, HEADER + "1 1 1\n1 1 1.0\n", 1, "values must be integer, not real")
        self.assertFault(WholeFactor.read, WHOLE + f"1 1 1\n1 1 {2**63}\n", 3, "not a whole number of 64 bits")
        with self.assertRaises(Refused) as refused:
            Factor.read(self.written(HEADER + "5000 5000 0\n"))
        self.assertEqual(refused.exception.number, 1)
        with self.assertRaises(OSError):
            Factor.read(self.path.parent / "missing.mtx")

    def test_operators(self):
        found = read_operator(self.written(HEADER + "3 2 3\n3 2 0.5\n1 1 1\n3 1 2\n"))
        self.assertEqual(found.rows(), [[(0, 1.0)], [], [(0, 2.0), (1, 0.5)]])
        self.assertEqual(Factor(F2).operator_variances(found).tolist(), [5.0, 0.0, 16.25])
        with self.assertRaises(Refused) as refused:
            Factor(F2).operator_variances(read_operator(self.written(HEADER + "1 3 1\n1 1 1\n")))
        self.assertEqual(refused.exception.number, 4)
        with self.assertRaises(Refused) as refused:
            read_operator(self.written(HEADER + "4097 1 0\n"))
        self.assertEqual(refused.exception.number, 1)

    def test_requests(self):
        write_requests(self.path, 3, [(0, 2), (1, 1), (2, 0)])
        text = self.path.read_text()
        self.assertEqual(text, f"{REQUEST_FILE_HEADER}\n3 3 2\n3 1\n2 2\n")
        found = read_requests(self.path)
        self.assertEqual((found.dimension, list(found)), (3, [(2, 0), (1, 1)]))
        # The file's own order and repeats are kept.
        found = read_requests(self.written(f"{REQUEST_FILE_HEADER}\n% cells\n3 3 3\n2 2\n3 1\n2 2\n"))
        self.assertEqual(list(found), [(1, 1), (2, 0), (1, 1)])
        self.assertEqual(found.to_matrix_market(), text.encode())
        every = read_requests(self.written(f"{REQUEST_FILE_HEADER}\n3 3 0\n"))
        self.assertEqual(list(every), [(0, 0), (1, 1), (2, 2)])
        self.assertEqual(len(every), 3)

    def test_refused_requests_write_nothing(self):
        self.written("as it was")
        for number, dimension, pairs in [
            (24, 3, []),
            (5, 3, [(3, 0)]),
            (5, 3, [(0, -1)]),
            (1, 4097, [(0, 0)]),
            (4, 3, Requests(3, [0, 1], [0])),
            (5, 3, Requests(3, array("i", [-1]), array("i", [0]))),
        ]:
            with self.assertRaises(Refused) as refused:
                write_requests(self.path, dimension, pairs)
            self.assertEqual(refused.exception.number, number)
            self.assertEqual(self.path.read_text(), "as it was")
        write_requests(self.path, 0, [])
        self.assertEqual(len(read_requests(self.path)), 0)

    def test_refused_request_files(self):
        for number, text in [
            (15, ""),
            (15, REQUEST_FILE_HEADER + "\r\n1 1 0\n"),
            (16, REQUEST_FILE_HEADER + "\n"),
            (16, REQUEST_FILE_HEADER + "\n1 2 0\n"),
            (16, REQUEST_FILE_HEADER + "\n1 1 2\n1 1\n"),
            (17, REQUEST_FILE_HEADER + "\n2 2 1\n1 2\n"),
            (17, REQUEST_FILE_HEADER + "\n2 2 1\n0 1\n"),
        ]:
            with self.assertRaises(Refused) as refused:
                read_requests(self.written(text))
            self.assertEqual(refused.exception.number, number)


class RequestFaults(unittest.TestCase):
    """The checks that tell the line agree with the library on whether a file is refused, and by which number."""

    def assertAgrees(self, text):
        try:
            Requests.from_matrix_market(text)
        except RequestFileFault as fault:
            self.assertEqual(first_fault(text), (fault.number, fault.line), text)
            return fault
        self.assertIsNone(first_fault(text), text)
        return None

    def test_reasons(self):
        for text, told in [
            (b"", '15: line 1: the file is empty; its first line must be exactly "%s"' % REQUEST_FILE_HEADER),
            (
                HEADER_LINE[:-1] + b"\r\n",
                "15: line 1: a carriage return (CR) follows the header; lines must end in LF alone",
            ),
            (b"\xef\xbb\xbf" + HEADER_LINE, "15: line 1: a byte order mark stands before the header"),
            (
                b" " + HEADER_LINE,
                "15: line 1: the header must have single spaces between its words and none around them",
            ),
            (b'a\tb"\n', '15: line 1: the first line must be exactly "%s", and is "a\\tb\\""' % REQUEST_FILE_HEADER),
            (HEADER_LINE, "16: the file ends before its size line, the line with rows, columns and entries"),
            (HEADER_LINE + b"3 3 1\n", "16: line 2: the entry count is 1, and the file has 0 entry lines"),
            (HEADER_LINE + b"% a\n\n3 4 1\n", "16: line 4: the sizes must be equal, and are 3 rows and 4 columns"),
            (
                HEADER_LINE + b" % a\n",
                "16: line 2: a comment line must have % as its first byte, and a space or tab stands before it",
            ),
            (HEADER_LINE + b"3 3 1\n1 x\n", '16: line 3: an entry is two numbers, and "x" is not digits alone'),
            (HEADER_LINE + b"3 3 1\n1\n", "16: line 3: an entry is two numbers, and this line has 1 field"),
            (
                HEADER_LINE + b"3 3 1\n1 1\r\n",
                "16: line 3: a carriage return (CR) is in the line; lines must end in LF alone",
            ),
            (HEADER_LINE + b"5000 5000 0\n", "16: line 2: the size 5000 is above 4096"),
            (
                HEADER_LINE + b"3 3 " + b"9" * 25 + b"\n",
                "16: line 2: the entry count 99999999... (a number of 25 digits) is above 1048576",
            ),
            (HEADER_LINE + b"3 3 1\n3 0\n", "17: line 3: column 0 is outside: indices count from 1"),
            (
                HEADER_LINE + b"3 3 1\n1 2\n",
                "17: line 3: entry (1, 2) is above the diagonal: its row must be at least its column",
            ),
        ]:
            self.assertEqual(str(self.assertAgrees(text)), f"refusal {told}")

    def test_replayed_files(self):
        count = 0
        for lines in cases("stdin"):
            case = Case(lines)
            if case.kind == "mmread":
                self.assertAgrees(bytes(case.list("file")))
                count += 1
        self.assertGreaterEqual(count, 200)

    def test_random_files(self):
        chosen = random.Random(1)
        refused = Counter()
        for _ in range(3_000):
            entries = chosen.randrange(4)
            sizes = chosen.choice(["3 3", "3 3", "3 3", "03\t3", " 3  3", "3 4", "4097 4097", "0 0"])
            text = REQUEST_FILE_HEADER + "\n" + chosen.choice(["", "%\n", "\n", " \t\n"])
            text += f"{sizes} {entries + chosen.randrange(8) // 7}\n"
            for _ in range(entries):
                text += chosen.choice(["3 1", "2 2", "1 1", "1 1", "3 3", "4 1", "1 2", "0 1"]) + "\n"
            data = bytearray(text.encode())
            for _ in range(chosen.choice([0, 0, 1, 2])):
                data[chosen.randrange(len(data))] = chosen.choice(b"0123 \t\r\n%x\xff")
            fault = self.assertAgrees(bytes(data))
            refused[fault and fault.number] += 1
        self.assertGreaterEqual(min(refused[number] for number in (None, 15, 16, 17)), 100, refused)


class Operators(unittest.TestCase):
    def assertRefused(self, number, call, *arguments):
        with self.assertRaises(Refused) as refused:
            call(*arguments)
        self.assertEqual(refused.exception.number, number)

    def test_forms(self):
        factor = Factor(F2)
        for form in (
            [[(0, 1.0), (1, 1.0)]],
            [{0: 1.0, 1: 1.0}],
            SparseRowOperator(2, [0, 2], [0, 1], [1.0, 1.0]),
            SparseRowOperator(2, [0, 2], [1, 0], [1, 1]),
            SparseRowOperator(2, [0, 3], [1, 0, 0], [1, 0.5, 0.5]),
        ):
            self.assertEqual(factor.operator_variances(form).tolist(), [2.0])
        self.assertEqual(factor.operator_variances([]).tolist(), [])
        self.assertEqual(factor.operator_variances([[], [(0, 1)]]).tolist(), [0.0, 5.0])

    def test_refusals(self):
        factor = Factor(F2)
        self.assertRefused(9, factor.operator_variances, [[(2, 1.0)]])
        self.assertRefused(9, factor.operator_variances, [[(-1, 1.0)]])
        self.assertRefused(4, factor.operator_variances, SparseRowOperator(3, [0], [], []))
        self.assertRefused(9, SparseRowOperator, 2, [], [], [])
        self.assertRefused(9, SparseRowOperator, 2, [0, 2], [0], [1.0])
        self.assertRefused(9, SparseRowOperator, 2, [0, 1], [0], [])
        self.assertRefused(1, SparseRowOperator, 4097, [0], [], [])
        one = [[(0, 1.0)]]
        self.assertRefused(9, factor.covariances, one, one, [(0, 1)])
        self.assertRefused(9, factor.covariances, one, one, [(-1, 0)])
        self.assertRefused(4, factor.covariances, one, SparseRowOperator(3, [0], [], []), [])
        self.assertRefused(6, Factor(([0, 0], [], [])).operator_variances, one)

    def test_requests_of_an_operator(self):
        found = SparseRowOperator.of_rows(3, [[(0, 1.0), (2, -1.0)], [(2, 1.0)]]).requests()
        self.assertEqual(list(found), [(0, 0), (2, 0), (2, 2)])


if __name__ == "__main__":
    unittest.main()
