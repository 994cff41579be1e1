"""usage: RDAP_SO=FOLDER/librdap.so python3 -m unittest discover -s bindings/python"""
import os
import pathlib
import pickle
import random
import unittest
from itertools import accumulate
from ipaddress import IPv4Address, IPv4Interface, IPv4Network, IPv6Address, IPv6Network, ip_address, summarize_address_range

from limpetvane import ADDRESS_TEXT_ROOM, CHANGES_BYTES, IMAGE_BYTES, PATHS, RECORDS
from limpetvane import AddressRefused, Answer, Changes, FoldRefused, Kind, Library, RangeRefused, Refused, Relation, Tag

LIBRARY = Library(os.environ["RDAP_SO"])
VECTORS = pathlib.Path(__file__).resolve().parents[2] / "tests" / "vectors"
S = (VECTORS / "s.image").read_bytes()
CAMPUS = (VECTORS / "campus.image").read_bytes()
# the image of S13.3: one AS block, 12 to 15, handle A, name B
EXAMPLE = bytes.fromhex("01000101 120017 200008 0000000C 0000000F 21000141 22000142 23000101")


def line(call):
    """What the small program writes for an answer."""
    try:
        a = call()
        return " ".join(map(str, [200, 0, int(a.kind), len(a.records), *a.records]))
    except Refused as r:
        return f"{r.status} {r.reason} {int(r.kind)} {r.count}"


def vectors():
    """Each file of paths, with its image and its paths."""
    files = sorted(VECTORS.rglob("*.paths"))
    assert VECTORS / "campus.paths" in files
    for file in files:
        yield file, file.with_suffix(".image").read_bytes(), file.read_bytes().split(b"\n")[:-1]


def value(call, *arguments):
    """What a call gives or raises."""
    try:
        return call(*arguments)
    except Refused as refusal:
        return refusal


def singly(paths, image, places):
    """What a batch gives, by single calls."""
    answers = []
    for path in paths:
        if places < 4:
            break
        answers.append(value(LIBRARY.answer, path, image, places - 4))
        places -= 4 + len(getattr(answers[-1], "records", []))
    return answers


class Calls(unittest.TestCase):
    def test_vectors(self):
        for file, image, paths in vectors():
            expected = file.with_suffix(".expected").read_text().split("\n")[:-1]
            self.assertEqual(len(paths), len(expected))
            for path, wanted in zip(paths, expected):
                self.assertEqual(line(lambda: LIBRARY.answer(path, image)), wanted, (file, path))

    def test_answers(self):
        for change, calls, reasons in (("05", 14, {0, 8}), ("06", 17, {0})):
            asked = list(rows(change, "rdap_answer"))
            for image, path, places, reply, output in asked:
                answer = value(LIBRARY.answer, column(change, path), image, int(places))
                if reply[1] == 0:
                    self.assertEqual(answer, Answer(reply[2], reply[3], [] if output == "-" else list(map(int, output.split()))))
                else:
                    self.assertEqual(answer, Refused(reply))
            self.assertEqual((len(asked), {reply[1] for _, _, _, reply, _ in asked}), (calls, reasons))

    def test_relations(self):
        for row in (VECTORS / "relations.tsv").read_text().split("\n")[:-1]:
            if not row.startswith("#"):
                record, relation, places, wanted = row.split("\t")
                call = lambda: LIBRARY.relation(CAMPUS, int(record), Relation[relation.upper()], int(places))
                self.assertEqual(line(call), wanted, row)

    def test_example(self):
        self.assertEqual(LIBRARY.answer("/autnum/12", EXAMPLE), Answer(Kind.AUTNUM, Relation.NONE, [0]))
        self.assertEqual(LIBRARY.handle(EXAMPLE, 0), b"A")
        self.assertEqual(LIBRARY.name(EXAMPLE, 0), b"B")
        self.assertEqual(LIBRARY.name(EXAMPLE, 1), b"")
        self.assertEqual(LIBRARY.handle(EXAMPLE[:-1], 0), b"")

    def test_refusals(self):
        with self.assertRaises(Refused) as caught:
            LIBRARY.answer("/autnum/12", EXAMPLE[:-1])
        self.assertEqual((caught.exception.status, caught.exception.reason, caught.exception.defect, caught.exception.place), (500, 2, 3, 0))
        with self.assertRaises(Refused) as caught:
            LIBRARY.answer("/autnum/12", EXAMPLE, places=0)
        self.assertEqual((caught.exception.reason, caught.exception.count, caught.exception.kind), (9, 1, Kind.AUTNUM))
        with self.assertRaises(Refused) as caught:
            LIBRARY.relation(EXAMPLE, 0, Relation.UP)
        self.assertEqual((caught.exception.reason, caught.exception.relation), (8, Relation.UP))
        with self.assertRaises(Refused):
            LIBRARY.answer("", b"")

    def test_refusals_as_values(self):
        refusal = Refused((404, 8, 8, 1, 0, 0, 0))
        self.assertEqual((str(refusal), refusal.relation), ("status 404, reason 8", Relation.UP))
        self.assertEqual({refusal, pickle.loads(pickle.dumps(refusal))}, {value(LIBRARY.relation, EXAMPLE, 0, Relation.UP)})
        self.assertNotEqual(refusal, value(LIBRARY.relation, EXAMPLE, 0, Relation.TOP))


class Batches(unittest.TestCase):
    def refused(self, paths, image, reason, **places):
        with self.assertRaises(Refused) as caught:
            LIBRARY.batch(paths, image, **places)
        self.assertEqual(caught.exception.reason, reason)
        return caught.exception

    def equal(self, paths, image, places=None):
        """Holds a batch to the single calls."""
        room = (4 + RECORDS) * len(paths) if places is None else places
        got = LIBRARY.batch(paths, image, places)
        self.assertEqual(got, singly(paths, image, room), (paths, places))
        return got

    def test_vectors(self):
        for file, image, paths in vectors():
            whole = value(LIBRARY.answer, "/help", image)
            for chunk in (paths[at:at + PATHS] for at in range(0, len(paths), PATHS)):
                if whole == Answer(Kind.HELP, Relation.NONE, []):
                    self.assertEqual(len(self.equal(chunk, image)), len(chunk))
                else:
                    self.assertEqual(self.refused(chunk, image, 2), whole, file)

    def test_number_of_paths(self):
        self.assertEqual(len(self.equal(["/help"] * 64, S)), 64)
        self.assertEqual(self.refused(["/help"] * 65, S, 10).status, 400)
        self.refused(["/help"] * 100000, S, 10)
        self.refused(["/help"] * 65, S[:-1], 2)
        self.assertEqual(self.equal([""], S), [Refused((400, 3, 0, 0, 0, 0, 0))])

    def test_no_paths(self):
        for places in (None, 0, 4, 100):
            self.assertEqual(LIBRARY.batch([], S, places), [])
            refusal = self.refused([], EXAMPLE[:-1], 2, places=places)
            self.assertEqual((refusal.status, refusal.defect, refusal.place), (500, 3, 0))

    def test_feeds(self):
        paths = ["/help\n/help", "/ip/192.0.2.1", "\n", b"/help\n", "/" + "a" * 1023 + "\n", "/help\n" + "a" * 1018, "/help"]
        answers = self.equal(paths, S)
        self.assertEqual([getattr(a, "reason", 0) for a in answers], [3, 0, 3, 3, 1, 3, 0])
        self.assertEqual(answers[1].records, [2])

    def test_paths(self):
        paths = ["", "/help?" + "a" * 1018, "/help?" + "a" * 1019, b"/ip/\x80", "/entity/\u00e9", b"/\xff\xfe", b"/\0", "/help\r", b"/help"]
        reasons = [getattr(a, "reason", 0) for a in self.equal(paths, S)]
        self.assertEqual(reasons, [3, 0, 1, 3, 3, 3, 3, 3, 0])

    def test_places(self):
        paths = ["/ips?name=*", "/ip/192.0.2.1", "/ips/rirSearch1/bottom/192.0.2.0/24", "/x", "/ips/rirSearch1/up/192.0.2.64/26", "/help"]
        for places in range(50):
            self.equal(paths, S, places)
        full = Refused((507, 9, 7, 0, 7, 0, 0))
        lookup = Answer(Kind.IP, Relation.NONE, [2])
        wanted = {0: [], 3: [], 4: [full], 5: [full], 9: [full, lookup], 10: [full, lookup]}
        for places, answers in wanted.items():
            self.assertEqual(LIBRARY.batch(paths, S, places), answers)
        self.assertEqual(LIBRARY.batch(paths[1:], S, 4), [Refused((507, 9, 1, 0, 1, 0, 0))])
        self.assertEqual(LIBRARY.batch(paths[1:], S, 5), [lookup])

    def test_relations(self):
        paths = [f"/ips/rirSearch1/{r}/192.0.2.0/{length}" for r in ("up", "down", "top", "bottom") for length in (24, 31)]
        answers = self.equal(paths, S)
        self.assertEqual([a.relation for a in answers], [1, 1, 2, 2, 3, 3, 4, 4])
        self.assertEqual(answers[0], Refused((404, 8, 8, 1, 0, 0, 0)))
        self.assertEqual(self.equal(paths[6:], S, 8), [Refused((507, 9, 8, 4, 5, 0, 0)), Refused((507, 9, 8, 4, 2, 0, 0))])
        self.equal(["/ips/rirSearch1/%75p/192.0.2.0/24", "/ips/rirSearch1/Up/192.0.2.0/24", "/ips/rirSearch1/up", "/help?/a/up"], S)

    def test_wrong_arguments(self):
        self.refused(["/help"], EXAMPLE[:-1], 2, places=0)
        for paths in ("/help", b"/help", bytearray(b"/help")):
            with self.assertRaises(TypeError):
                LIBRARY.batch(paths, S)
        with self.assertRaises(ValueError):
            LIBRARY.batch(["/help"], S, -1)


#: The number of the newest change: a row holds if it says so.
NEWEST = max(int(folder.name) for folder in (VECTORS / "changes").iterdir() if folder.is_dir())


def column(change, text):
    """The bytes that a column stands for."""
    file = VECTORS / "changes" / change / text[1:]
    return b"" if text == "-" else file.read_bytes() if text[0] == "@" else bytes.fromhex(text)


def rows(change, function):
    """The calls of a function in the vectors of a change: first input (bytes), second, room, reply (numbers) and output."""
    for row in (VECTORS / "changes" / change / "rows.tsv").read_text().split("\n")[1:-1]:
        name, first, second, room, reply, output, _, until, _ = row.split("\t")
        if name == function and NEWEST <= int(until):
            yield column(change, first), second, room, tuple(map(int, reply.split())), output


def bounds(text):
    """The addresses of a range of 8 or 32 bytes."""
    address = {8: IPv4Address, 32: IPv6Address}[len(text)]
    return address(text[:len(text) // 2]), address(text[len(text) // 2:])


def near_borders(rng, top):
    """The ends of a prefix, each as it is or one address off."""
    size = 2 ** rng.randrange(top.bit_length() + 1)
    first = rng.randrange(0, top + 1, size)
    return max(first + rng.randint(-1, 1), 0), min(first + size - 1 + rng.randint(-1, 1), top)


def drawn(rng, top):
    """First and last, first not above last: mostly few addresses, else at the borders of a prefix or anywhere."""
    sort = rng.randrange(10)
    if sort < 7:
        first = rng.randint(0, top)
        return first, min(first + rng.randrange(4 ** (sort + 1)), top)
    return sorted(near_borders(rng, top) if sort < 9 else (rng.randint(0, top), rng.randint(0, top)))


class Prefixes(unittest.TestCase):
    def refused(self, first, last, **room):
        with self.assertRaises(RangeRefused) as caught:
            LIBRARY.prefixes(first, last, **room)
        return caught.exception.reason, caught.exception.count

    def test_vectors(self):
        seen = set()
        for text, _, room, (reason, count), output in rows("03", "rdap_prefixes"):
            if len(text) not in (8, 32):  # not two addresses of a family
                continue
            seen.add(reason)
            if reason != 0:
                self.assertEqual(self.refused(*bounds(text), room=int(room)), (reason, count), text)
                continue
            prefixes = LIBRARY.prefixes(*bounds(text), room=int(room))
            self.assertEqual(len(prefixes), count)
            self.assertEqual(b"".join(p.network_address.packed + bytes([p.prefixlen]) for p in prefixes), column("03", output), text)
        self.assertEqual(seen, {0, 6, 9})

    def test_ranges_of_records(self):
        seen = 0
        for image, record, _, (offset, length), _ in rows("03", "rdap_range"):
            self.assertEqual(LIBRARY.range(image, int(record)), image[offset:offset + length], record)
            seen += length != 0
        self.assertEqual(seen, 21)

    def test_peer(self):
        for address, top in ((IPv4Address, 2 ** 32 - 1), (IPv6Address, 2 ** 128 - 1)):
            rng = random.Random(top)
            for _ in range(20000):
                first, last = map(address, drawn(rng, top))
                self.assertEqual(LIBRARY.prefixes(first, last), list(summarize_address_range(first, last)), (first, last))

    def test_most(self):
        for address, top, most, size in ((IPv4Address, 2 ** 32 - 1, 62, 5), (IPv6Address, 2 ** 128 - 1, 254, 17)):
            first, last = address(1), address(top - 1)
            self.assertEqual(len(LIBRARY.prefixes(first, last)), most)
            self.assertEqual(len(LIBRARY.prefixes(first, last, room=most * size)), most)
            self.assertEqual(self.refused(first, last, room=most * size - 1), (9, most))
            self.assertEqual(self.refused(last, first), (6, 0))

    def test_records(self):
        self.assertEqual([str(p) for p in LIBRARY.record_prefixes(S, 4)], ["192.0.2.128/25"])
        for record in range(16):
            wanted = list(summarize_address_range(*bounds(LIBRARY.range(CAMPUS, record))))
            self.assertEqual(LIBRARY.record_prefixes(CAMPUS, record), wanted)
        refusals = [(EXAMPLE, 0, "AS block"), (CAMPUS, 16, "AS block"), (CAMPUS, 20, "AS block"), (CAMPUS, 21, "no block"),
                    (CAMPUS, 39, "no record"), (EXAMPLE, 1, "no record"), (S[:-1], 0, "defective"), (b"", 0, "defective")]
        for image, record, message in refusals:
            with self.assertRaisesRegex(ValueError, message):
                LIBRARY.record_prefixes(image, record)

    def test_wrong_arguments(self):
        four, six = IPv4Address(1), IPv6Address(1)
        for first, last in ((four, six), (six, four), ("0.0.0.1", four), (1, 1), (four, IPv4Interface("0.0.0.1/8")), (b"\0", None)):
            with self.assertRaises(TypeError):
                LIBRARY.prefixes(first, last)
        for first, last in ((IPv6Address("::1%eth0"), six), (six, IPv6Address("::1%eth0"))):
            with self.assertRaisesRegex(ValueError, "scope"):
                LIBRARY.prefixes(first, last)
        with self.assertRaises(ValueError):
            LIBRARY.prefixes(four, four, -1)
        refusal = RangeRefused(9, 62)
        self.assertEqual((str(refusal), pickle.loads(pickle.dumps(refusal)).args), ("reason 9", (9, 62)))


def groups(rng):
    """The groups of an IPv6 address, of any value or small: some or most of them zero, two runs of zeros of one length, or none."""
    top = rng.choice((1, 9, 0xF, 0xFF, 0xFFF, 0xFFFF))
    found = [rng.randint(1, top) for _ in range(8)]
    sort = rng.randrange(4)
    if sort < 2:
        return [group * (rng.random() < (0.5, 0.85)[sort]) for group in found]
    if sort == 2:
        length = rng.randint(1, 3)
        first = rng.randint(0, 7 - 2 * length)
        second = rng.randint(first + length + 1, 8 - length)
        for at in range(length):
            found[first + at] = found[second + at] = 0
    return found


#: What the first 96 bits of an address may be that has IPv4 inside, and those beside ::ffff:0:0/96.
STARTS = (0, 0xFFFF, 0xFFFE, 0x10000, 0xFFFF0000, 0x64FF9B << 64, 1 << 80 | 0xFFFF)


def ipv6(rng):
    """An IPv6 address: anything, by groups, or with IPv4 inside."""
    sort = rng.randrange(8)
    if sort == 0:
        return IPv6Address(rng.getrandbits(128))
    if sort < 6:
        return IPv6Address(b"".join(group.to_bytes(2, "big") for group in groups(rng)))
    tail = rng.choice((rng.getrandbits(32), rng.getrandbits(8), rng.getrandbits(16) << 16))
    return IPv6Address((0xFFFF if sort == 6 else rng.choice(STARTS)) << 32 | tail)


class Texts(unittest.TestCase):
    def refused(self, address, room=ADDRESS_TEXT_ROOM):
        with self.assertRaises(AddressRefused) as caught:
            LIBRARY.address_text(address, room)
        return caught.exception.reason, caught.exception.count

    def test_vectors(self):
        seen = []
        for address, _, room, (reason, count), output in rows("06", "rdap_address_text"):
            seen.append(reason)
            if reason != 0:
                self.assertEqual(self.refused(address, int(room)), (reason, count), address)
                continue
            text = LIBRARY.address_text(address, int(room))
            self.assertEqual((text.encode(), len(text)), (column("06", output), count))
            self.assertEqual(LIBRARY.address_text(ip_address(address), int(room)), text)
        self.assertEqual((len(seen), set(seen)), (518, {0, 6, 9}))

    def test_peer(self):
        """As ipaddress writes it, but for ::ffff:0:0/96, where it has a dotted tail from Python 3.13 on and none before."""
        rng, mapped = random.Random(6), 0
        for _ in range(100000):
            address = ipv6(rng)
            text = LIBRARY.address_text(address)
            if address.ipv4_mapped is None:
                self.assertEqual(text, address.compressed)
                continue
            high, low = divmod(int(address) & 0xFFFFFFFF, 0x10000)
            self.assertEqual(text, f"::ffff:{address.ipv4_mapped}")
            self.assertIn(address.compressed, (text, f"::ffff:{high:x}:{low:x}"))
            mapped += 1
        self.assertGreater(mapped, 10000)
        for number in (rng.getrandbits(32) & rng.choice((0xFFFFFFFF, 0xFF0F000F, 0x0100FF63)) for _ in range(100000)):
            self.assertEqual(LIBRARY.address_text(IPv4Address(number)), str(IPv4Address(number)))

    def test_links(self):
        """The ends of each network, asked for by their texts, are held by the network that answers."""
        for record in range(16):
            for address in bounds(LIBRARY.range(CAMPUS, record)):
                answer = LIBRARY.answer(f"/ip/{LIBRARY.address_text(address)}", CAMPUS)
                first, last = bounds(LIBRARY.range(CAMPUS, answer.records[0]))
                self.assertTrue(first <= address <= last, address)

    def test_rooms(self):
        for address, size in ((IPv4Address("255.255.255.255"), 15), (IPv6Address(2 ** 128 - 1), ADDRESS_TEXT_ROOM), (IPv6Address(0), 2)):
            self.assertEqual(len(LIBRARY.address_text(address)), size)
            self.assertEqual(LIBRARY.address_text(address, size), LIBRARY.address_text(address))
            for room in (size - 1, 0):
                self.assertEqual(self.refused(address, room), (9, size))

    def test_wrong_arguments(self):
        for length in (0, 1, 3, 5, 15, 17, 32):
            self.assertEqual(self.refused(bytes(length)), (6, 0))
        for address in (bytearray(4), memoryview(bytes(4))):
            self.assertEqual(LIBRARY.address_text(address), "0.0.0.0")
        for address in (4, None, "192.0.2.1", IPv4Interface("192.0.2.1/24"), IPv4Network("192.0.2.0/24")):
            with self.assertRaises(TypeError):
                LIBRARY.address_text(address)
        with self.assertRaisesRegex(ValueError, "scope"):
            LIBRARY.address_text(IPv6Address("fe80::1%eth0"))
        with self.assertRaises(ValueError):
            LIBRARY.address_text(bytes(4), -1)
        refusal = AddressRefused(9, 15)
        self.assertEqual((str(refusal), pickle.loads(pickle.dumps(refusal)).args), ("reason 9", (9, 15)))


def fields(text):
    """The fields of a row of fields, as tag and contents."""
    found = []
    while text:
        end = 3 + int.from_bytes(text[1:3], "big")
        found.append((text[0], text[3:end]))
        text = text[end:]
    return found


def field(tag, contents):
    return bytes([tag]) + len(contents).to_bytes(2, "big") + contents


def key(tag, text):
    """The key of a record as the methods of Changes take it."""
    if tag == Tag.AS_BLOCK:
        return int.from_bytes(text[:4], "big"), int.from_bytes(text[4:], "big")
    return (bounds(text),) if tag < Tag.AS_BLOCK else (text,)


def again(file):
    """A change file whose changes are well formed, made again by Changes."""
    changes = Changes()
    names = {Tag.IPV4_NETWORK: "network", Tag.IPV6_NETWORK: "network"}
    for change, contents in fields(file):
        tag = Tag(contents[0])
        method = names.get(tag, tag.name.lower())
        if change == 0x31:
            getattr(changes, f"remove_{method}")(*key(tag, contents[1:]))
            continue
        parts = [part for _, part in fields(contents[3:])]
        if tag <= Tag.AS_BLOCK:
            arguments = [*key(tag, parts[0]), *parts[1:3], parts[3] == b"\1"]
        else:
            arguments = parts if tag == Tag.ENTITY else parts[::-1]
        getattr(changes, f"add_{method}")(*arguments)
    return changes


def refusal(image, changes, **room):
    """The refusal of a fold, or None."""
    try:
        LIBRARY.fold(image, changes, **room)
    except FoldRefused as refused:
        return refused


def handles(path, image):
    """The handles of the records that answer, or the reason of a refusal."""
    answer = value(LIBRARY.answer, path, image)
    return answer.reason if isinstance(answer, Refused) else [LIBRARY.handle(image, record).decode() for record in answer.records]


class Folds(unittest.TestCase):
    def test_vectors(self):
        seen = set()
        for image, file, room, reply, output in rows("05", "rdap_fold"):
            file, room = column("05", file), int(room)
            seen.add(reply[0])
            if reply[0] == 0:
                self.assertEqual(LIBRARY.fold(image, file, room), column("05", output))
                self.assertEqual(len(column("05", output)), reply[1])
            else:
                self.assertEqual(refusal(image, file, room=room).args[:5], reply)
        self.assertEqual(seen, {0, 2, 9, 11, 12})

    def test_built_again(self):
        seen = 0
        for image, file, room, (reason, _, _, _, offset), output in rows("05", "rdap_fold"):
            file = column("05", file)
            if reason == 11:
                file = file[:offset]  # what comes before is well formed
            elif reason == 2:
                continue
            changes = again(file)
            self.assertEqual((bytes(changes), len(changes)), (file, len(file)))
            if reason == 0:
                self.assertEqual(LIBRARY.fold(image, changes, int(room)), column("05", output))
            seen += len(file) != 0
        self.assertGreater(seen, 300)

    def test_joining(self):
        """Two files in turn are their joining, where both are accepted: the files of the vectors, cut between changes."""
        seen = 0
        for image, file, _, (reason, *_), output in rows("05", "rdap_fold"):
            file = column("05", file)
            ends = list(accumulate(3 + len(contents) for _, contents in fields(file))) if reason == 0 else []
            for end in ends[:-1:len(ends) // 8 + 1]:
                if refusal(image, file[:end]) is None:
                    between = LIBRARY.fold(image, file[:end])
                    self.assertEqual(LIBRARY.fold(between, file[end:]), column("05", output))
                    seen += 1
        self.assertGreater(seen, 150)

    def test_bytes(self):
        network, pair = IPv4Network("10.0.2.0/24"), (IPv6Address("2001:db8::1"), IPv6Address("2001:db8::2"))
        texts, four, as_range = "21000148 2200014e", "0a000200 0a0002ff", "0000000c 0000000f"
        six = "20010db8000000000000000000000001 20010db8000000000000000000000002"
        changes = [
            (Changes().add_network(network, "H", "N"), f"30001a 100017 200008 {four} {texts} 23000101"),
            (Changes().add_network(network, b"H", b"N", active=False), f"30001a 100017 200008 {four} {texts} 23000100"),
            (Changes().add_network((network[0], network[-1]), "H", "N"), f"30001a 100017 200008 {four} {texts} 23000101"),
            (Changes().add_network(pair, "H", "N", False), f"300032 11002f 200020 {six} {texts} 23000100"),
            (Changes().add_as_block(12, 15, "H", "N"), f"30001a 120017 200008 {as_range} {texts} 23000101"),
            (Changes().add_domain("a.b", "H"), "30000d 13000a 21000148 220003612e62"),
            (Changes().add_nameserver("a.b", "H"), "30000d 14000a 21000148 220003612e62"),
            (Changes().add_entity("H", "A b"), "30000d 15000a 21000148 220003412062"),
            (Changes().remove_network(network), f"310009 10 {four}"),
            (Changes().remove_network(pair), f"310021 11 {six}"),
            (Changes().remove_as_block(12, 15), f"310009 12 {as_range}"),
            (Changes().remove_domain("a.b"), "310004 13 612e62"),
            (Changes().remove_nameserver(b"a.b"), "310004 14 612e62"),
            (Changes().remove_entity("H"), "310002 15 48"),
            (Changes().add_entity("H", "A b").remove_entity("H"), "30000d 15000a 21000148 220003412062 310002 15 48"),
            (Changes(), ""),
        ]
        for made, wanted in changes:
            self.assertEqual(bytes(made).hex(), wanted.replace(" ", ""))

    def test_added(self):
        """Each kind of record, added to campus and removed again: what a path finds before and after."""
        four, six = IPv4Network("10.0.2.0/24"), (IPv6Address("2001:db8:2::"), IPv6Address("2001:db8:2::5"))
        kinds = [
            (Changes().add_network(four, "NEW", "New"), Changes().remove_network(four), "/ip/10.0.2.9", ["NET-10-0"]),
            (Changes().add_network(six, "NEW", "New"), Changes().remove_network(six), "/ip/2001:db8:2::5", ["NET6-1"]),
            (Changes().add_as_block(14, 15, "NEW", "New"), Changes().remove_as_block(14, 15), "/autnum/15", ["AS12"]),
            (Changes().add_domain("new.example", "NEW"), Changes().remove_domain("new.example"), "/domain/new.example", 8),
            (Changes().add_nameserver("ns.new", "NEW"), Changes().remove_nameserver("ns.new"), "/nameserver/ns.new", 8),
            (Changes().add_entity("NEW", "New"), Changes().remove_entity("NEW"), "/entity/NEW", 8),
        ]
        for added, removed, path, before in kinds:
            self.assertEqual(handles(path, CAMPUS), before)
            image = LIBRARY.fold(CAMPUS, added)
            self.assertEqual(handles(path, image), ["NEW"], path)
            self.assertEqual(LIBRARY.fold(image, removed), CAMPUS)
            self.assertEqual(LIBRARY.fold(CAMPUS, bytes(added) + bytes(removed)), CAMPUS)
            self.assertEqual(refusal(image, added).args[:5], (11, 0, 0, 0, 0))
            self.assertEqual(refusal(CAMPUS, removed).args[:5], (11, 0, 0, 0, 0))

    def test_removed(self):
        """Each kind of record of campus, removed: what a path finds before and after."""
        kinds = [
            (Changes().remove_network(IPv4Network("10.0.0.0/16")), "/ip/10.0.2.9", ["NET-10-0"], ["NET-10"]),
            (Changes().remove_network(IPv6Network("2001:db8::/32")), "/ip/2001:db8:2::5", ["NET6-1"], 8),
            (Changes().remove_as_block(12, 15), "/autnums/rirSearch1/down/0-99", ["AS0", "AS12"], ["AS0", "AS13"]),
            (Changes().remove_domain("exam.com"), "/domains?name=exam*", ["D3", "D4", "D5"], ["D4", "D5"]),
            (Changes().remove_nameserver("ns2.example.com"), "/nameservers?name=ns2*", ["N2", "N2"], ["N2"]),
            (Changes().remove_entity("ENT-1"), "/entities?handle=ENT-1*", ["ENT-1", "ENT-10"], ["ENT-10"]),
        ]
        for removed, path, before, after in kinds:
            self.assertEqual(handles(path, CAMPUS), before)
            self.assertEqual(handles(path, LIBRARY.fold(CAMPUS, removed)), after, path)

    def test_all(self):
        """The records of campus, added to an empty registry, first to last and last to first."""
        records = [field(0x30, field(*record)) for record in fields(CAMPUS[4:])]
        for added in (b"".join(records), b"".join(records[::-1])):
            self.assertEqual(LIBRARY.fold(CAMPUS[:4], again(added)), CAMPUS)

    def test_refusals(self):
        network, pair = IPv4Network("10.0.0.0/24"), (IPv4Address("10.1.255.0"), IPv4Address("10.2.0.9"))
        changes = Changes().remove_domain("exam.com").add_network(network, "NEW", "New").remove_entity("ENT-3").add_domain("A.b", "D")
        overlap = Changes().add_network(pair, "NEW", "New")
        cases = [
            (refusal(CAMPUS, changes), "11: change 2 (remove entity 'ENT-3') at byte 45 is malformed or removes a record that isn't there"),
            (refusal(CAMPUS, bytes(changes)), "11: the change at byte 45 is malformed or removes a record that isn't there"),
            (refusal(CAMPUS, bytes(changes)[:11]), "11: the change at byte 0 is malformed or removes a record that isn't there"),
            (refusal(CAMPUS, Changes().add_domain("A.b", "D")),
             "11: change 0 (add domain 'A.b') at byte 0 is malformed or adds a key that is already there"),
            (refusal(CAMPUS, b"\x32"), "11: the change at byte 0 is malformed"),
            (refusal(CAMPUS, bytes(CHANGES_BYTES + 1)), "11: the change file has 65537 bytes, more than 65536"),
            (refusal(CAMPUS, overlap), "12: the final image would be defective: record 6 overlaps an earlier block without lying inside it"),
            (refusal(CAMPUS, b"", room=1732), "9: 1733 bytes are needed"),
            (refusal(bytes(IMAGE_BYTES + 1), b""), "2: the image is defective: it is too long"),
            (refusal(b"", overlap), "2: the image is defective: it has a wrong start"),
            (refusal(EXAMPLE[:-1], b""), "2: the image is defective: record 0 is cut short, has an unknown tag or is one too many"),
        ]
        for refused, words in cases:
            self.assertEqual(str(refused), f"reason {words}")
            copy = pickle.loads(pickle.dumps(refused))
            self.assertEqual((str(copy), copy.args), (str(refused), refused.args))
        self.assertEqual(changes.change_at(45), (2, "remove entity 'ENT-3'"))

    def test_numbers_of_a_refusal(self):
        refused = FoldRefused(12, 0, 7, 3, 0, "words")
        self.assertEqual((refused.reason, refused.count, refused.defect, refused.place, refused.offset), (12, 0, 7, 3, 0))

    def test_what_the_fold_judges(self):
        """Spelled as it is given, and refused by the fold."""
        turned = IPv4Address("10.0.0.2"), IPv4Address("10.0.0.1")
        malformed = [
            Changes().add_network(turned, "H", "N"), Changes().remove_network(turned), Changes().add_as_block(2, 1, "H", "N"),
            Changes().remove_as_block(2, 1), Changes().add_domain("EXAM.org", "H"), Changes().remove_domain("EXAM.com"),
            Changes().add_domain("exam.org.", "H"), Changes().add_nameserver("-", "H"), Changes().add_entity("", "N"),
            Changes().add_entity("a b", "N"), Changes().add_entity("H", "x" * 65), Changes().add_entity(b"\xe9", "N"),
            Changes().remove_entity("*"), Changes().remove_entity("ent-1" + "x" * 65000),
        ]
        for changes in malformed:
            self.assertEqual(refusal(CAMPUS, changes).args[:5], (11, 0, 0, 0, 0), changes.change_at(0))

    def test_unspellable(self):
        four, six = IPv4Address(1), IPv6Address(1)
        changes, largest = Changes(), 2 ** 32 - 1
        wrong = [
            (TypeError, changes.add_network, (four, six), "H", "N"), (TypeError, changes.remove_network, four),
            (TypeError, changes.remove_network, (1, 2)), (TypeError, changes.remove_network, (four, IPv4Interface("0.0.0.1/8"))),
            (ValueError, changes.remove_network, (IPv6Address("::1%eth0"), six)),
            (ValueError, changes.remove_network, IPv6Network("fe80::%eth0/10")),
            (ValueError, changes.add_as_block, 0, largest + 1, "H", "N"), (ValueError, changes.remove_as_block, -1, 1),
            (TypeError, changes.remove_as_block, 1.0, 2), (TypeError, changes.remove_as_block, "1", "2"),
            (ValueError, changes.add_entity, "\u00e9", "N"), (ValueError, changes.add_entity, "H", "\u00e9"),
            (TypeError, changes.add_entity, 12, "N"), (TypeError, changes.remove_domain, None),
            (ValueError, changes.add_entity, "H", "x" * 65536), (ValueError, changes.add_entity, "H", "x" * 65526),
            (ValueError, changes.remove_domain, "x" * 65535),
        ]
        for error, method, *arguments in wrong:
            with self.assertRaises(error):
                method(*arguments)
        self.assertEqual(bytes(changes), b"")
        changes.add_as_block(0, largest, "H", "N").add_entity("H", "x" * 65525).remove_domain("x" * 65534)
        self.assertEqual([changes.change_at(at)[0] for at in (0, 29, 29 + 3 + 65535)], [0, 1, 2])
        with self.assertRaises(ValueError):
            changes.change_at(1)

    def test_wrong_arguments(self):
        for arguments in ((CAMPUS, "31"), (CAMPUS, None), ("", b""), (CAMPUS, Changes)):
            with self.assertRaises(TypeError):
                LIBRARY.fold(*arguments)
        with self.assertRaises(ValueError):
            LIBRARY.fold(CAMPUS, b"", -1)


if __name__ == "__main__":
    unittest.main()
