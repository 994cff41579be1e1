#!/usr/bin/env python3
"""What rdap_prefixes writes for a sound image, by Python's ipaddress: an independent reading of S4 and S12.
usage: tests/filters.py IMAGE FORMAT [--all]
   or: tests/filters.py --into FOLDER IMAGE..
The second form writes files: FOLDER/NUMBER.FORMAT and FOLDER/NUMBER.FORMAT--all for the images in turn, from 0.
Where two lists would have one name, the text is the line that the program tells instead, which ends in 'would both be named NAME'."""
import ipaddress
import re
import sys


def fields(data):
    """The fields of a row: tag and contents."""
    while data:
        end = 3 + int.from_bytes(data[1:3], "big")
        yield data[0], data[3:end]
        data = data[end:]


def networks(data, wanted):
    """Number, handle, first and last of the networks to be listed; all of them, if wanted."""
    for number, (tag, contents) in enumerate(list(fields(data))[1:]):
        if tag not in (0x10, 0x11):
            continue
        inner = dict(fields(contents))
        if wanted or inner[0x23] == b"\1":
            kind = ipaddress.IPv4Address if tag == 0x10 else ipaddress.IPv6Address
            half = len(inner[0x20]) // 2
            yield number, inner[0x21].decode("ascii"), kind(inner[0x20][:half]), kind(inner[0x20][half:])


def text_of(prefix):
    """A prefix as text. Python writes the last 32 bits of ::ffff:0:0/96 in hexadecimal."""
    address = prefix.network_address
    four = getattr(address, "ipv4_mapped", None)
    return str(prefix) if four is None else f"::ffff:{four}/{prefix.prefixlen}"


REPLACED = {
    "plain": r"(?!)",
    "cisco": r"[^A-Za-z0-9_.-]",
    "bird": r"[^A-Za-z0-9_]|^[0-9]",
    "juniper": r"[^A-Za-z0-9_.-]",
    "json": r'["\\]',
}


def name_of(form, handle):
    return re.sub(REPLACED[form], "_", handle)


def commas(rows):
    return [row + "," for row in rows[:-1]] + rows[-1:]


def lines_of(form, version, name, prefixes):
    if form == "plain":
        return [f"{name} {p}" for p in prefixes]
    if form == "cisco":
        ip = "ip" if version == 4 else "ipv6"
        return [f"no {ip} prefix-list {name}"] + [f"{ip} prefix-list {name} permit {p}" for p in prefixes]
    if form == "bird":
        return [f"{name} = ["] + commas([f"    {p}" for p in prefixes]) + ["];"]
    if form == "juniper":
        return ["policy-options {", "replace:", f" prefix-list {name} {{"] + [f"    {p};" for p in prefixes] + [" }", "}"]
    rows = [f'    {{ "prefix": "{p}", "exact": true }}'.replace("/", r"\/") for p in prefixes]
    return [f'{{ "{name}": ['] + commas(rows) + ["] }"]


def written(path, form, wanted):
    out, seen = [], {}
    for number, handle, first, last in networks(open(path, "rb").read(), wanted):
        name = name_of(form, handle)
        key = (name, first.version if form == "cisco" else 0)
        if form != "plain" and key in seen:
            other = "records {} ({})".format(*seen[key])
            return f"{path}: {other} and {number} ({handle}) would both be named {name}\n"
        seen[key] = (number, handle)
        prefixes = [text_of(p) for p in ipaddress.summarize_address_range(first, last)]
        out += lines_of(form, first.version, name, prefixes)
    return "".join(line + "\n" for line in out)


def main(arguments):
    if arguments[0] != "--into":
        sys.stdout.write(written(arguments[0], arguments[1], arguments[2:] == ["--all"]))
        return
    for i, path in enumerate(arguments[2:]):
        for form in REPLACED:
            for more in "", "--all":
                with open(f"{arguments[1]}/{i}.{form}{more}", "w", encoding="ascii") as file:
                    file.write(written(path, form, more != ""))


if __name__ == "__main__":
    main(sys.argv[1:])
