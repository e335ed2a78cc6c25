"""Prints an interchange of usual orders, of almost 4 MiB and 15 segments a message.
usage: orders.py EVERY [different] [version-4] [repeated] [MESSAGES]
One quantity in every so many messages is broken; 0: none is. `different`: no segment but UNS is spelled like another one.
`version-4`: in version 4 of the syntax. `repeated`: in version 4, and one segment in ten has an element with two
repetitions: each DTM, and each second message's last PRI. MESSAGES: so many messages at most.
"""
import sys

LIMIT = 4194304
OPENING = b"UNB+UNOA:3+BUYER:14+SELLER:14+960105:0930+R1'"
OPENING_4 = b"UNB+UNOA:4+BUYER:14+SELLER:14+19960105:0930+R1'"
OPTIONS = ("different", "version-4", "repeated")


def line(j, article, quantity, price):
    return b"LIN+%d++%d:EN'QTY+21:%s'PRI+AAA:%s'" % (j, article, quantity, price)


def message(number, broken, different, repeated):
    lines = b""
    for j in (1, 2, 3):
        unique = 3 * number + j
        quantity = b"4X" if broken and j == 2 else b"%d" % unique if different else b"48"
        price = b"%d.5" % unique if different else b"12.5"
        lines += line(j, 4000862141404 + unique * different, quantity, price)
    head = b"BGM+220+PO%d+9'DTM+137:%d:102%s'NAD+BY+%d::9'" % (
        number, 19960105 + number * different, b"*2:19960112:102" if repeated else b"",
        5412345000013 + number * different)
    if repeated and number % 2 == 0:
        lines = lines[:-1] + b"*AAA:14.5'"
    body = head + lines + b"UNS+S'"
    count = body.count(b"'") + 2
    return b"UNH+%d+TSTORD:D:96A:UN'%sUNT+%d+%d'" % (number, body, count, number)


def interchange(every, most=LIMIT, options=()):
    opening = OPENING_4 if "version-4" in options or "repeated" in options else OPENING
    parts, size, number = [opening], len(opening), 0
    while size < LIMIT - 400 and number < most:
        number += 1
        parts.append(message(number, every and number % every == 0, "different" in options, "repeated" in options))
        size += len(parts[-1])
    return b"".join(parts) + b"UNZ+%d+R1'" % number


def main(words):
    most = [int(word) for word in words[1:] if word not in OPTIONS]
    sys.stdout.buffer.write(interchange(int(words[0]), *most, options=words[1:]))


if __name__ == "__main__":
    main(sys.argv[1:])
