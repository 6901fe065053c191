"""What the scripts of the trials share: the generator of crates/test_generated and the damages of crates/test_damage."""
WORD = 4294967296


def following(word, times=1):
    for _ in range(times):
        word = (word * 1664525 + 1013904223) % WORD
    return word


def below(word, bound):
    return word // 4096 % bound if bound else 0


def seed(family, number):
    return following(family * 1000003 + number * 7919 + 1990, 2)


def one_of(word, *numbers):
    return numbers[below(word, len(numbers))]


def ceiling_of(word):
    return below(following(word), one_of(word, 16, 1024, 65536, 1048576))


def damaged_line(file, kind, place):
    """The line at a place dropped, doubled, or swapped with the next."""
    start = file.rfind(b"\n", 0, place) + 1
    end = file.find(b"\n", start) + 1 or len(file)
    next_end = file.find(b"\n", end) + 1 or len(file)
    first, second = file[start:end], file[end:next_end]
    middle = {1: second, 2: first + first + second, 3: second + first}[kind]
    return file[:start] + middle + file[next_end:]


def damaged_byte(file, likely, word, place):
    second = following(word)
    kind = below(second, 8)
    byte = likely[kind if kind < 5 else 5]
    if kind == 5:
        byte = below(following(second), 256)
    if kind == 7:
        byte = 48 + below(following(second), 10)
    way = below(word, 4)
    put = b"" if way == 0 else bytes([byte])
    return file[:place] + put + file[place + (way != 1) :]


def damage(file, likely, word, first=0):
    """A file damaged from a place on; `likely` has six bytes that it has or might have."""
    kind = below(following(word), 8)
    place = first + below(following(word, 2), 1048576) * (len(file) - first) // 1048576
    if kind == 0:
        return file[:place]
    if kind <= 3:
        return damaged_line(file, kind, place)
    return file if kind == 4 else damaged_byte(file, likely, following(word, 3), place)
