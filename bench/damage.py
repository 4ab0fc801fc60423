"""Random damage to bytes that spell a value, and to the lists in such a value."""


def with_list_disordered(draw, value):
    """The named tuple, two items of one of whose lists are swapped or the same; as it is where it has no list."""
    fields = list(value)
    lists = [place for place, field in enumerate(fields) if type(field) is tuple and field]
    if not lists:
        return value
    place = draw.choice(lists)
    items = list(fields[place])
    one, two = draw.randrange(len(items)), draw.randrange(len(items))
    items[one], items[two] = items[two], draw.choice([items[one], items[two]])
    fields[place] = tuple(items)
    return type(value)(*fields)


def with_run_replaced(draw, data, place):
    """The bytes with up to nine in a row replaced: by zeros, by ones, by the number 1, by random bytes."""
    count = draw.choice([1, 1, 4, 8, 9])
    run = draw.choice([bytes(count), b"\xff" * count, bytes(count - 1) + b"\1", bytes(draw.choices(range(256), k=count))])
    return data[:place] + run + data[place + count :]


def damaged(draw, data, other):
    """The bytes, of which one at least is there, with one damage; `other` are the bytes of another value."""
    place = draw.randrange(len(data))
    kind = draw.randrange(8)
    if kind == 0:  # cut
        return data[:place]
    if kind == 1:  # a bit flipped
        return data[:place] + bytes([data[place] ^ 1 << draw.randrange(8)]) + data[place + 1 :]
    if kind == 2:  # a byte put in, often after the end
        place = draw.choice([place, len(data)])
        return data[:place] + bytes([draw.randrange(256)]) + data[place:]
    if kind == 3:  # a byte taken out
        return data[:place] + data[place + 1 :]
    if kind == 4:  # the two joined, or the front of one and the back of the other
        end = draw.choice([len(data), place])
        return data[:end] + other[draw.choice([0, end]) :]
    if kind == 5:  # a count or another byte one more or less
        return data[:place] + bytes([data[place] + draw.choice([1, -1]) & 255]) + data[place + 1 :]
    if kind == 6:
        return with_run_replaced(draw, data, place)
    return data[: draw.randrange(8)] + bytes(draw.choices(range(256), k=draw.randrange(40)))
