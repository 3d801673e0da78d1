"""A plan of a large station: as many tracks beside each other as one wants, each with routes from and to both ends."""


def rows_of(tracks, middle=30):
    """The drawing: at each end a turnout for each track but the last, which lead from one track to the next."""
    width = 4 * tracks + middle + 30
    rows = []
    for track in range(tracks):
        left, right = 14 + 2 * track, width - 16 - 2 * track
        row = [" "] * width
        is_last = track == tracks - 1
        begin, end = (0, width - 1) if track == 0 else (left, right)
        row[begin:end + 1] = "=" * (end - begin + 1)
        things = {left: f"t{track}", right: f"u{track}", (left + right) // 2: f"P{track}",
                  left + 5: f"r{track}", left + 9: f"b{track}", right - 5: f"s{track}"}
        if is_last:
            del things[left], things[right]
        if track == 0:
            things |= {0: "W", 4: "b90", 9: "s90", width - 1: "E", width - 6: "b91", width - 11: "s91"}
        for column, name in things.items():
            row[column:column + len(name)] = name
        rows.append("".join(row).rstrip())
        if not is_last:
            below = [" "] * width
            below[left + 1], below[right - 1] = "\\", "/"
            rows.append("".join(below).rstrip())
    return rows


def legend_of(tracks):
    """The legend: turnouts have the addresses 1 .. and 21 .., signals 1 .. and 21 .. and so on of bus 2."""
    yield 'W = { button = "West" }'
    yield 'E = { button = "East" }'
    for number in (90, 91):
        yield f"b{number} = {{ sensor = [1, {number - 50}] }}"
        yield f"s{number} = {{ signal = [2, {number - 50}, 2, 0] }}"
    for track in range(tracks):
        if track < tracks - 1:
            branch = int(track == 0)  # all others are drawn with their straight way along the row of turnouts
            yield f"t{track} = {{ turnout = [1, {track + 1}, {branch}] }}"
            yield f"u{track} = {{ turnout = [1, {track + 21}, {branch}] }}"
        yield f"b{track} = {{ sensor = [1, {track + 1}] }}"
        yield f"r{track} = {{ signal = [2, {track + 1}, 2, 0] }}"
        yield f"s{track} = {{ signal = [2, {track + 21}, 2, 0] }}"
        yield f'P{track} = {{ button = "Track {track + 1}" }}'


def routes_of(tracks):
    """The routes: from West to each track, from East to each, and from each to the East."""
    number = 0
    for begin, end, first in (("W", "P{}", 1), ("E", "P{}", 21), ("P{}", "E", 21)):
        for track in range(tracks):
            number += 1
            ports = [[1, first + before, 1] for before in range(track)]
            ports += [[1, first + track, 0]] if track < tracks - 1 else []
            yield (f'[[route]]\nnumber = {number}\nname = "{begin} to {end}"\nfrom = "{begin}"\nto = "{end}"\n'
                   f"turnouts = {ports}\n").replace("{}", str(track))


def large_plan(tracks):
    return "\n".join(["bus = 3", "plan = '''", *rows_of(tracks), "'''", "[legend]", *legend_of(tracks),
                      *routes_of(tracks)])
