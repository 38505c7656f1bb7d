"""The joint model of an instance, made once more by rules of its own, for bench/fuzz.

States are looked at one by one, nodes are merged by dictionaries, and the model is written line by line: nothing is shared with the
program. An instance with many states is given up.
"""
MOST_STATES = 4000


def plus(left, right):
    return tuple(x + y for x, y in zip(left, right))


def fits(weight, capacity):
    return all(w <= c for w, c in zip(weight, capacity))


def pieces_of(instance, capacities):
    """The forms that fit some type, of items with a demand, with how the caps count them: weight, item, form and copies in order."""
    pieces = []
    for item, (demand, forms) in enumerate(instance.items, 1):
        counted = [int(item == capped) for capped in instance.caps]
        for form, weights in enumerate(forms, 1):
            weight = tuple(weights + counted)
            if demand and any(fits(weight, capacity) for capacity in capacities):
                pieces.append((weight, item, form, demand))
    return sorted(pieces, key=lambda piece: ([-w for w in piece[0]], piece[1], piece[2]))


def steps_from(state, pieces, capacities):
    """The steps from a state: the next state, or the number of a type below 0 for its target, and the piece that is taken, or none."""
    place, copies, used = state
    if place < len(pieces):
        weight, _, _, most = pieces[place]
        taken = plus(used, weight)
        if copies < most and any(fits(taken, capacity) for capacity in capacities):
            yield (place, copies + 1, taken), place
    if place + 1 < len(pieces):
        yield (place + 1, 0, used), None
    else:
        for number, capacity in enumerate(capacities, 1):
            if fits(used, capacity):
                yield -number, None


def levels_of(pieces, capacities, places):
    """The arcs of the levels, by tail, head and piece, or None where there are too many states."""
    source = (0, 0, (0,) * places)
    found, waiting, arcs = {source}, [source], []
    while waiting:
        state = waiting.pop()
        for head, piece in steps_from(state, pieces, capacities):
            arcs.append((state, head, piece))
            if isinstance(head, tuple) and head not in found:
                found.add(head)
                waiting.append(head)
        if len(found) > MOST_STATES:
            return None
    return source, sorted(found), arcs


def rooms_of(states, arcs, pieces, types, places):
    """For each state the greatest weights of its ways to each target, or none; steps go up in the order of states."""
    ahead = {-number: tuple((0,) * places if number == other else None for other in range(1, types + 1)) for number in range(1, types + 1)}
    out = {state: [] for state in states}
    for tail, head, piece in arcs:
        out[tail].append((head, piece))
    for state in reversed(states):
        best = [None] * types
        for head, piece in out[state]:
            weight = pieces[piece][0] if piece is not None else (0,) * places
            for number, way in enumerate(ahead[head]):
                if way is not None:
                    way = plus(way, weight)
                    best[number] = way if best[number] is None else tuple(max(x, y) for x, y in zip(best[number], way))
        ahead[state] = tuple(best)
    return ahead


def merged(arcs, into):
    """The distinct arcs between merged nodes, but for losses from a node to itself."""
    images = {(into.get(tail, tail), into.get(head, head), piece) for tail, head, piece in arcs}
    return {arc for arc in images if arc[0] != arc[1] or arc[2] is not None}


def weights_to(source, arcs, pieces, places):
    """The greatest weights of the ways from the source to each node, once all arcs into it were looked at."""
    out, waits, best = {}, {}, {source: (0,) * places}
    for tail, head, piece in arcs:
        out.setdefault(tail, []).append((head, piece))
        waits[head] = waits.get(head, 0) + 1
    ready = [source]
    while ready:
        tail = ready.pop()
        for head, piece in out.get(tail, []):
            way = plus(best[tail], pieces[piece][0]) if piece is not None else best[tail]
            best[head] = tuple(max(x, y) for x, y in zip(best[head], way)) if head in best else way
            waits[head] -= 1
            if waits[head] == 0:
                ready.append(head)
    return best


def graph_of(instance):
    """How many nodes are no targets, and the arcs in order by tail, head, item and form; None where there are too many states."""
    capacities = [tuple(capacity + list(instance.caps.values())) for capacity, _, _ in instance.types]
    places, pieces = instance.dims + len(instance.caps), pieces_of(instance, capacities)
    levels = levels_of(pieces, capacities, places)
    if levels is None:
        return None
    source, states, arcs = levels
    rooms = rooms_of(states, arcs, pieces, len(capacities), places)
    into = {state: ("rooms", rooms[state]) for state in states}
    arcs = merged(arcs, into)
    weights = weights_to(into[source], arcs, pieces, places)
    inner = sorted({weight for node, weight in weights.items() if isinstance(node, tuple)})
    numbers = {weight: number for number, weight in enumerate(inner, 1)}
    final = {node: numbers[weight] if isinstance(node, tuple) else len(inner) - node for node, weight in weights.items()}
    return len(inner), sorted((tail, head) + (pieces[piece][1:3] if piece is not None else (0, 0)) for tail, head, piece in merged(arcs, final))


def joint_lines(instance):
    """The lines of the joint model; None where there are too many states."""
    graph = graph_of(instance)
    if graph is None:
        return None
    inner, arcs = graph
    columns = [("Z", price, inner + number, 1, 0) for number, (_, price, _) in enumerate(instance.types, 1)]
    columns += [("F", 0, tail, head, item) for tail, head, item, _ in arcs]
    lines = ["NAME vpack", "ROWS", " N COST"] + [" E N%d" % node for node in range(1, inner + len(instance.types) + 1)]
    lines += [" G D%d" % item for item in range(1, len(instance.items) + 1)] + ["COLUMNS", " MARK1 'MARKER' 'INTORG'"]
    for number, (letter, price, tail, head, item) in enumerate(columns, 1):
        entries = ([("COST", price)] if price else []) + sorted([(tail, -1), (head, 1)]) + ([("D%d" % item, 1)] if item else [])
        lines += [" %s%d %s %d" % (letter, number, row if isinstance(row, str) else "N%d" % row, value) for row, value in entries]
    lines += [" MARK2 'MARKER' 'INTEND'", "RHS"]
    lines += [" RHS D%d %d" % (item, demand) for item, (demand, _) in enumerate(instance.items, 1) if demand] + ["BOUNDS"]
    for number, column in enumerate(columns, 1):
        limit = instance.types[number - 1][2] if column[0] == "Z" else None
        upper = instance.units if limit is None else min(limit, instance.units)
        lines.append(" %s BND %s%d %d" % ("UP" if upper else "FX", column[0], number, upper))
    return lines + ["ENDATA"]
