"""The reports of solve, compile, export and extract, looked at from outside, for bench/fuzz."""
import re

from joint import joint_lines
from layouts import expect


def add_up(instance, lines):
    """The cost of the bins in these lines, which have to be a packing."""
    used, got, cost = {}, {}, 0
    for line in lines:
        match = re.fullmatch(r"([1-9]\d*) type ([1-9]\d*):((?: \d+\.\d+\*\d+)+)", line)
        expect(match, "no bin line: " + line)
        times, bin_type = int(match[1]), int(match[2])
        expect(bin_type <= len(instance.types), "no such type: " + line)
        capacity, price, _ = instance.types[bin_type - 1]
        weight, units = [0] * instance.dims, {}
        for part in match[3].split():
            item, form, count = (int(x) for x in re.split(r"[.*]", part))
            expect(1 <= item <= len(instance.items) and 1 <= form <= len(instance.items[item - 1][1]) and count > 0, "no such form: " + line)
            weight = [w + count * x for w, x in zip(weight, instance.items[item - 1][1][form - 1])]
            units[item] = units.get(item, 0) + count
        expect(all(w <= c for w, c in zip(weight, capacity)), "does not fit: " + line)
        expect(all(units.get(item, 0) <= cap for item, cap in instance.caps.items()), "passes a cap: " + line)
        used[bin_type] = used.get(bin_type, 0) + times
        cost += times * price
        for item, count in units.items():
            got[item] = got.get(item, 0) + times * count
    for bin_type, count in used.items():
        limit = instance.types[bin_type - 1][2]
        expect(limit is None or count <= limit, "passes the limit of type %d" % bin_type)
    for item, (demand, _) in enumerate(instance.items, 1):
        expect(got.get(item, 0) == demand, "item %d is met %d times" % (item, got.get(item, 0)))
    return cost


def homeless(instance):
    """Whether some item with a demand fits no type."""
    fits = lambda form, capacity: all(w <= c for w, c in zip(form, capacity))
    return any(demand and not any(fits(form, t[0]) for form in forms for t in instance.types) for demand, forms in instance.items)


def look_at_solve(instance, status, lines, nodes):
    """The report of a search with so many splits at most: how many it made, and how many of these are plain."""
    first, last = lines[0].split(), re.fullmatch(r"splits (0|[1-9]\d*) plain (0|[1-9]\d*)", lines[-1])
    expect(len(lines) > 1 and last, "no line of splits: " + lines[-1])
    splits, plain = int(last[1]), int(last[2])
    expect(plain <= splits <= nodes, "more splits than are granted, or than there are: " + lines[-1])
    expect((first == ["infeasible"]) >= homeless(instance), "a packing where an item fits nowhere")
    if first == ["infeasible"]:
        limited = any(limit is not None for _, _, limit in instance.types)
        expect(status == 0 and len(lines) == 2 and (limited or homeless(instance)), "infeasible without reason")
    elif first[0] == "optimal":
        expect(len(first) == 2 and status == 0 and add_up(instance, lines[1:-1]) == int(first[1]), "the cost is not the printed one")
    else:
        expect(first[0] == "bracket" and len(first) == 3 and status == 1, "no first line: " + lines[0])
        expect(splits == nodes, "a bracket before all splits: " + lines[-1])
        if first[2] == "none":
            expect(len(lines) == 2, "bins below none")
        else:
            expect(int(first[1]) < int(first[2]) == add_up(instance, lines[1:-1]), "the cost is not the printed one")
    return splits, plain


def look_at_shown(report, certificate):
    """Whether a certificate claims what the first line of a report says, with as many splits as its last line does."""
    answer, lines = report[0].split(), certificate.decode().split("\n")
    if answer == ["infeasible"]:
        claim = "claim empty"
    else:
        claim = "claim bound %s goal %d" % (answer[1], int(answer[1]) + (answer[0] == "bracket"))
    expect(lines[1] == claim, "%s claims: %s" % (report[0], lines[1]))
    words = [line.split(" ")[0] for line in lines]
    counted = "splits %d plain %d" % (words.count("split") + words.count("need"), words.count("split"))
    expect(report[-1] == counted, "the certificate has " + counted)


def look_at_compile(instance, status, lines):
    expect(status == 0, "no status of compile")
    head = "dims %d types %d items %d units %d" % (instance.dims, len(instance.types), len(instance.items), instance.units)
    expect(lines[0] == head and len(lines) == len(instance.types) + 2, "no head: " + lines[0])
    arcs = 0
    for number, line in enumerate(lines[1:-1], 1):
        match = re.fullmatch(r"type (\d+) level (\d+) (\d+) main (\d+) (\d+) final (\d+) (\d+)", line)
        expect(match and int(match[1]) == number, "no line of a type: " + line)
        level, main, final = ((int(match[k]), int(match[k + 1])) for k in (2, 4, 6))
        expect(final <= main <= level and final[1] <= main[1] <= level[1], "a graph grew: " + line)
        arcs += final[1] + 1
    expect(lines[-1] == "arcs %d" % arcs, "arcs do not add up: " + lines[-1])


def parts_of(lines):
    """The rows, columns, right sides and bounds of an exported model."""
    section, rows, columns, rights, bounds = None, [], {}, {}, {}
    for line in lines:
        if not line.startswith(" "):
            section = line.split()[0]
        elif section == "ROWS":
            rows.append(tuple(line.split()))
        elif section == "COLUMNS" and "'MARKER'" not in line:
            column, row, value = line.split()
            columns.setdefault(column, []).append((row, int(value)))
        elif section == "RHS":
            rights[line.split()[1]] = int(line.split()[2])
        elif section == "BOUNDS":
            kind, _, column, value = line.split()
            bounds[column] = (kind, int(value))
    return rows, columns, rights, bounds


def look_at_export(instance, status, lines):
    """Takes the model apart, and puts it together again from its parts."""
    expect(status == 0, "no status of export")
    rows, columns, rights, bounds = parts_of(lines)
    again = ["NAME vpack", "ROWS"] + [" %s %s" % row for row in rows] + ["COLUMNS", " MARK1 'MARKER' 'INTORG'"]
    again += [" %s %s %d" % (column, row, value) for column, entries in columns.items() for row, value in entries]
    again += [" MARK2 'MARKER' 'INTEND'", "RHS"] + [" RHS %s %d" % right for right in rights.items()]
    again += ["BOUNDS"] + [" %s BND %s %d" % (kind, column, value) for column, (kind, value) in bounds.items()] + ["ENDATA"]
    expect(again == lines, "the model does not come back from its parts")
    expect(list(bounds) == list(columns), "columns and bounds differ")
    expect([row for row in rows if row[0] == "G"] == [("G", "D%d" % i) for i in range(1, len(instance.items) + 1)], "no row for each item")
    expect(rights == {"D%d" % i: item[0] for i, item in enumerate(instance.items, 1) if item[0]}, "right sides are not the demands")
    known = {row[1] for row in rows}
    expect(all(row in known for entries in columns.values() for row, _ in entries), "an entry in no row")
    bins = [column for column in columns if column.startswith("Z")]
    expect(len(bins) == len(instance.types), "no column for each type")
    for column, (_, price, limit) in zip(bins, instance.types):
        expect(sum(v for row, v in columns[column] if row == "COST") == price, "another cost: " + column)
        expect(bounds[column][1] == min(instance.units, instance.units if limit is None else limit), "another bound: " + column)


def look_at_joint(instance, status, lines):
    """Takes a joint model apart as any other, and makes that of a small instance once more."""
    look_at_export(instance, status, lines)
    again = joint_lines(instance)
    expect(again is None or again == lines, "another joint model than that made here")


LOOKS = {("compile",): look_at_compile, ("export",): look_at_export, ("export", "--joint"): look_at_joint}


def values_of(text, columns):
    """The values that a solution tells, or the line that the program is to say of it."""
    values = {}
    ends = re.split(rb"\r?\n", text)
    for number, line in enumerate(ends, 1):
        fields = re.findall(rb"[^ \t]+", line)
        if not fields or line.startswith(b"#"):
            continue
        value = re.fullmatch(rb"(-?)([0-9]+)(?:\.0*)?", fields[-1])
        whole = int(value[2].lstrip(b"0")[:30] or b"0") if value else 0
        if len(fields) != 2:
            return "line %d: wrong number of fields" % number
        if fields[0] not in columns:
            return "line %d: no such column" % number
        if not value or whole > 1 << 62 or (value[1] and whole):
            return "line %d: bad value" % number
        if fields[0] in values:
            return "line %d: column given twice" % number
        values[fields[0]] = whole
    return values


def first_violated(model, values):
    """What the program is to say of the first row or bound that the values violate; None where they keep all."""
    rows, columns, rights, bounds = model
    sums = {row: 0 for _, row in rows}
    for column, entries in columns.items():
        for row, entry in entries:
            sums[row] += entry * values.get(column.encode(), 0)
    for kind, row in rows:
        if (kind == "E" and sums[row] != rights.get(row, 0)) or (kind == "G" and sums[row] < rights.get(row, 0)):
            return "row %s is violated" % row
    for column, (_, upper) in bounds.items():
        if values.get(column.encode(), 0) > upper:
            return "bound of %s is violated" % column
    return None


def look_at_extract(instance, model, solution, name, status, out, err):
    values = values_of(solution, {column.encode() for column in model[1]})
    refused = values if isinstance(values, str) else first_violated(model, values)
    if refused:
        expect(status == 9 and err == ("vpack: %s: %s\n" % (name, refused)).encode(), "refused here with: %s" % refused)
        return
    expect(status == 0, "a flow that is refused")
    lines = out.decode().splitlines()
    empty = [re.fullmatch(r"([1-9]\d*) type ([1-9]\d*):", line) for line in lines]
    idle = sum(int(match[1]) * instance.types[int(match[2]) - 1][1] for match in empty if match)
    cost = add_up(instance, [line for line, match in zip(lines, empty) if not match and not line.startswith("packing ")]) + idle
    flow = sum(values.get(column.encode(), 0) * value for column, entries in model[1].items() for row, value in entries if row == "COST")
    expect(lines[0] == "packing %d" % cost and cost == flow, "the cost is not the flow's")
