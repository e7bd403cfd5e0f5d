"""Works out the reply to a slice or a roll-up from a list of facts, which is lifted, filtered and
grouped.

A fact is a list of values, those of the attributes first: texts as bytes, and numbers. A slice has
columns, the places of the attributes that it groups by, and conditions. A condition is a place with
a value or with two bounds.

It is independent of python/cubetree on purpose, its format/ included, and shares no code with it.
"""
import collections
import re


def field(value):
    """A value as it is printed, or written in a row."""
    text = value if isinstance(value, bytes) else b"%d" % value
    return b'"' + text.replace(b'"', b'""') + b'"' if re.search(rb'[,"\r\n]', text) else text


def lifted(facts, many, levels):
    """The facts, each with the parents of its values after its `many` attributes. A level is the
    place of its attribute and a parent for each value."""
    return [
        fact[:many] + [parents.get(fact[place], b"") for place, parents in levels] + fact[many:]
        for fact in facts
    ]


def meets(fact, conditions):
    return all(
        value[0] <= fact[a] <= value[1] if isinstance(value, tuple) else fact[a] == value
        for a, value in conditions
    )


def rows_of(measures, facts, slice):
    """The reply to a slice. The values of these measures are the last ones of each fact."""
    columns, groups, conditions = slice
    grouped = collections.defaultdict(list)
    for fact in facts:
        if meets(fact, conditions):
            grouped[tuple(fact[a] for a in groups)].append(fact)
    lines = []
    for key in sorted(grouped):
        folded = [column_of(measures, column, grouped[key]) for column in columns]
        lines.append(b",".join(map(field, [*key, *folded])))
    return b"".join(line + b"\n" for line in [*lines, b"rows %d" % len(lines)])


def column_of(measures, column, facts):
    if column == "count":
        return len(facts)
    place = measures.index(column[4:-1]) - len(measures)
    return {"sum": sum, "min": min, "max": max}[column[:3]](fact[place] for fact in facts)
