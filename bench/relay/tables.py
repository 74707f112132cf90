"""What the rounds came to: for each row the median of each relay, its spread, and how it is beside the best peer."""
import os
import statistics

from peers import PEERS


def is_rate(row):
    return row.endswith("/s")


def values_by_row(results):
    """For each row what each relay came to, round by round."""
    rows = dict.fromkeys(row for name, lives in results.items() if name != "direct" for life in lives for row in life)
    return {row: {name: [life[row] for life in lives if row in life] for name, lives in results.items()} for row in rows}


def medians_of(values):
    return {name: statistics.median(found) for name, found in values.items() if found}


def best_of(row, medians):
    """Which peer that copies through user space has the best median, or None."""
    peers = {name: it for name, it in medians.items() if name in PEERS}
    return (max if is_rate(row) else min)(peers, key=peers.get) if peers else None


def table(results):
    """Medians, least and greatest of each row, with the ratio of medians to the best peer's."""
    for row, values in values_by_row(results).items():
        print(f"\n{row} ({'higher' if is_rate(row) else 'lower'} is better)")
        medians = medians_of(values)
        best = best_of(row, medians)
        for name, median in medians.items():
            ratio = f"{median / medians[best]:6.2f}" if best and medians[best] else "     -"
            said = " best peer" if name == best else ""
            if len(values[name]) < len(results[name]):
                said += f" (of {len(values[name])} rounds)"
            print(f"  {os.path.basename(name):10} {median:12.3f}  {min(values[name]):12.3f} to {max(values[name]):12.3f}  {ratio}{said}")


def spread(found):
    """How far the least and the greatest of a row's rounds lie apart, in percent of their median."""
    median = statistics.median(found)
    return 100 * (max(found) - min(found)) / median if median else 0


def cell(figure):
    """A figure to three digits, with its thousands set apart."""
    return f"{round(figure, -2 if figure >= 1e5 else -1 if figure >= 1e4 else 0):,.0f}" if figure >= 100 else f"{figure:.3g}"


def page_table(results):
    """The medians of all rows as a table of a page, and beside them the ratio to the best peer and the widest spread of the two."""
    names = [name for name in results if any(results[name])]
    head = ["row", *map(os.path.basename, names), "to the best peer", "spread"]
    lines = [head, ["---"] * len(head)]
    for row, values in values_by_row(results).items():
        medians = medians_of(values)
        best, own = best_of(row, medians), names[0]
        has_both = best and own in medians and medians[best]
        ratio = f"{medians[own] / medians[best]:.2f} ({best})" if has_both else ""
        wide = f"{max(spread(values[name]) for name in (own, best)):.0f} %" if has_both else ""
        lines.append([row, *(cell(medians[name]) if name in medians else "" for name in names), ratio, wide])
    return "".join(f"| {' | '.join(line)} |\n" for line in lines)
