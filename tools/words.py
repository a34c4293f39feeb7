"""Commands, reports and refusals in words, as `tools/read` and `tools/draw` show them."""

from commands import ANSWERS, ET_SHOWN, FIELDS, OUT_OF_RANGE, WRONG_NUMBER


# ---------------------------------------------------------------- a command in words


def command_text(portion):
    """'#48 odometer 90 km/h, moved 2.50 m'"""
    values = portion.values
    told = [operand.read.format(operand.text(values[operand.name])) for operand in portion.command.standing(values)
            if operand.read and values[operand.name] != operand.quiet]
    return f"#{portion.number} {portion.command.name} {', '.join(told)}".rstrip()


# ---------------------------------------------------------------- a report in words


def order_text(report):
    """'FULL by curve (bit 2)'"""
    order = FIELDS["order"].text(report["order"])
    causes = " and ".join(f"{name} (bit {bit})" for bit, name in FIELDS["causes"].set_bits(report["causes"]))
    if report["order"] and not causes and FIELDS["state"].text(report["state"]) == "DE":
        causes = "the brake test"
    return f"{order} by {causes}" if causes else order


def curve_text(report):
    """'curve 1 in D, yellow bar, mode 4 intervention', or 'ET record 1 in D, ..'"""
    if report["shown id"] == FIELDS["shown id"].empty:
        return "no curve"
    interval, bar, mode = (FIELDS[name].text(report[name]) for name in ("interval", "bar", "mode"))
    kind = "ET record" if ET_SHOWN in messages_of(report) else "curve"
    return f"{kind} {report['shown id']} in {interval}, {bar}, mode {report['mode']} {mode}"


def messages_of(report):
    return [name for _, name in FIELDS["messages"].set_bits(report["messages"])]


def change_text(report):
    """'74.99 m to its next change'"""
    if report["next change"] == FIELDS["next change"].empty:
        return "no change ahead"
    return f"{report['next change'] / 100:,.2f} m to its next change"


def release_text(report):
    buttons = [name for _, name in FIELDS["release offered"].set_bits(report["release offered"])]
    return f"release offered by {' and '.join(buttons)}" if buttons else "release not offered"


def state_text(report):
    """'DA', or where the track is not fully equipped 'DA in partially equipped area'"""
    state = FIELDS["state"].text(report["state"])
    if report["area"] == FIELDS["area"].empty:
        return state
    return f"{state} in {FIELDS['area'].text(report['area'])} area"


def report_text(report):
    """All that a report tells; outside DA only what is not empty."""
    in_da = FIELDS["state"].text(report["state"]) == "DA"
    parts = [state_text(report)]
    if in_da or report["order"] or report["causes"]:
        parts.append(order_text(report))
    if in_da or report["permitted speed"] or report["VMAX"]:
        parts.append(f"permitted {report['permitted speed']}, VMAX {report['VMAX']}")
    if in_da or any(report[name] != FIELDS[name].empty for name in ("shown id", "interval", "bar", "mode")):
        parts.append(curve_text(report))
    if any(report[name] != FIELDS[name].empty for name in ("shown id", "next change")):
        parts.append(change_text(report))
    if in_da or report["release offered"]:
        parts.append(release_text(report))
    is_told = report["shown id"] != FIELDS["shown id"].empty  # that it is an ET record
    return ", ".join(parts + [name for name in messages_of(report) if not (is_told and name == ET_SHOWN)])


# ---------------------------------------------------------------- a refusal in words


def refusal_text(moment, last):
    """The refusal's meaning: with what is out of range, or the number that is wanted."""
    portion, meaning = moment.portion, ANSWERS.get(moment.answer, "this is no answer of 01")
    if moment.answer == OUT_OF_RANGE:
        wrong = portion.command.out_of_range(portion.values)
        told = [f"{o.name} {o.text(portion.values[o.name])}, range {o.range_text()} {o.unit.name}".rstrip() for o in wrong]
        meaning += f" ({'; '.join(told)})" if told else ""
    if moment.answer == WRONG_NUMBER and last is not None:
        meaning += f" (the last accepted is #{last})"
    return f"refused {moment.answer}, {meaning}"


def portion_text(portion):
    if portion.is_whole:
        return command_text(portion)
    if portion.command is None:
        return f"byte {portion.raw.hex().upper()}"
    return f"{portion.command.name} cut off after {len(portion.raw)} of {portion.command.length()} bytes"


def moment_text(moment, last=None):
    """A line for a moment. `last` is the number of the last accepted command."""
    told = portion_text(moment.portion)
    if moment.is_refused:
        end = "" if moment.portion.is_whole else "; the stream ends"
        return f"{told}: {refusal_text(moment, last)}{end} [{moment.portion.place}]"
    if moment.is_again:
        told += ", sent again"
    return f"{told}: {report_text(moment.report)}"
