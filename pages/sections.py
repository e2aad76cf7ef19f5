"""The parts of the page of a sheet: the question, the answer, the states, the curve, the graph and what is proved of them; or the refusal."""
import re
from decimal import Decimal
from html import escape

from reckoning.__main__ import FILES
from reckoning.formula import Label, Next, P, bounds, nodes
from reckoning.limits import HOUR
from reckoning.verdict import NO, UNDECIDED, YES
from .asking import rows
from .course import BEGINNING, course
from .decimals import chance, decimal
from .graph import MOST_DRAWN, draw_graph, has_rates
from .markup import coded, ending, figure, listed, name_of, page, section, sentence, told, verdict
from .naming import STATES, told_state
from .over_time import put
from .picture import draw_for_page
from .words import hours_words, question
from .worst import from_the_worst, like_worst, order_words

MOST_LISTED = 20            # states where a label holds
SAID = re.compile(r"refused, since .*")


def report_page(sheet, command, second):
    """The page of an accepted sheet, whose report has these lines in its second listing."""
    found = from_the_worst(sheet.tree, rows(second))
    return page(f"{sheet.name}: report", [
        *top(sheet), *question_part(sheet), *answer_part(sheet, found), *states_part(sheet, found),
        *section("curve", "Over time", curve_or_why_not(sheet, command, found)),
        *section("graph", "The states and their moves", graph_or_why_not(sheet, found)), *proof_part(sheet)])


def refusal_page(sheet, number, said, faults):
    """The page of a sheet that is turned back, with the program's sentence for the number and those that say where the fault is."""
    reason = SAID.search(said)
    return page(f"{sheet.name}: refused", [
        f"<h1>{escape(sheet.name)}</h1>", f'<p class="refused">This sheet is <strong>refused with {escape(number)}</strong>.</p>',
        *([f"<p>{sentence(reason[0])}</p>"] if reason else []), *(["<h2>Where the fault is</h2>", listed(faults)] if faults else []),
        "<h2>What is proved of this page</h2>",
        "<p>The number is the proved program's. What it means is told by the program and where the fault is by the second reckoning; neither "
        "sentence is proved. A sheet that is refused has no report. Section 8 of docs/MANUAL.md has the cure of each number.</p>",
        f"<p>{sizes(sheet)}</p>"])


def top(sheet):
    places = {"question": "question", "answer": "answer", "states": "states", "curve": "curve", "graph": "graph", "proof": "what is proved"}
    links = "".join(f'<li><a href="#{place}">{words}</a></li>' for place, words in places.items())
    return [f"<h1>{escape(sheet.name)}</h1>", f'<nav aria-label="On this page"><ul>{links}</ul></nav>']


def question_part(sheet):
    asked, *inner = question(sheet.tree)
    typed = sheet.texts[2].decode().rstrip("\n")
    return section("question", "The question", [
        f'<p class="question">{coded(asked)}</p>', *(f"<p>{coded(words)}</p>" for words in inner),
        f"<p>As typed: <code>{escape(typed, quote=False)}</code></p>", *(f"<p>{where_words(sheet, name)}</p>" for name in labels_of(sheet.tree)),
        "<p>The verdict of a state says whether this holds if things begin there.</p>"])


def labels_of(tree):
    """The labels that a formula asks about, each once."""
    return list(dict.fromkeys(node.name.decode() for node in nodes(tree) if isinstance(node, Label)))


def where_words(sheet, name):
    """The states where a label holds."""
    found = [state for state in range(sheet.chain.states) if name in sheet.labels_at(state)]
    if not found:
        return f"<code>{name}</code> holds in no state."
    shown = ", ".join(map(str, found[:MOST_LISTED])) + (f" and {len(found) - MOST_LISTED} more" if len(found) > MOST_LISTED else "")
    return f"<code>{name}</code> holds in state{'' if len(found) == 1 else 's'} {shown}."


def answer_part(sheet, found):
    """What state 0 says, how many states say what, and the worst of them."""
    count = {word: sum(row.verdict == word for row in found) for word in (YES, NO, UNDECIDED)}
    first = next(row for row in found if row.state == BEGINNING)
    return section("answer", "The answer", [
        f'<p class="question">Things begin, by custom, in {told(sheet, BEGINNING)}{with_chance(sheet, first)}: {ending(first.verdict)}</p>',
        '<ul class="counts">' + "".join(f'<li class="{word}"><b>{count[word]}</b> {word}</li>' for word in count) + "</ul>",
        f"<p>{count_words(len(found), count)}</p>",
        f"<p>The worst is {told(sheet, found[0].state)}{with_chance(sheet, found[0])}: {ending(found[0].verdict)}{others_words(found)}</p>"])


def count_words(states, count):
    says = [f"{count[word]} {'says' if count[word] == 1 else 'say'} {word}" for word in (YES, NO)]
    undecided = f"{count[UNDECIDED] or 'none'} {'are' if count[UNDECIDED] > 1 else 'is'} undecided"
    return f"Of {states} state{'' if states == 1 else 's'} {', '.join(says)} and {undecided}."


def others_words(found):
    others = like_worst(found)
    return f" {others} more {'state has' if others == 1 else 'states have'} the same interval." if others else ""


def with_chance(sheet, row):
    """The chance, to stand before a verdict; where the question is not about one probability there is none."""
    return f", with the chance {chance(row.lower, row.upper)}" if isinstance(sheet.tree, P) else ""


def states_part(sheet, found):
    bounded = isinstance(sheet.tree, P)
    heads = {"state": "State"} | ({"name": "Name"} if sheet.names else {}) | ({"number": "Chance"} if bounded else {}) | {
        "ends": "Interval in billionths", "says": "Verdict"}
    return section("states", "The states, the worst first", [
        f"<p>{order_words(sheet.tree)} {interval_words(bounded, found[0].depth)}</p>", "<table>" if bounded else '<table class="plain">',
        "<thead><tr>" + "".join(f'<th scope="col" class="{kind}">{head}</th>' for kind, head in heads.items()) + "</tr></thead>", "<tbody>",
        *(state_row(sheet, row, bounded) for row in found), "</tbody>", "</table>"])


def interval_words(bounded, depth):
    if not bounded:
        return "The question is not about one probability, so the ends only repeat the verdict; the depth is 0."
    steps = "the number of steps that it answers for" if depth else "since it is an exact fraction, rounded down and up"
    return f"The interval holds the exact probability, both ends included. Its depth is {depth}, {steps}."


def state_row(sheet, row, bounded):
    name = f'<td class="name">{name_of(sheet, row.state)}</td>' if sheet.names else ""
    decimals = f'<td class="number">{chance(row.lower, row.upper)}</td>' if bounded else ""
    return (f'<tr><th scope="row">{row.state}</th>{name}{decimals}<td class="ends">{row.lower} <span>to {row.upper}</span></td>'
            f'<td class="says">{verdict(row.verdict)}</td></tr>')


def curve_or_why_not(sheet, command, found):
    asked = bounds(sheet.tree)
    if not asked:
        return ["<p>There is no curve, since the question is not about a probability.</p>"]
    if isinstance(asked[0].path, Next):
        return ["<p>There is no curve, since the first probability that is asked about is that of the next move, which has no hours.</p>"]
    if not sheet.chain.q:
        return ["<p>There is no curve, since the sheet has no moves to other states and nothing changes with time.</p>"]
    drawn = course(command, sheet, asked[0], [row.state for row in found])
    if drawn.state is None:
        return ["<p>There is no curve, since the interval of each state reaches 0 at every time that was tried, or 1 at every one.</p>"]
    worst = [curve_words(sheet, asked[0], drawn), curve_drawing(sheet, asked[0], "worst", drawn.state, drawn.points)]
    if not drawn.beginning:
        return worst
    begun = f"<p>And this is {told(sheet, BEGINNING)}, where things begin.</p>"
    return [*worst, begun, curve_drawing(sheet, asked[0], "beginning", BEGINNING, drawn.beginning)]


def curve_words(sheet, until, drawn):
    """What the curve shows, of which state, and why of that one."""
    alone = "" if isinstance(sheet.tree, P) else ", a part of the question that is put to the program by itself"
    words = f"The curve is of <code>{escape(put(until, 't'), quote=False)}</code> over the hours t{alone}. "
    if drawn.state == drawn.worst:
        return f"<p>{words}Drawn is the worst state, {told(sheet, drawn.state)}.</p>"
    return (f"<p>{words}The worst state, {told(sheet, drawn.worst)}, has an interval that reaches {decimal(drawn.reached)} at every time, so its "
            f"curve would say nothing. Drawn is the worst of the others, {told(sheet, drawn.state)}.</p>")


def curve_drawing(sheet, until, name, state, points):
    title = f"The chance of {told_state(sheet.names, state)} over time"
    first, last = points[0], points[-1]
    chances = [chance(point.lower, point.upper) for point in (first, last)]
    about = (f"From {first.hours} to {last.hours} hours the chance goes from {' to '.join(chances)}; the question asks about "
             f"{hours_words(until.path.times[-1])}.")
    asked = Decimal(until.path.times[-1]) / HOUR
    drawing = draw_for_page(name, title, about, points, until.threshold, asked)
    note = f"The {len(points)} points are answers of the proved program; the lines between them are drawn."
    return figure(drawing, title, note)


def graph_or_why_not(sheet, found):
    if len(found) > MOST_DRAWN:
        return [f"<p>There is no drawing, since the sheet has {len(found)} states and over {MOST_DRAWN} are not drawn.</p>"]
    verdicts = {row.state: row.verdict for row in found}
    return [figure(draw_graph(sheet, verdicts, found[0].state), "Graph of states and moves", graph_words(sheet))]


def graph_words(sheet):
    rates = "The number at an arrow is its rate" if has_rates(sheet) else "For want of room no rates are shown: point at an arrow to read its rate"
    return (f"The colour of a state is its verdict: {verdict(YES)} {verdict(NO)} {verdict(UNDECIDED)}. A triangle marks state 0, a second line "
            f"the worst state. {rates}, in moves per million hours. Rates of a pair that stands on several lines are added together.")


def proof_part(sheet):
    return section("proof", "What is proved of this page", [
        "<p>States, intervals, depth and verdicts are taken from the report of the proved program, and so are the points of the curve, "
        "each from a report of its own.</p>",
        "<p>The decimals are these intervals written otherwise. The words of the question, the graph and the lines between the points are made "
        "by the readers of the second reckoning and by drawing; they are not proved.</p>",
        "<p>No chance, interval or verdict is worked out anew for this page.</p>", f"<p>{sizes(sheet)}{names_from(sheet)}</p>"])


def sizes(sheet):
    texts = [f"<code>{name}</code> {len(text):,} bytes" for name, text in zip(FILES, sheet.texts)]
    return f"The texts: {', '.join(texts)}."


def names_from(sheet):
    return f" Names of states are from <code>{STATES}</code>, which the program does not read." if sheet.names else ""
